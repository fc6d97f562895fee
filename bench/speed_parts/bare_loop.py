#!/usr/bin/env python3
"""Writes the entries of a journal into another file as an engine does, with no other work: each by a write, a sync, the byte of its gate and a sync.

usage: bare_loop.py JOURNAL FILE
"""
import os
import sys


def entries(image):
    gate = 8
    while image[gate] == 1:
        end = gate + 5 + int.from_bytes(image[gate + 1 : gate + 5], "big")
        yield gate, image[gate + 1 : end] + b"\0"
        gate = end


def main(journal, name):
    with open(journal, "rb") as file:
        image = file.read()
    out = os.open(name, os.O_RDWR | os.O_CREAT, 0o644)
    os.pwrite(out, image[:8] + b"\0", 0)
    os.fsync(out)
    for gate, data in entries(image):
        os.pwrite(out, data, gate + 1)
        os.fsync(out)
        os.pwrite(out, b"\1", gate)
        os.fsync(out)
    os.close(out)


if __name__ == "__main__":
    main(*sys.argv[1:])
