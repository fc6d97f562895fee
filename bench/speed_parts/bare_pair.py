#!/usr/bin/env python3
"""Two processes with a socket between them that keep the entries of a run and of its filter, with no other work.

usage: bare_pair.py ENGINE FILTER ENGINE-OUT FILTER-OUT

The first writes the entries of the journal ENGINE, and behind each Send a line with its command, and waits for a line. The second
writes the next entry of FILTER for each line that comes, and then sends one. Each entry has a write, a sync, the byte of its gate
and a sync.
"""
import os
import socket
import subprocess
import sys

from bare_loop import entries

SEND = 3


def opened(name, image):
    out = os.open(name, os.O_RDWR | os.O_CREAT, 0o644)
    os.pwrite(out, image[:8] + b"\0", 0)
    os.fsync(out)
    return out


def append(out, gate, data):
    os.pwrite(out, data, gate + 1)
    os.fsync(out)
    os.pwrite(out, b"\1", gate)
    os.fsync(out)


def image_of(name):
    with open(name, "rb") as file:
        return file.read()


def serve(model, name):
    image = image_of(model)
    acts, out = entries(image), opened(name, image)
    with socket.create_server(("127.0.0.1", 0)) as server:
        print(server.getsockname()[1], flush=True)
        link, _ = server.accept()
    link.setsockopt(socket.IPPROTO_TCP, socket.TCP_NODELAY, 1)
    with link, link.makefile("rb") as lines:
        for _ in lines:
            append(out, *next(acts))
            link.sendall(b'r 1 7 0 {"results":{"slpf":{"rule_number":1}},"status":200}\n')


def ask(model, name, acts, kept):
    image = image_of(model)
    out = opened(name, image)
    with subprocess.Popen([sys.executable, __file__, "serve", acts, kept], stdout=subprocess.PIPE) as other:
        with socket.create_connection(("127.0.0.1", int(other.stdout.readline()))) as link:
            link.setsockopt(socket.IPPROTO_TCP, socket.TCP_NODELAY, 1)
            with link.makefile("rb") as lines:
                for gate, data in entries(image):
                    append(out, gate, data)
                    if data[4] == SEND:
                        link.sendall(b"c 1 7 0 " + data[26:-1] + b"\n")
                        lines.readline()


if __name__ == "__main__":
    if sys.argv[1] == "serve":
        serve(*sys.argv[2:])
    else:
        ask(sys.argv[1], sys.argv[3], sys.argv[2], sys.argv[4])
