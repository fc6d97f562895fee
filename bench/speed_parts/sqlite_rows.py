#!/usr/bin/env python3
"""Puts the entries of a journal into a table of SQLite, one row a transaction, with synchronous=FULL.

usage: sqlite_rows.py JOURNAL FILE delete|wal
"""
import sqlite3
import sys

from bare_loop import entries


def main(journal, name, mode):
    with open(journal, "rb") as file:
        image = file.read()
    base = sqlite3.connect(name, isolation_level=None)
    base.execute(f"PRAGMA journal_mode={mode}")
    base.execute("PRAGMA synchronous=FULL")
    base.execute("CREATE TABLE entries (number INTEGER PRIMARY KEY, bytes BLOB)")
    for _, data in entries(image):
        base.execute("INSERT INTO entries (bytes) VALUES (?)", (data[4:-1],))
    base.close()


if __name__ == "__main__":
    main(*sys.argv[1:])
