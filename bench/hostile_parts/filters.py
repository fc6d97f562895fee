"""`filters` alone, with a client: its requests for memory and its calls to the outside fail, and its status and last line tell which."""
import collections
import errno
import os
import socket
import tempfile
import threading
import time

from .journal import Damaged, Kept
from .lines import agree
from .play import Folder, progress
from .processes import Watched
from .stops import numbers
from .wires import DENY, reading, send

SAME = b"c 1 7 0 " + DENY + b"\n"
SENT = SAME + b"hello\nc 16 7 1 " + DENY + b"\n" + SAME + b"n\n"
ACTS = 2  # the commands among them that are new
LAST = {0: [], 8: ["disk failed"], 9: [], 10: [], 17: ["peers failed"]}
# What it may end with where requests for memory are refused, where calls fail, and where a call moves one byte.
MEMORY, CALL, SHORT = (0, 10), (0, 8, 9, 17), (0,)


def said_port(told):
    """The port that was said, None where there is none yet."""
    first, feed, _ = os.pread(told.fileno(), 64, 0).partition(b"\n")
    word, _, port = first.partition(b" ")
    return int(port) if feed and word == b"port" and port.isdigit() else None


def answers(port):
    """What comes to a client that sends these lines and then ends its side."""
    try:
        with socket.create_connection(("127.0.0.1", port), timeout=60) as client:
            came, reader = reading(client)
            send(client, [SENT], 0)
            reader.join(60)
            return came[0]
    except OSError:
        return b""


def talked(program, folder, shim=None):
    """The status of a `filters` that is played so, its lines, and what came to its client."""
    played = []
    with tempfile.TemporaryFile() as told:
        filters = threading.Thread(target=lambda: played.append(program.play(folder, ["filters"], shim=shim, stdout=told)))
        filters.start()
        while filters.is_alive() and said_port(told) is None:
            time.sleep(0.001)
        port = said_port(told)
        came = b"" if port is None else answers(port)
        filters.join()
        return played[0].status, os.pread(told.fileno(), 4096, 0).decode(errors="replace").split("\n")[:-1], came


def acts(row, folder, how):
    """How many acts its files hold."""
    try:
        return sum(map(len, Kept(folder).filters.values()))
    except Damaged as place:
        row.find(f"{how}: a file is damaged at {place}")
        return 0


def once(program, row, shim, wanted):
    """One such fault: the status that it ends with; and the same lines, sent anew, are each answered, and each new command has one act."""
    row.tries += 1
    with Watched(row) as folder:
        status, lines, came = talked(program, folder, shim)
        how = f"{shim}: {status} {lines}, came {came[:200]!r}"
        row.stopped += status != 0
        # (where all calls fail from one on, the last line is not said either)
        told = lines[1:] if lines[:1] and lines[0].startswith("port ") else lines
        row.expect(status in wanted and (told == LAST[status] or ("FAIL_FROM" in shim and not told)), how)
        row.expect(status != 0 or agree(SENT, came), how)
        row.expect(acts(row, folder, how) <= ACTS, how)
        last, _, came = talked(program, folder)
        row.expect(last == 0 and agree(SENT, came) and acts(row, folder, how) == ACTS, f"{how}, and then {last}, came {came[:200]!r}")
    return status


def alone(program, table, rounds, draw):
    """The Nth request for memory and the Nth call to the outside of a `filters` fails, alone and with all later ones; or moves one byte."""
    if program.shim is None:
        return
    with Folder() as folder:
        tell = f"{folder}/tell"
        talked(program, folder, {"TELL": tell})
        with open(tell, encoding="ascii") as told:
            requests, calls = map(int, told.read().split())
    progress(f"pair: `filters` alone: {requests} requests, {calls} calls")
    row = table.row("pair", f"`filters` alone: requests and calls that fail ({requests} requests, {calls} calls)")
    ended = collections.Counter()
    for number in numbers(draw, requests, rounds):
        for kind in ("REFUSE", "REFUSE_FROM"):
            ended[once(program, row, {kind: number}, MEMORY)] += 1
    for number in numbers(draw, calls, rounds):
        for code in (errno.EIO, errno.ECONNRESET, errno.EINTR):
            ended[once(program, row, {"FAIL": number, "ERRNO": code}, CALL)] += 1
        ended[once(program, row, {"FAIL_FROM": number}, CALL)] += 1
        ended[once(program, row, {"SHORT": number}, SHORT)] += 1
    table.note(f"pair: `filters` alone ended with {', '.join(f'{status} {count} times' for status, count in sorted(ended.items()))}")
