"""Processes that a play started, or that these started, by what the system tells of them: their children, their folder, their ports, their memory."""
import os
import signal
import socket
import time

from .play import Folder

LISTENING = "0A"  # the state of a socket that waits for connections, as /proc/net/tcp has it
HERE = "0100007F"  # 127.0.0.1, as it stands there


# -- one process -----------------------------------------------------------------------------------------------------------------------


def children(pid):
    """The processes that this one started, and that it has not waited for."""
    try:
        with open(f"/proc/{pid}/task/{pid}/children", encoding="ascii") as told:
            return [int(word) for word in told.read().split()]
    except OSError:
        return []


def goes_on(pid):
    """Whether a process is there and has not ended; one that nobody waited for has."""
    try:
        with open(f"/proc/{pid}/stat", encoding="utf-8", errors="replace") as told:
            return told.read().rpartition(")")[2].split()[0] not in ("Z", "X")
    except OSError:
        return False


def ends(pid, seconds=20.0):
    """Whether a process ends by itself within that time."""
    until = time.monotonic() + seconds
    while goes_on(pid):
        if time.monotonic() > until:
            return False
        time.sleep(0.001)
    return True


def end(pid):
    """Ends a process."""
    try:
        os.kill(pid, signal.SIGKILL)
    except ProcessLookupError:
        pass


def resident(pid):
    """The bytes of memory that a process holds, 0 where it has ended."""
    try:
        with open(f"/proc/{pid}/status", encoding="utf-8", errors="replace") as told:
            return next((int(line.split()[1]) * 1024 for line in told if line.startswith("VmRSS:")), 0)
    except OSError:
        return 0


def names_of(folder):
    """The names in a folder, none where it is not there."""
    try:
        return os.listdir(folder)
    except OSError:
        return []


def files_of(pid):
    """What a process has open, as the system names it."""
    found = []
    for name in names_of(f"/proc/{pid}/fd"):
        try:
            found.append(os.readlink(f"/proc/{pid}/fd/{name}"))
        except OSError:
            pass
    return found


# -- ports -----------------------------------------------------------------------------------------------------------------------------


def sockets(pid):
    """The sockets at which a process waits for connections, as the system writes them: an address, a port, and how many it has not accepted."""
    held, found = files_of(pid), []
    for table in ("tcp", "tcp6"):
        with open(f"/proc/net/{table}", encoding="ascii") as told:
            for fields in (line.split() for line in told.readlines()[1:]):
                if fields[3] == LISTENING and f"socket:[{fields[9]}]" in held:
                    address, _, port = fields[1].partition(":")
                    found.append((address, int(port, 16), int(fields[4].partition(":")[2], 16)))
    return found


def listening(pid):
    """The addresses and ports at which a process waits for connections, as the system writes them: (127.0.0.1 is `HERE`, a port)."""
    return [(address, port) for address, port, _ in sockets(pid)]


def is_waiting(pid):
    """Whether it waits for a connection, at one port of 127.0.0.1 and no other, and nobody has connected."""
    return goes_on(pid) and [(address, came) for address, _, came in sockets(pid)] == [(HERE, 0)]


def is_refused(address, port):
    """Whether a connection there is refused."""
    with socket.socket() as tried:
        tried.settimeout(5)
        try:
            tried.connect((address, port))
        except ConnectionRefusedError:
            return True
    return False


def ends_by_a_connection(pid):
    """Whether a process that waits for a connection ends by one that is closed again."""
    for _, port in listening(pid):
        socket.create_connection(("127.0.0.1", port), timeout=20).close()
    return ends(pid)


# -- a folder --------------------------------------------------------------------------------------------------------------------------


def working_in(folder):
    """The processes that go on in a folder: those that were started there, and those that these started there."""
    path, found = os.path.realpath(folder), []
    for name in filter(str.isdigit, names_of("/proc")):
        try:
            is_there = os.readlink(f"/proc/{name}/cwd") == path
        except OSError:
            continue
        if is_there and goes_on(int(name)):
            found.append(int(name))
    return found


def left_in(folder, seconds=20.0):
    """The processes that go on in a folder when those that end by themselves have: each waits for a connection, or has gone on for so long."""
    until = time.monotonic() + seconds
    while (left := working_in(folder)) and time.monotonic() < until:
        if all(map(is_waiting, left)):
            time.sleep(0.5)
            if working_in(folder) == left and all(map(is_waiting, left)):
                break
        time.sleep(0.001)
    return left


def holds_nothing(pid, folder):
    """Whether a process has no file of the folder open, and so holds no lock there."""
    return not any(path.startswith(f"{os.path.realpath(folder)}/") for path in files_of(pid))


def told_of(pid):
    """What a process is at, in words for a finding."""
    try:
        with open(f"/proc/{pid}/cmdline", "rb") as told:
            words = told.read().decode(errors="replace").split("\0")
    except OSError:
        words = []
    return f"`{' '.join(words[1:]).strip()}` is left behind, and listens at {sockets(pid)}"


class Watched(Folder):
    """A fresh folder in which no process may go on at the end: one that does was left behind, which is a finding, and is ended."""

    def __init__(self, row, files=None):
        super().__init__(files)
        self.row = row

    def __exit__(self, *failed):
        # (where the play itself failed, nothing is judged)
        for pid in working_in(self.path) if failed[0] else left_in(self.path):
            self.row.find(told_of(pid))
            end(pid)
        super().__exit__(*failed)
