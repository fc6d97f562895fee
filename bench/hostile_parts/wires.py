"""A client that talks to `filters`, and a program that `pair` starts in the place of `filters`: each hostile, or only odd."""
import os
import socket
import struct
import subprocess
import tempfile
import threading
import time

from .hands import AGENTS_LOCK, Started
from .journal import Damaged, Kept, kinds, record
from .lines import MOST_IDLE, MOST_LINE, MOST_TEXT, agree, command
from .play import SECONDS, Played, progress, put
from .processes import HERE, Watched, children, end, ends, goes_on, is_refused, listening
from .reference import is_record

DENY = b'{"action":"deny","target":{"ipv4_net":"198.51.100.7"}}'
REPLY = b'{"results":{"slpf":{"rule_number":1}},"status":200}'
TOO_LONG = (11, ["limit: line 1048610"])
FLOODED = (15, ["flooded"])
PEERS_FAILED = (17, ["peers failed"])
QUIET = (0, [])
RESET = struct.pack("ii", 1, 0)  # a socket that is closed then answers with a reset


# -- a client --------------------------------------------------------------------------------------------------------------------------


class Limited(Started):
    """A run of the program that goes on beside others, and is ended where it does not end by itself within five minutes."""

    def end(self):
        if not ends(self.process.pid, SECONDS):
            end(self.process.pid)
        return super().end()


class Filters(Limited):
    """A `filters` that goes on, and the port that it said."""

    def __init__(self, program, folder):
        super().__init__(program, folder, ["filters"])
        self.port = None
        until = time.monotonic() + 60
        while self.port is None and self.goes_on() and time.monotonic() < until:
            self.port = self.said_port()
            time.sleep(0.001)

    def said_port(self):
        said = os.pread(self.told.fileno(), 64, 0)
        words = said.split(b"\n")[0].split(b" ")
        return int(words[1]) if b"\n" in said and len(words) == 2 and words[0] == b"port" and words[1].isdigit() else None

    def connect(self):
        client = socket.create_connection(("127.0.0.1", self.port), timeout=60)
        client.setsockopt(socket.IPPROTO_TCP, socket.TCP_NODELAY, 1)
        return client


def reading(client):
    """Begins to read all that comes until the end; answers a list that will have it as its one element, and who reads."""
    came = []

    def read():
        found = bytearray()
        try:
            while block := client.recv(65_536):
                found += block
        except OSError:
            pass
        came.append(bytes(found))

    reader = threading.Thread(target=read)
    reader.start()
    return came, reader


def send(client, pieces, pause):
    """Sends the pieces, with a pause behind each; whether all went."""
    try:
        for piece in pieces:
            client.sendall(piece)
            if pause:
                time.sleep(pause)
        client.shutdown(socket.SHUT_WR)
    except OSError:
        return False
    return True


class Clients:
    """Trials of clients of `filters`."""

    def __init__(self, program, table):
        self.program, self.table = program, table

    def row(self, what):
        return self.table.row("pair", what)

    def talk(self, row, pieces, right=QUIET, pause=0.0, before=None):
        """A client sends these pieces and then ends its side: each line has its answer, and `filters` ends so, with no further line."""
        row.tries += 1
        with Watched(row, before) as folder:
            filters = Filters(self.program, folder)
            if not row.expect(filters.port, f"no port was said: {filters.said_port()}"):
                return None
            with filters.connect() as client:
                came, reader = reading(client)
                all_went = send(client, pieces, pause)
                reader.join(120)
            ended, sent = filters.end(), b"".join(pieces)
            how = f"{sent[:60]!r} .. {sent[-20:]!r}, {len(sent)} bytes in {len(pieces)} pieces"
            row.expect((ended.status, ended.lines[1:]) == right, f"{how}: {ended}")
            if right == QUIET:
                row.expect(all_went and agree(sent, came[0]), f"{how}: came {came[0][:200]!r}, {len(came[0])} bytes")
            row.stopped += right != QUIET
            return self.acts(row, folder, sent, how)

    def acts(self, row, folder, sent, how):
        """The files hold acts of the commands that were sent, each run and issue once for an agent, and `rules` reads them."""
        commands = [told for line in sent.split(b"\n")[:-1] if (told := command(line))]
        try:
            kept = Kept(folder)
        except Damaged as place:
            return row.find(f"{how}: a file is damaged at {place}")
        firsts = {}
        for agent, run, issue, text in commands:
            firsts.setdefault((agent, run, issue), text)
        for agent in kept.agents():
            told = self.program.play(folder, ["rules", str(agent)])
            row.expect(told.status == 0, f"{how}: {told}")
        acts = sum(map(len, kept.filters.values()))
        return row.expect(acts <= len(firsts), f"{how}: {acts} acts on {len(firsts)} commands")

    def odd_lines(self):
        row = self.row("lines that `filters` gets: by the grammar, and next to it")
        good = [
            b"c 1 7 0 " + DENY,
            b"c 16 9007199254740991 4294967295 " + DENY,
            b"c 1 1 0 ",
            b"c 2 7 1  leading space",
            b"c 3 7 1 \xff\xfe\x00\r",
            b"c 4 7 1 " + b"x" * 65_536,
            b"c 5 7 1 " + b"[" * 200,
        ]
        odd = [b"", b"n", b"N", b"hello", b"c", b"c ", b"c 1 7 0", b"C 1 7 0 x", b"c 0 7 0 x", b"c 17 7 0 x", b"c 01 7 0 x", b"c 1 0 0 x", b"c 1 07 0 x"]
        odd += [b"c 1 9007199254740992 0 x", b"c 1 7 4294967296 x", b"c 1 7 00 x", b"c 1 7 -1 x", b"c 1 7 +1 x", b"c  1 7 0 x", b" c 1 7 0 x", b"c\t1 7 0 x"]
        odd += [b"r 1 7 0 " + REPLY, b"c 1 99999999999999999999999 0 x", b"c 1 7 0\rx", b"\x00", b"\xff" * 100, b"c 1 7 0x x", b"port 1", b"n n"]
        for line in [*good, *odd]:
            self.talk(row, [line + b"\n"])
            self.talk(row, [b"n\n" + line + b"\n" + good[0] + b"\n"])
        self.talk(row, [b"\n".join([*good, *odd, *good, b""])])

    def pieces(self):
        row = self.row("nothing, half lines, and lines in pieces")
        line = b"c 1 7 0 " + DENY + b"\n"
        self.talk(row, [])
        for place in range(0, len(line), 7):
            self.talk(row, [line[:place]])
            self.talk(row, [line, line[:place]])
        self.talk(row, [bytes([byte]) for byte in line * 2], pause=0.0005)
        self.talk(row, [line[:9], line[9:] + line[:9], line[9:]], pause=0.05)

    def long_lines(self):
        row = self.row(f"long lines: up to {MOST_LINE:,} bytes, and one more")
        front = b"c 16 9007199254740991 4294967295 "
        longest = front + b"x" * MOST_TEXT + b"\n"
        self.talk(row, [longest])
        self.talk(row, [longest * 3])
        for line, right in [
            (front + b"x" * (MOST_TEXT + 1) + b"\n", TOO_LONG),
            (b"x" * MOST_LINE + b"\n", TOO_LONG),
            (b"x" * (MOST_LINE - 1) + b"\n", QUIET),
            (b"c 1 7 0 " + b"x" * (MOST_TEXT + 1) + b"\n", QUIET),
            (b"x" * (MOST_LINE - 1), QUIET),
            (b"x" * MOST_LINE, QUIET),
            (b"x" * (MOST_LINE + 1), TOO_LONG),
            (b"x" * 8_000_000, TOO_LONG),
        ]:
            self.talk(row, [line], right)
            self.talk(row, [b"c 1 7 0 " + DENY + b"\n", line], right)
        self.held_open(row)

    def held_open(self, row):
        """A line without an end, over a connection that stays open."""
        row.tries += 1
        with Watched(row) as folder:
            filters = Filters(self.program, folder)
            with filters.connect() as client:
                client.sendall(b"x" * (MOST_LINE + 1))
                row.expect(ends(filters.process.pid), "`filters` waits behind a line that is too long")
            ended = filters.end()
            row.expect((ended.status, ended.lines[1:]) == TOO_LONG, f"{ended}")

    def floods(self, most):
        row = self.row(f"{most:,} lines that carry nothing, and one less; commands that were acted on before")
        same = b"c 1 7 0 " + DENY + b"\n"
        few = [(b"n\n" * (MOST_IDLE - 1), QUIET), (b"n\n" * MOST_IDLE, FLOODED), (b"hello\n" * (MOST_IDLE - 1) + same, QUIET)]
        many = [(same * MOST_IDLE, QUIET), (same * (MOST_IDLE + 1), FLOODED), ((same + b"n\n") * (MOST_IDLE // 2), QUIET)]
        for sent, right in [*few, *(many if most >= MOST_IDLE else [])]:
            self.talk(row, [sent], right)

    def resets(self, rounds, draw):
        """A client that breaks off, with a reset, at some moment: 17 or 0, and what was acted on stands once."""
        row = self.row("a client that breaks off with a reset")
        for _ in range(rounds):
            row.tries += 1
            with Watched(row) as folder:
                filters, sent = Filters(self.program, folder), b"".join(b"c 1 7 %d " % issue + DENY + b"\n" for issue in range(50))
                client = filters.connect()
                client.setsockopt(socket.SOL_SOCKET, socket.SO_LINGER, RESET)
                client.sendall(sent[: draw.randrange(len(sent))])
                time.sleep(draw.random() / 100)
                client.close()
                ended = filters.end()
                row.stopped += ended.status == 17
                row.expect((ended.status, ended.lines[1:]) in (QUIET, PEERS_FAILED), f"{ended}")
                self.acts(row, folder, sent, "reset")

    def by_chance(self, rounds, draw):
        row = self.row("lines that are changed by chance, in pieces by chance")
        line = b"c 1 7 0 " + DENY + b"\n"
        for _ in range(rounds):
            sent = bytearray()
            for issue in range(draw.randrange(1, 20)):
                one = bytearray(line.replace(b" 0 ", b" %d " % issue))
                for _ in range(draw.choice([0, 0, 1, 2])):
                    one[draw.randrange(len(one))] = draw.choice(b"\n \x00\r019cn{}\"\xff")
                sent += one
            cuts = sorted(draw.randrange(len(sent)) for _ in range(draw.randrange(6)))
            pieces = [bytes(sent[a:b]) for a, b in zip([0, *cuts], [*cuts, len(sent)])]
            self.talk(row, pieces, pause=draw.choice([0, 0, 0.001]))

    def port(self):
        """It listens at 127.0.0.1 alone, for one connection."""
        row = self.row("`filters` listens at 127.0.0.1 alone, and for one connection")
        with Watched(row) as folder:
            row.tries += 1
            filters = Filters(self.program, folder)
            at = listening(filters.process.pid)
            row.expect(at == [(HERE, filters.port)], f"it listens at {at}")
            for address in ("127.0.0.2", own_address()):
                row.expect(address is None or is_refused(address, filters.port), f"a connection to {address} is not refused")
            with filters.connect() as client:
                client.sendall(b"n\n")
                row.expect(client.recv(2) == b"n\n", "no answer")
                row.expect(is_refused("127.0.0.1", filters.port) and not listening(filters.process.pid), "it listens behind the first connection")
                row.expect(os.listdir(folder) == [AGENTS_LOCK], f"{os.listdir(folder)}")
            ended = filters.end()
            row.expect(ended.status == 0 and not os.listdir(folder), f"{ended}, {os.listdir(folder)}")


def own_address():
    """An address of this machine that is not of itself alone; None where it has none."""
    with socket.socket(socket.AF_INET, socket.SOCK_DGRAM) as tried:
        try:
            tried.connect(("192.0.2.1", 9))
            return tried.getsockname()[0]
        except OSError:
            return None


def clients(program, table, rounds, draw):
    trials = Clients(program, table)
    for trial in (trials.port, trials.odd_lines, trials.pieces, trials.long_lines):
        progress(f"pair: {trial.__name__}")
        trial()
    progress("pair: floods")
    trials.floods(MOST_IDLE if rounds >= 100 else 1)
    progress("pair: resets, and by chance")
    trials.resets(rounds, draw)
    trials.by_chance(rounds, draw)


# -- a program in the place of `filters` -----------------------------------------------------------------------------------------------


STAND_IN = """#!/bin/sh
{said}
"""


class Servers:
    """Trials of programs that `pair` starts in the place of `filters`. `pair` starts what its first argument names, so it is given that name."""

    def __init__(self, program, case, table):
        self.program, self.case, self.table = program, case, table

    def pair(self, folder, said, name="./stand-in", words=None):
        """Runs `pair` where the program that it starts does what the shell text says, and answers what it played and which processes it left."""
        put(folder, "stand-in", STAND_IN.format(said=said).encode())
        os.chmod(f"{folder}/stand-in", 0o755)
        with tempfile.TemporaryFile() as told:
            how = {"cwd": folder, "env": {"PATH": f"{folder}:/usr/bin:/bin"}, "stdin": subprocess.DEVNULL, "stdout": told, "stderr": subprocess.DEVNULL}
            process = subprocess.Popen([name, *(words or self.words())], executable=self.program.path, **how)
            started, until = set(), time.monotonic() + SECONDS
            while process.poll() is None:
                started.update(children(process.pid))
                time.sleep(0.002)
                if time.monotonic() > until:
                    process.kill()
            told.seek(0)
            return Played([name, *self.words()], process.returncode, told.read()), {pid for pid in started if goes_on(pid)}

    def words(self):
        return ["pair", *self.case.stages[0][1:]]

    def refused(self):
        """No port, a false one, or none that listens: the peers failed, nothing was written, and the other process is gone."""
        row = self.table.row("pair", "a program that says no port, or at whose port nobody listens")
        with socket.socket() as taken:
            taken.bind(("127.0.0.1", 0))
            silent = taken.getsockname()[1]
            texts = ["", "port", "port ", "port 0", "port 65536", "port 01", "port +1", "port -1", "port 1 ", " port 1", "Port 1", "port 1\\r", "port 99999999"]
            says = [f"printf '{text}\\n'" for text in texts] + ["printf 'port 1'", "printf 'port 12345678901234567890'", "yes port", "exit 1", "kill -9 $$"]
            says += [f"echo port {silent}", f"echo port {silent}; exec sleep 1000", "echo port 0; exec sleep 1000", "echo; exec sleep 1000"]
            for said in says:
                row.tries += 1
                with Watched(row, self.case.files) as folder:
                    begun = time.monotonic()
                    played, left = self.pair(folder, said)
                    row.stopped += 1
                    row.expect((played.status, played.lines) == PEERS_FAILED, f"{said!r}: {played}")
                    row.expect(not left, f"{said!r}: a process is left behind")
                    row.expect(set(os.listdir(folder)) == {*self.case.files, "stand-in"}, f"{said!r}: {os.listdir(folder)}")
                    row.expect(time.monotonic() - begun < 60, f"{said!r}: it took {time.monotonic() - begun:.0f} s")
                    [end(pid) for pid in left]
        for name in ("./none", "none", "/", "", "./book.json", "stand-in/none"):
            row.tries += 1
            with Watched(row, self.case.files) as folder:
                played, _ = self.pair(folder, "echo port 0", name)
                row.expect((played.status, played.lines) == PEERS_FAILED, f"started by {name!r}: {played}")

    def answered(self, row, came, wanted, close=True):
        """`pair` sends its lines to a server that answers each with these bytes; the records are those of the lines that carry a reply to it."""
        row.tries += 1
        with Watched(row, self.case.files) as folder, socket.socket() as listener:
            listener.bind(("127.0.0.1", 0))
            listener.listen(1)
            got = []
            server = threading.Thread(target=serve, args=(listener, came, got, close))
            server.start()
            played, left = self.pair(folder, f"echo port {listener.getsockname()[1]}")
            server.join(60)
            how = f"{came[:80]!r}, {len(came)} bytes: {played}"
            row.expect(not left and not server.is_alive(), f"{how}: a process is left behind")
            row.expect(played.status in wanted, how)
            try:
                records = [record(entry) for entry in Kept(folder).engine]
            except (Damaged, ValueError) as error:
                return row.find(f"{how}: {error}")
            said = [line for line in played.lines if is_record(line)]
            row.expect(len(said) == len(records), f"{how}: {len(records)} records")
            shown = self.program.play(folder, ["show"])
            row.expect(shown.status == 0 and f"records {len(records)}" in shown.lines, f"{how}: {shown}")
            row.expect(all(command(line) for line in b"".join(got).split(b"\n")[:-1]), f"{how}: it sent {got}")
            return kinds(Kept(folder))[0]

    def replies(self):
        """Lines that are no reply to the command expire it; a reply among them answers it."""
        row = self.table.row("pair", "lines that `pair` gets: replies, others, long ones, half ones, none")
        right = b"r 1 7 0 " + REPLY + b"\n"
        others = [b"n\n", b"\n", b"hello\n", b"c 1 7 0 " + DENY + b"\n", b"r 2 7 0 " + REPLY + b"\n", b"r 1 8 0 " + REPLY + b"\n", b"r 1 7 1 " + REPLY + b"\n"]
        others += [b"r 01 7 0 " + REPLY + b"\n", b"r 1 7 0 \n", b"r 1 7 0 {}\n", b"r 1 7 0 " + REPLY + b"x\n", b"\xff\x00\n", b'r 1 7 0 {"status":102}\n', b'r 1 7 0 {"status":201}\n']
        others += [b"r 1 7 0 " + REPLY[:-1] + b"\n", b"x" * (MOST_LINE - 1) + b"\n", b"r 1 7 0 " + b"x" * MOST_TEXT + b"\n"]
        for came in others:
            told = self.answered(row, came, (0, 6))
            row.expect(told is None or told.get("reply", 0) == 0 and told.get("expire") == 1, f"{came[:80]!r}: {told}")
            # The command is put again, up to its deadline, and each time one line is read.
            told = self.answered(row, came + right, (0, 6))
            row.expect(told is None or told.get("reply", 0) + told.get("expire", 0) == 1, f"{came[:80]!r} and a reply: {told}")
        for came in [b"", right[:-1], right[:9], b"x" * (MOST_LINE + 1), b"x" * 5_000_000]:
            told = self.answered(row, came, (0, 6))
            row.expect(told is None or told.get("expire") == 1, f"{came[:80]!r}: {told}")
        for came in [right, right * 2, right + b"x" * 5_000_000, right + b"n\n" * 100_000]:
            told = self.answered(row, came, (0, 6))
            row.expect(told is None or told.get("reply") == 1 and "expire" not in told, f"{came[:80]!r}: {told}")


def serve(listener, came, got, close):
    """Accepts one connection, answers each block that comes with the same bytes, and keeps what came."""
    listener.settimeout(60)
    try:
        client, _ = listener.accept()
        with client:
            while block := client.recv(65_536):
                got.append(block)
                client.sendall(came)
                if close and not came.endswith(b"\n"):
                    return
    except OSError:
        pass


def servers(program, case, table):
    trials = Servers(program, case, table)
    progress("pair: programs in the place of `filters`")
    trials.refused()
    trials.replies()
