"""Hostile connections beside honest ones, against the built `station` over loopback. `run.sh` in this folder starts it:
hostile.py PROGRAM FOLDER SEED CONNECTIONS SECONDS. It stops by itself, at the latest after so many seconds."""

import collections
import dataclasses
import errno
import pathlib
import random
import select
import signal
import socket
import struct
import subprocess
import sys
import time

sys.path.insert(0, str(pathlib.Path(__file__).resolve().parent.parent / "network"))
import model

PATIENCE = 60  # seconds for one connection
A_RUN = 1000  # connections of one run of the station, the most that it serves
GROWTH = 64  # kB by which the resident set may grow within a run
CELLS = 64
SUBSCRIBERS = {b"5551234": (8, 3), b"5550002": (9, 0), b"15": (15, 1), b"8": (8, 2), b"7": (2097151, 3), b"31": (20, 0)}
# What a hostile client says once it is logged on: mostly what means something there.
MARKS = b"\x02\x02\x03\x17\x1f\x04\r\r\r\x1a0123456789:;ABCxyz \n\x00\x7f\x82\x83"
# What a client meets where the station has hung up and it says more.
CUT = {errno.EPIPE, errno.ECONNRESET, errno.ENOTCONN}
RESET = struct.pack("ii", 1, 0)


@dataclasses.dataclass
class Client:
    """What a client says, in pieces of at most so many bytes, and how it ends."""

    kind: str
    said: bytes
    # With it the client says a part, hears so many replies, and goes on.
    turns: list = None
    piece: int = 65536
    is_reset: bool = False
    # Whether it hears no reply at all. Only one that is reset does so.
    is_deaf: bool = False
    # So many of its bytes were certainly heard, where it is reset.
    least: int = 0

    def without_end(self):
        return "lost" if self.is_reset else "hung-up"


class Maker:
    """Random clients, from one seed."""

    def __init__(self, seed, password):
        self.random = random.Random(seed)
        self.password = password

    def logon(self):
        return b"\x1bPG1" + (self.password or self.random.choice([b"", b"ABCDEF"])) + b"\r"

    def page(self):
        name = self.random.choice([*SUBSCRIBERS])
        function = SUBSCRIBERS[name][1]
        if function in (1, 2):
            return name, b""
        if function == 0:
            return name, "".join(self.random.choices(model.NUMERIC, k=self.random.randint(0, 40))).rstrip(" ").encode()
        size = self.random.choice([0, 1, 5, 20, 31, 32, 33, 80, 300, 1000])
        return name, bytes(self.random.choices([*range(0x20, 0x7F), 10, 13], k=size))

    def parts(self, pages):
        """What an honest client says, each part when it has heard the reply to the one before."""
        blocks = [block for page in pages for block in model.page_blocks(*page)]
        return [b"\r", self.logon(), *blocks, b"\x04\r"]

    def honest(self):
        parts = self.parts([self.page() for _ in range(self.random.randint(1, 3))])
        kind = self.random.choice(["in turn", "in turn", "at once", "bytes"])
        if kind == "in turn":
            return Client("honest, in turn", b"".join(parts), turns=parts)
        return Client(f"honest, {kind}", b"".join(parts), piece=1 if kind == "bytes" else 65536)

    def hostile(self):
        kinds = [self.noise, self.marks, self.nothing, self.bytes_alone, self.half, self.heard_half, self.mutated, self.late]
        return self.random.choice(kinds)()

    def noise(self):
        return Client("random bytes", self.random.randbytes(self.random.choice([1, 10, 200, 3000])))

    def marks(self):
        said = bytes(self.random.choices(MARKS, k=self.random.choice([10, 300, 3000])))
        return Client("random marks", b"\r" + self.logon() + said)

    def nothing(self):
        return Client("nothing", b"", is_reset=self.random.random() < 0.3)

    def bytes_alone(self):
        said = bytes(self.random.choices(MARKS, k=200))
        return Client("bytes alone", self.random.choice([said, b"\r" + self.logon() + said, self.random.randbytes(100)]), piece=1)

    def half(self):
        """Whole blocks and half a one, and a reset, before any reply is heard."""
        *parts, last, _ = self.parts([self.page() for _ in range(self.random.randint(1, 3))])
        said = b"".join(parts) + last[: self.random.randrange(len(last))]
        return Client("half a block, reset", said, is_reset=True)

    def heard_half(self):
        """The same once all replies to the whole blocks were heard."""
        *parts, last, _ = self.parts([self.page() for _ in range(self.random.randint(1, 3))])
        half = last[: self.random.randrange(len(last))]
        return Client("replies heard, half a block, reset", b"".join(parts) + half, turns=parts, is_reset=True, least=len(b"".join(parts)))

    def mutated(self):
        said = bytearray(b"".join(self.parts([self.page() for _ in range(self.random.randint(1, 4))])))
        for _ in range(self.random.randint(1, 6)):
            at = self.random.randrange(len(said))
            said[at : at + self.random.choice([0, 1, 1, 3])] = self.random.choice([b"", b"\x02", b"\r", b"\x1a", self.random.randbytes(1)])
        return Client("a session with wrong bytes", bytes(said), piece=self.random.choice([1, 7, 100, 65536]))

    def late(self):
        parts = self.parts([self.page()])
        return Client("bytes after the goodbye", b"".join(parts) + self.random.randbytes(self.random.choice([1, 100, 20000])))

    def million(self, which):
        """About a million characters, of kinds one after another. Half of these clients say a million exactly."""
        size = 1_000_000 if which % 2 else self.random.choice([999_999, 1_000_001, 1_100_000])
        on = b"\r" + self.logon()
        block = model.page_blocks(b"8", b"")[0]
        fronts = [b"", b"", on, on + b"\x02", on]
        fills = [b"x", b"\r", b"junk\x1a", b"A", block]
        said = fronts[which % 5] + fills[which % 5] * (size // len(fills[which % 5]) + 1)
        return Client("a million characters", said[:size])

    def deaf(self):
        return Client("no reply heard, reset", b"\r" * 900_000, is_reset=True, is_deaf=True)

    def pairs(self, run, count):
        """Pairs of a hostile client and an honest one, in one order or the other. Few have many characters."""
        for k in range(count // 2):
            few = {20: lambda: self.million(2 * run), 40: lambda: self.million(2 * run + 1), 60: self.deaf}
            pair = [few.get(k, self.hostile)(), self.honest()]
            self.random.shuffle(pair)
            yield pair


def brief(said):
    return repr(said) if len(said) <= 800 else f"{len(said)} bytes, {said[:200]!r} .. {said[-50:]!r}"


def fail(text):
    raise SystemExit(f"FAILED: {text}")


def talk(client, line):
    """Says what the client says, and gives the replies, and whether they are all."""
    heard, at, is_open, until = bytearray(), 0, True, time.monotonic() + PATIENCE
    line.setblocking(False)

    def step(said):
        """Says a piece or hears some replies, and gives how many bytes were said. One that hears nothing stops at a full line."""
        nonlocal is_open
        ears, patience = ([], 0.3) if client.is_deaf else ([line], PATIENCE)
        readable, writable, _ = select.select(ears, [line] if said else [], [], patience)
        if client.is_deaf and not writable:
            is_open = False
        if not readable and not writable and not client.is_deaf or time.monotonic() > until:
            fail(f"{client.kind}: no reply for {PATIENCE} seconds after {bytes(heard)!r}")
        if readable:
            piece = line.recv(65536)
            heard.extend(piece)
            is_open = piece != b""
        return line.send(said[: client.piece]) if writable and is_open else 0

    try:
        wanted = 0
        for part in client.turns or []:
            # ID= to an empty line, End to a goodbye, Go to a logon, and Ack, Nak or Rs to a block.
            reply = {b"\r": 3, b"\x04\r": 3}.get(part, 6 if part[:1] == b"\x1b" else 2)
            wanted, end = wanted + reply, at + len(part)
            while is_open and (at < end or len(heard) < wanted):
                at += step(client.said[at:end])
        said = memoryview(client.said)
        while is_open and at < len(said):
            at += step(said[at:])
        if client.is_reset:
            line.setsockopt(socket.SOL_SOCKET, socket.SO_LINGER, RESET)
        elif is_open:
            line.shutdown(socket.SHUT_WR)
        while is_open and client.said and not client.is_reset:
            step(b"")
        is_whole = not client.is_reset and at == len(said)
    except OSError as fault:
        if fault.errno not in CUT:
            raise
        is_whole = False
    line.close()
    return bytes(heard), is_whole


class Run:
    """One run of the station. What it ought to print and append is kept until its end."""

    def __init__(self, program, folder, maker, number, count):
        self.folder, self.maker, self.number, self.count = folder, maker, number, count
        self.made, self.kinds = [], collections.Counter()
        lines = [f"cells = {CELLS}"] + (['password = "SECRET"'] if maker.password else [])
        for name, (capcode, function) in SUBSCRIBERS.items():
            lines += ["[[subscriber]]", f'id = "{name.decode()}"', f"capcode = {capcode}", f'class = "{model.CLASSES[function]}"']
        (folder / "settings").write_text("\n".join(lines) + "\n")
        with socket.create_server(("127.0.0.1", 0)) as free:
            self.address = free.getsockname()
        words = [program, "station", "%s:%d" % self.address, folder / "settings", folder / "air", str(count)]
        with open(folder / "lines", "wb") as out:
            self.process = subprocess.Popen(words, stdout=out)

    def dial(self, client):
        for _ in range(1000):
            line = socket.socket()
            line.settimeout(PATIENCE)
            if client.is_deaf:
                line.setsockopt(socket.SOL_SOCKET, socket.SO_RCVBUF, 4096)
            try:
                line.connect(self.address)
                line.setsockopt(socket.IPPROTO_TCP, socket.TCP_NODELAY, 1)
                return line
            except ConnectionRefusedError:
                line.close()
                if self.process.poll() is not None:
                    fail(f"the station ended with {self.process.returncode} after {len(self.made)} connections")
                time.sleep(0.01)
        fail("the station doesn't listen")

    def resident(self):
        status = pathlib.Path(f"/proc/{self.process.pid}/status").read_text()
        return int(next(line.split()[1] for line in status.splitlines() if line.startswith("VmRSS")))

    def session(self, said):
        return model.session(said, self.maker.password, SUBSCRIBERS, CELLS)

    def check_replies(self, client, heard, is_whole):
        answers, pages, counts = self.session(client.said)
        wanted = model.replies(answers)
        if heard != wanted if is_whole else not wanted.startswith(heard):
            fail(f"{client.kind}: said {brief(client.said)}, replied {brief(heard)}, the model {brief(wanted)}")
        if client.kind.startswith("honest") and (not is_whole or not pages or answers[-1] != "END"):
            fail(f"{client.kind}: no whole session: {answers}")

    def speak(self, pair):
        lines = [self.dial(client) for client in pair]
        # The second may say all and hang up before the first has said anything, and so before it is accepted.
        is_early = pair[1].said == b"" or pair[1].is_reset and not pair[1].turns and not pair[1].is_deaf
        for k in [1, 0] if is_early and self.maker.random.random() < 0.5 else [0, 1]:
            self.check_replies(pair[k], *talk(pair[k], lines[k]))
        self.made += pair
        self.kinds.update(client.kind for client in pair)

    def all(self):
        pairs = self.maker.pairs(self.number, self.count)
        self.speak(next(pairs))
        self.first = self.resident()
        for k, pair in enumerate(pairs, 2):
            if 2 * k == self.count:
                self.last = self.resident()
            self.speak(pair)
        self.process.wait(PATIENCE)

    def allowed(self, number, client, line):
        """The pages of the session where the line is one that the rules allow, or none. Of a client that is reset a front was heard,
        and its session is lost, unless the front ends it."""
        fronts = [len(client.said)]
        if client.is_reset:
            fronts = range(len(client.said), client.least - 1, -1) if not client.is_deaf else [0]
        for size in fronts:
            answers, pages, counts = self.session(client.said[:size])
            if line == model.report_line(number, answers, counts, client.without_end()):
                return pages
        return None

    def check(self):
        if self.process.returncode != 0:
            fail(f"the station ended with {self.process.returncode}")
        lines = (self.folder / "lines").read_text().splitlines(keepends=True)
        air = b""
        for number, (client, line) in enumerate(zip(self.made, lines, strict=True), 1):
            pages = self.allowed(number, client, line)
            if pages is None:
                answers, _, counts = self.session(client.said)
                wanted = model.report_line(number, answers, counts, client.without_end())
                fail(f"{client.kind}: said {brief(client.said)}, the line is {line!r}, the model's {wanted!r}")
            sent = model.bytes_of(model.transmission(pages))
            self.compare(number, client, len(air), sent)
            air += sent
        if (self.folder / "air").stat().st_size != len(air):
            fail("AIR is longer than all transmissions")
        if self.last > self.first + GROWTH:
            fail(f"the resident set grew from {self.first} kB to {self.last} kB")
        return sum(int(line.split()[4]) for line in lines), len(air)

    def compare(self, number, client, at, sent):
        with open(self.folder / "air", "rb") as file:
            file.seek(at)
            if file.read(len(sent)) != sent:
                fail(f"{client.kind}: the transmission of session {number} isn't in AIR at byte {at}")


def late(*_):
    fail("not done in time")


def main(program, folder, seed, connections, limit):
    signal.signal(signal.SIGALRM, late)
    signal.alarm(int(limit))
    start, left, number, kinds, all_pages = time.monotonic(), int(connections) // 2 * 2, 0, collections.Counter(), 0
    print(f"seed {seed}", flush=True)
    while left:
        number, count = number + 1, max(4, min(left, A_RUN))
        maker = Maker(f"{seed} {number}", [None, b"SECRET"][number % 2])
        run = Run(program, pathlib.Path(folder), maker, number, count)
        try:
            run.all()
        finally:
            run.process.kill()
            run.process.wait()
        pages, size = run.check()
        resident = f"resident {run.first} kB at the start, {run.last} kB at the end"
        print(f"run {number}: {count} connections, {pages} pages, {size} bytes of AIR, {resident}", flush=True)
        left, all_pages, kinds = max(0, left - count), all_pages + pages, kinds + run.kinds
    for kind, count in sorted(kinds.items()):
        print(f"{count:6} {kind}")
    print(f"{sum(kinds.values())} connections, {all_pages} pages, {time.monotonic() - start:.0f} s: all is as the model says")


main(*sys.argv[1:])
