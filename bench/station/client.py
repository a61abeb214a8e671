"""Times the station over loopback, by both entry lines. `run.sh` in this folder starts it: client.py PROGRAM FOLDER."""

import multiprocessing
import pathlib
import socket
import subprocess
import sys
import threading
import time

PROGRAM, FOLDER = sys.argv[1], pathlib.Path(sys.argv[2])
TIMES = 5
LOGON = b"\r\x1bPG1\r"
GO = b"ID=\x06\r\x1b[p\r"
GOODBYE = b"\x04\r"
END = b"\x1b\x04\r"
ACK = b"\x06\r"
GREETING = b"220 pocsag\r\n"
OK = b"250 OK\r\n"
QUIT = b"QUIT\r\n"
BYE = b"221 bye\r\n"
SETTINGS = 'cells = 65536\nsubscriber = [{id = "5551234", capcode = 8, class = "alpha"}]\n'


def block(text):
    """A block with the end ETX, for the one subscriber."""
    front = b"\x025551234\r" + text + b"\r\x03"
    total = sum(front) % 4096
    return front + bytes(0x30 + (total >> at & 15) for at in (8, 4, 0)) + b"\r"


def lines(text):
    """The lines of a page of SNPP, for the one subscriber."""
    return b"PAGE 5551234\r\n", b"MESS " + text + b"\r\n", b"SEND\r\n"


def free_address():
    """An address of this machine whose port nobody has. Each station gets one of its own: a port may stay taken after a run."""
    with socket.create_server(("127.0.0.1", 0)) as free:
        return free.getsockname()


class Station:
    """A station that serves so many connections, by the command `station` or `snpp`. At its end it was waited for."""

    def __init__(self, connections, command="station"):
        self.address = free_address()
        words = [PROGRAM, command, "%s:%d" % self.address, FOLDER / "settings.toml", FOLDER / f"air-{self.address[1]}", str(connections)]
        self.report = FOLDER / f"report-{self.address[1]}"
        with self.report.open("w") as report:
            self.process = subprocess.Popen(words, stdout=report)

    def dial(self):
        for _ in range(1000):
            try:
                line = socket.create_connection(self.address, 60)
                line.setsockopt(socket.IPPROTO_TCP, socket.TCP_NODELAY, 1)
                return line
            except ConnectionRefusedError:
                time.sleep(0.01)
        sys.exit("the station doesn't listen")

    def ends(self, pages):
        self.process.wait(60)
        report = self.report.read_text()
        counted = sum(int(line.split()[4]) for line in report.splitlines())
        if self.process.returncode != 0 or counted != pages:
            sys.exit(f"{self.process.returncode} {report}")


def hear(line, size):
    """So many bytes from the line."""
    heard = b""
    while len(heard) < size:
        piece = line.recv(65536)
        if not piece:
            break
        heard += piece
    return heard


def session_of(text):
    """A session of TAP of nearly 1,000,000 characters, what is said to it, and how many pages it has."""
    one = block(text)
    count = (1_000_000 - 1 - len(LOGON) - len(GOODBYE)) // len(one)
    return LOGON + one * count + GOODBYE, GO + ACK * count + END, count


def snpp_session_of(text):
    """The same of SNPP."""
    one = b"".join(lines(text))
    count = (1_000_000 - 1 - len(QUIT)) // len(one)
    return one * count + QUIT, GREETING + OK * (3 * count) + BYE, count


def whole(command, session, wanted, count):
    """A session that is said at once: seconds to the last reply, and to the end of the program."""
    station = Station(1, command)
    line = station.dial()
    start = time.perf_counter()
    threading.Thread(target=line.sendall, args=(session,)).start()
    heard = hear(line, len(wanted))
    replied = time.perf_counter() - start
    assert heard == wanted
    line.close()
    station.ends(count)
    return replied, time.perf_counter() - start


def in_turn(count):
    """One session whose blocks are each said when the reply to the one before was heard: seconds."""
    one = block(b"HELLO")
    station = Station(1)
    line = station.dial()
    start = time.perf_counter()
    line.sendall(LOGON)
    assert hear(line, len(GO)) == GO
    for _ in range(count):
        line.sendall(one)
        assert hear(line, len(ACK)) == ACK
    line.sendall(GOODBYE)
    assert hear(line, len(END)) == END
    line.close()
    station.ends(count)
    return time.perf_counter() - start


def snpp_in_turn(count):
    """One session of SNPP whose lines are each said when the reply to the one before was heard: seconds."""
    page = lines(b"HELLO")
    station = Station(1, "snpp")
    line = station.dial()
    start = time.perf_counter()
    assert hear(line, len(GREETING)) == GREETING
    for _ in range(count):
        for said in page:
            line.sendall(said)
            assert hear(line, len(OK)) == OK
    line.sendall(QUIT)
    assert hear(line, len(BYE)) == BYE
    line.close()
    station.ends(count)
    return time.perf_counter() - start


def side_by_side(stations, count):
    """Such sessions with so many stations at once, each with a client of its own: seconds from the start of the first to the end of the
    last."""
    with multiprocessing.get_context("fork").Pool(stations) as clients:
        start = time.perf_counter()
        clients.map(in_turn, [count] * stations)
        return time.perf_counter() - start


TAP_TURNS = ((LOGON, GO), (block(b"HELLO"), ACK), (GOODBYE, END))
SNPP_TURNS = ((b"", GREETING), *((said, OK) for said in lines(b"HELLO")), (QUIT, BYE))


def sessions(command, turns, count):
    """Sessions one after another, each with one page and each reply heard before more is said: seconds."""
    station = Station(count, command)
    start = None
    for _ in range(count):
        line = station.dial()
        start = start or time.perf_counter()
        for said, heard in turns:
            line.sendall(said)
            assert hear(line, len(heard)) == heard
        line.close()
    station.ends(count)
    return time.perf_counter() - start


(FOLDER / "settings.toml").write_text(SETTINGS)
print("| what | time | |")
print("|---|---|---|")
for text in (b"HELLO", b"x" * 241):
    session, wanted, count = session_of(text)
    replied, ended = min(whole("station", session, wanted, count) for _ in range(TIMES))
    what = f"a session of {len(session):,} characters, {count:,} blocks of {len(block(text))}, said at once"
    print(f"| {what} | {replied:.3f} s to the End, {ended:.3f} s to the end of the program | |")
for text in (b"HELLO", b"x" * 241):
    session, wanted, count = snpp_session_of(text)
    replied, ended = min(whole("snpp", session, wanted, count) for _ in range(TIMES))
    what = f"a session of SNPP of {len(session):,} characters, {count:,} pages in three lines each, said at once"
    print(f"| {what} | {replied:.3f} s to the last reply, {ended:.3f} s to the end of the program | |")
for count in (1000, 10000):
    best = min(in_turn(count) for _ in range(TIMES))
    print(f"| {count:,} blocks in one session, each said when the reply to the one before was heard | {best:.3f} s | {count / best:,.0f} pages a second |")
best = min(snpp_in_turn(10000) for _ in range(TIMES))
print(f"| 10,000 pages in one session of SNPP, each line said when the reply to the one before was heard | {best:.3f} s | {10000 / best:,.0f} pages a second |")
for stations in (2, 4):
    best = min(side_by_side(stations, 10000) for _ in range(TIMES))
    pages = stations * 10000
    print(f"| {stations} stations side by side, 10,000 blocks likewise on each | {best:.3f} s | {pages / best:,.0f} pages a second |")
for command, turns, of in (("station", TAP_TURNS, ""), ("snpp", SNPP_TURNS, " of SNPP")):
    best = min(sessions(command, turns, 1000) for _ in range(TIMES))
    print(f"| 1,000 sessions{of} of one page, each reply heard before more is said | {best:.3f} s | {1000 / best:,.0f} sessions a second |")
