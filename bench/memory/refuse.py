"""Runs each command of the program with each of its requests for memory refused in turn, and prints a table. Words: the workspace, and the
folder of the examples. `run.sh` says how a request is refused.

A refused request must come to one of two ends:

- Memory: the status is 14, `pocsag: memory` is the one line on the error stream, nothing was printed, no file was made or changed,
  nobody could connect and nothing was dialled.
- the same run: status, output, error stream, files and connections are those of the run in which every request is met. So end the
  requests for the name of a file that stays open, and no others: ROWS says how many each command makes.
"""

import contextlib
import os
import re
import selectors
import socket
import subprocess
import sys
import threading

RANK = 1000  # the request that the toolchain refuses
AFTER = 2000  # as run.sh says
MEMORY = (14, b"", b"pocsag: memory\n")
SECONDS = 3600
PORTS = 20000  # below those that a system gives to callers
REPLIES = b"ID=\x06\r\x1b[p\r\x06\r\x06\r\x1e\r\x1b\x04\r"

# The row, the command, how many of its requests are for the name of a file that stays open, and more requests than it makes.
ROWS = [
    ("words", "words that are no command", 0, 10),
    ("one", "`one`", 0, 12),
    ("play", "`play`", 1, 15),
    ("line", "`line`", 2, 20),
    ("sampled", "`play-line`", 1, 15),
    ("show", "`show`", 1, 10),
    ("station", "`station`, AIR not there", 2, 100),
    ("taken", "`station` at an address that is taken, AIR there", 1, 100),
    ("trial", "`trial`", 2, 100),
    ("send", "`send`", 1, 20),
]


def edit(path, pairs):
    """Replaces texts that stand exactly once."""
    with open(path) as file:
        text = file.read()
    for old, new in pairs:
        if text.count(old) != 1:
            raise SystemExit(f"{path}: {old!r} doesn't stand exactly once")
        text = text.replace(old, new)
    with open(path, "w") as file:
        file.write(text)


def prepare(work):
    """Has `main` make its requests before and after the run."""
    edit(
        f"{work}/crates/page_tool/src/main.rt",
        [
            ("mod connection_tests;\n", "mod connection_tests;\nmod refusals;\n"),
            ("    let mut err = OutSink", "    let before = refusals::before(&rt, rt.stdin());\n    let mut err = OutSink"),
            (
                "    ExitCode::from(status.code())",
                '    let after = refusals::after(&rt);\n    let _ = eprintln!(rt; "requests {} {}", before, after);\n'
                "    ExitCode::from(status.code())",
            ),
        ],
    )


class Case:
    """A run: its row, the request that is refused (None for none), its files and its address."""

    def __init__(self, examples, folder, row, refused, port):
        self.name = row if refused is None else f"{row}-{refused:04}"
        self.row, self.refused, self.port = row, refused, port
        self.folder = os.path.join(folder, self.name)
        os.makedirs(self.folder)
        self.connected = []
        given = {"air": b"\xaa" * 72 + bytes.fromhex("7CD215D800003B49C14387B8C00004DC") + 13 * bytes.fromhex("7A89C197")}
        given["samples"] = b"".join(bytes(0xFF if byte >> place & 1 else 0 for place in range(7, -1, -1)) for byte in given["air"])
        for name, example in (("settings", "s1.toml"), ("pages", "pages.txt"), ("noise", "two.noise")):
            with open(os.path.join(examples, example), "rb") as file:
                given[name] = file.read()
        if row == "station":
            del given["air"]
        for name, content in given.items():
            with open(self.path(name), "wb") as file:
                file.write(content)
        self.before = self.files()

    def path(self, name):
        return os.path.join(self.folder, name)

    def files(self):
        """The files of the case, with what stands in them."""
        found = {}
        for name in os.listdir(self.folder):
            with open(self.path(name), "rb") as file:
                found[name] = file.read()
        return found

    def words(self):
        address = f"127.0.0.1:{self.port}"
        station = ["station", address, self.path("settings"), self.path("air"), "1"]
        return {
            "words": ["show", self.path("air"), "8"],
            "one": ["one", "8"],
            "play": ["play", self.path("air"), "8", "9"],
            "line": ["line", self.path("air"), self.path("line"), "1"],
            "sampled": ["play-line", self.path("samples"), "8", "9"],
            "show": ["show", self.path("air")],
            "station": station,
            "taken": station,
            "trial": ["trial", self.path("settings"), self.path("noise"), "8", "9"],
            "send": ["send", address, self.path("pages")],
        }[self.row]

    def input(self, examples):
        example = {"one": "abc.tap", "trial": "session.tap"}.get(self.row)
        if example is None:
            return b""
        with open(os.path.join(examples, example), "rb") as file:
            return file.read()

    def made_before(self):
        """How many requests are made before the run."""
        return 0 if self.refused is None else RANK - self.refused


def free_ports():
    """Ports at which nobody listens, others for each run of this program."""
    first = PORTS + os.getpid() % 10 * 1000
    for port in range(first, first + 1000):
        try:
            with socket.create_server(("127.0.0.1", port)):
                pass
        except OSError:
            continue
        yield port


def listen(servers, stop):
    """Answers as a terminal on listeners, and keeps what each connection says, by the case of its listener."""
    with selectors.DefaultSelector() as selector:
        for case, server in servers:
            selector.register(server, selectors.EVENT_READ, case)
        over = False
        while not over:
            over = stop.is_set()
            for key, _ in selector.select(0 if over else 0.5):
                line, _ = key.fileobj.accept()
                with line:
                    line.sendall(REPLIES)
                    key.data.connected.append(heard_on(line))


def heard_on(line):
    """All that is heard up to the end of a connection."""
    line.settimeout(30)
    heard = b""
    try:
        while piece := line.recv(4096):
            heard += piece
    except OSError:
        pass
    return heard


def call(cases, session, stop):
    """Tries to connect to each of the stations again and again, and holds a session with whoever answers."""
    while not stop.wait(0.1):
        for case in cases:
            try:
                with socket.create_connection(("127.0.0.1", case.port), 1) as line:
                    line.sendall(session)
                    case.connected.append(heard_on(line))
            except OSError:
                pass


def run(work, examples, cases, session):
    """Runs all cases with one call of `rt try`. Status, output and error stream of each, and the requests met before and after."""
    folder = os.path.join(work, "cases")
    os.makedirs(folder)
    for case in cases:
        with open(os.path.join(folder, case.name), "wb") as file:
            file.write(b"%04d" % case.made_before() + case.input(examples))
        with open(os.path.join(folder, case.name + ".args"), "w") as file:
            file.write("".join(word + "\n" for word in case.words()))
    stop = threading.Event()
    with contextlib.ExitStack() as open_servers:
        listening = [case for case in cases if case.row in ("taken", "send")]
        servers = [(case, open_servers.enter_context(socket.create_server(("127.0.0.1", case.port)))) for case in listening]
        stations = [case for case in cases if case.row == "station"]
        threads = [threading.Thread(target=listen, args=(servers, stop)), threading.Thread(target=call, args=(stations, session, stop))]
        for thread in threads:
            thread.start()
        try:
            words = ["rt", "try", "--fail-alloc", str(RANK), "--cases", folder]
            place = os.path.join(work, "crates", "page_tool")
            done = subprocess.run(words, cwd=place, stdin=subprocess.DEVNULL, capture_output=True, timeout=SECONDS)
        finally:
            stop.set()
            for thread in threads:
                thread.join()
    return results(cases, done)


def results(cases, done):
    """What `rt try` told of each case: it prints the output of each behind its name, and on its error stream what the case said there, and
    then how it ended."""
    parts = re.split(rb"(?:\A|(?<=\n))== ([a-z]+(?:-\d{4})?)\n", done.stdout)
    outputs = dict(zip(parts[1::2], parts[2::2]))
    found, said = {}, b""
    for line in done.stderr.splitlines(keepends=True):
        told = re.match(rb"case=(\S+) run=(?:ended status=(\d+) )?", line)
        if not told:
            said += b"" if line.startswith(b"allocations: ") else line
            continue
        requests = re.search(rb"^requests (\d+) (\d+)\n\Z", said, re.M)
        if told.group(2) and requests:
            ended = (int(told.group(2)), outputs.get(told.group(1)), said[: requests.start()])
            found[told.group(1).decode()] = ended, int(requests.group(1)), int(requests.group(2))
        said = b""
    missing = [case.name for case in cases if case.name not in found]
    if missing:
        sys.stderr.buffer.write(done.stdout[-2000:] + done.stderr[-2000:])
        raise SystemExit(f"no answer: {missing}")
    return found


def wrong(case, got, whole, whole_got):
    """What is wrong with the end of a case whose request was refused, and which end it is."""
    (ended, before, after) = got
    if before != case.made_before() or after != AFTER:
        return f"request {case.refused} wasn't refused in the run", None
    if ended == MEMORY:
        if case.files() != case.before:
            return "a file was made or changed", None
        return ("somebody was connected", None) if case.connected else (None, "memory")
    if ended != whole_got or case.connected != whole.connected or case.files() != whole.files():
        return f"status {ended[0]}, output {ended[1]!r}, error stream {ended[2]!r}", None
    return None, "same"


def main():
    work, examples = sys.argv[1:]
    prepare(work)
    with open(os.path.join(examples, "session.tap"), "rb") as file:
        session = file.read()
    folder = os.path.join(work, "files")
    ports = free_ports()
    wholes = {row: Case(examples, folder, row, None, next(ports)) for row, _, _, _ in ROWS}
    cases = [Case(examples, folder, row, n, next(ports)) for row, _, _, most in ROWS for n in range(1, most + 1)]
    got = run(work, examples, [*wholes.values(), *cases], session)
    refused = faults = 0
    print("| command | status with all memory | requests | Memory | same run |")
    print("|---|---|---|---|---|")
    for row, command, kept, most in ROWS:
        whole, (status, _, _), count = wholes[row], got[row][0], RANK - 1 - got[row][2]
        ends = {"memory": 0, "same": 0}
        if count >= most:
            print(f"{command}: {count} requests, and {most} are looked at", file=sys.stderr)
            faults += 1
        for case in cases:
            if case.row == row and case.refused <= count:
                fault, end = wrong(case, got[case.name], whole, got[row][0])
                refused += 1
                if fault:
                    print(f"{command}, request {case.refused}: {fault}", file=sys.stderr)
                    faults += 1
                else:
                    ends[end] += 1
        print(f"| {command} | {status} | {count} | {ends['memory']} | {ends['same']} |")
        if ends["same"] != kept:
            print(f"{command}: {ends['same']} refused requests made no difference, not {kept}", file=sys.stderr)
            faults += 1
    if faults:
        sys.exit(f"{faults} faults")
    print(f"{refused} runs with a refused request, and no fault")


main()
