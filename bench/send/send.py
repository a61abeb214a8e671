"""Times `send` over loopback. `run.sh` in this folder starts it: send.py PROGRAM FOLDER."""

import pathlib
import socket
import subprocess
import sys
import time

PROGRAM, FOLDER = sys.argv[1], pathlib.Path(sys.argv[2])
TIMES = 5
# A session ends at its millionth character, so 1,000 pages of 1,000 characters take two calls.
CALLS = 2
PAGES = 500
SETTINGS = 'cells = 65536\nsubscriber = [{id = "5551234", capcode = 8, class = "alpha"}]\n'
# How long the station may take to listen and to end, in seconds.
PATIENCE = 60


def free_address():
    """An address of this machine whose port nobody has."""
    with socket.create_server(("127.0.0.1", 0)) as free:
        return "%s:%d" % free.getsockname()


def listens(address):
    """Whether a socket listens there. It is read from the kernel's table, since a connection would count as a session."""
    port = f":{int(address.rpartition(':')[2]):04X}"
    rows = (row.split() for row in pathlib.Path("/proc/net/tcp").read_text().splitlines()[1:])
    return any(row[1].endswith(port) and row[3] == "0A" for row in rows)


def seconds(pages):
    """The calls one after another, each from the start of `send` to its end. Every page has to be sent and queued."""
    address = free_address()
    words = [PROGRAM, "station", address, FOLDER / "settings.toml", FOLDER / f"air-{time.monotonic_ns()}", str(CALLS)]
    with subprocess.Popen(words, stdout=subprocess.PIPE, text=True) as station:
        try:
            until = time.monotonic() + PATIENCE
            while not listens(address):
                if station.poll() is not None or time.monotonic() > until:
                    sys.exit("the station doesn't listen")
                time.sleep(0.01)
            took = 0.0
            for _ in range(CALLS):
                start = time.perf_counter()
                sent = subprocess.run([PROGRAM, "send", address, pages], stdout=subprocess.PIPE, text=True, check=False)
                took += time.perf_counter() - start
                if sent.returncode != 0 or sent.stdout.count(" sent\n") != PAGES:
                    sys.exit(f"send ended with {sent.returncode}, {sent.stdout.count(' sent')} of {PAGES} pages sent")
            report, _ = station.communicate(timeout=PATIENCE)
        finally:
            if station.poll() is None:
                station.kill()
    if report.count(f" ended pages {PAGES} ") != CALLS:
        sys.exit(report)
    return took


def pages_file(length):
    name = FOLDER / f"pages-{length}"
    name.write_text("PG1\n" + PAGES * f"5551234 {'x' * length}\n")
    return name


(FOLDER / "settings.toml").write_text(SETTINGS)
lengths = (400, 1000)
files = [pages_file(length) for length in lengths]
# The two take turns, so that both meet what else the machine does.
least = [min(times) for times in zip(*([seconds(file) for file in files] for _ in range(TIMES)))]
print("| pages | `send`, s | pages a second | to 400 characters |")
print("|---|---|---|---|")
for length, took in zip(lengths, least):
    print(f"| {CALLS * PAGES:,} of {length:,} characters, in {CALLS} calls | {took:.3f} | {CALLS * PAGES / took:,.0f} | {took / least[0]:.2f} |")
