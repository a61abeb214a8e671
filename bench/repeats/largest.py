"""Times `trial` and `twice` over the largest pool's transmission. `run.sh` in this folder starts it: largest.py PROGRAM FOLDER."""

import os
import pathlib
import sys
import time

PROGRAM, FOLDER = sys.argv[1], pathlib.Path(sys.argv[2])
TIMES = 3
CELLS = 65_536
LOGON = b"\r\x1bPG1\r"


def block(text):
    """A block with the end ETX, for the one subscriber."""
    front = b"\x021\r" + text + b"\r\x03"
    total = sum(front) % 4096
    return front + bytes(0x30 + (total >> shift & 15) for shift in (8, 4, 0)) + b"\r"


def run(command):
    """One run with no noise: seconds, and the most memory that it had, in MiB."""
    words = [PROGRAM, command, str(FOLDER / "settings.toml"), str(FOLDER / "noise"), "8"]
    start = time.perf_counter()
    child = os.fork()
    if child == 0:
        for name, number, flags in (("session", 0, os.O_RDONLY), ("heard", 1, os.O_WRONLY | os.O_CREAT | os.O_TRUNC)):
            os.dup2(os.open(FOLDER / name, flags), number)
        os.execv(PROGRAM, words)
    _, status, used = os.wait4(child, 0)
    took = time.perf_counter() - start
    if status != 0:
        sys.exit(f"{command} ended with {os.waitstatus_to_exitcode(status)}")
    if (FOLDER / "heard").read_bytes().count(b"01 0000008 A A\n") != PAGES:
        sys.exit(f"{command} didn't hear the {PAGES} pages of the session")
    return took, used.ru_maxrss / 1024


# Each page takes one cell, and the session stays below its millionth character.
PAGES = CELLS
(FOLDER / "settings.toml").write_text(f'cells = {CELLS}\nsubscriber = [{{id = "1", capcode = 8, class = "alpha"}}]\n')
(FOLDER / "session").write_bytes(LOGON + PAGES * block(b"A"))
(FOLDER / "noise").write_bytes(b"")
# The two take turns, so that both meet what else the machine does.
once, twice = zip(*((run("trial"), run("twice")) for _ in range(TIMES)))
(trial, trial_memory), (again, again_memory) = min(once), min(twice)
print(f"| {PAGES:,} pages of one cell | {trial:.3f} s | {again:.3f} s | {again / trial:.2f} | {trial_memory:.1f} and {again_memory:.1f} MiB |")
