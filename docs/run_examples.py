#!/usr/bin/env python3
"""Runs each command that README.md and docs/*.md show, and compares what it prints with what stands below it.

    docs/run_examples.py [PROGRAM]

An indented line that begins with `$ ` is a command for bash. The lines below it, up to the next command or the end of the block, are
what it prints, on the output and the error stream together. PROGRAM is the built program; where none is given, the launcher `./pocsag`
builds the one in crates/page_tool/out/ if need be.

- The commands of a document run in order, in one scratch folder that has the launcher, the program and the examples.
- A command that ends in `&` runs beside the next one, which is started once it listens. Then its end is waited for, and what it prints
  comes after what the next one prints. Each block has a free port in place of 2400.
- The status of a command alone, with no pipe and no second command, is that of the table "Exit codes" of docs/commands.md whose line it
  prints, and 0 if it prints none of them.
- Where a document says "`examples/FILE` is", the block below is that file.

It needs Python 3, bash and the usual commands. The last line is `N passed, M failed`, and the status is 1 if any failed.
"""

import re
import shutil
import socket
import subprocess
import sys
import tempfile
import time
from pathlib import Path

TOP = Path(__file__).resolve().parent.parent
BUILT = TOP / "crates" / "page_tool" / "out" / "page_tool"
DOCUMENTS = [TOP / "README.md", *sorted((TOP / "docs").glob("*.md"))]
PORT = "2400"
PATIENCE = 60  # seconds for one command


class Command:
    """A command with the lines that stand below it."""

    def __init__(self, place, words):
        self.place, self.words, self.shown = place, words, ""

    @property
    def is_beside(self):
        return self.words.endswith("&")

    @property
    def is_alone(self):
        return not re.search(r"[|;]|&&", self.words)


def blocks(path):
    """The indented blocks of a document: the line above each, and its lines with their numbers."""
    above, block, found = "", [], []
    for number, line in enumerate([*path.read_text().splitlines(), "end"], 1):
        if line.startswith("    ") or block and not line.strip():
            block.append((number, line[4:]))
            continue
        while block and not block[-1][1].strip():
            block.pop()
        if block:
            found.append((above, block))
        block, above = [], line if line.strip() else above
    return found


def commands(path, block):
    found = []
    for number, line in block:
        if line.startswith("$ "):
            found.append(Command(f"{path.relative_to(TOP)}:{number}", line[2:]))
        elif found:
            found[-1].shown += line + "\n"
    return found


def exit_codes():
    """The lines of the error stream and their statuses, from the table of docs/commands.md."""
    rows = re.findall(r"^\| (\d+) \| \w+ \|.*\| ([^|]*) \|$", (TOP / "docs" / "commands.md").read_text(), re.M)
    return [(line, int(code)) for code, cell in rows for line in re.findall(r"`([^`]+)`", cell)]


def wanted_status(shown, codes):
    """The status that goes with what a command prints. A line may go on after the text of the table, as with the number of a line."""
    for line in shown.splitlines():
        for text, code in codes:
            if line.startswith(re.sub(r" [NK]$", " ", text)):
                return code
    return 0


def scratch(program):
    """A folder as the top of the repository, with the program built."""
    folder = Path(tempfile.mkdtemp(prefix="pocsag-examples-"))
    shutil.copy(TOP / "pocsag", folder)
    shutil.copy(TOP / "crates.txt", folder)
    shutil.copytree(TOP / "examples", folder / "examples")
    built = folder / BUILT.relative_to(TOP)
    built.parent.mkdir(parents=True)
    shutil.copyfile(program, built)
    built.chmod(0o755)
    return folder


def free_port():
    with socket.create_server(("127.0.0.1", 0)) as free:
        return free.getsockname()[1]


def at_port(words, port):
    """A command with this port in place of 2400, behind the host and a colon, or a slash as in bash's /dev/tcp."""
    return re.sub(rf"(127\.0\.0\.1[:/]){PORT}\b", rf"\g<1>{port}", words)


def is_listening(port):
    """Whether some program listens at the port. Dialling it would take one of a station's connections."""
    table = Path("/proc/net/tcp").read_text().splitlines()[1:]
    return any(int(row.split()[1].split(":")[1], 16) == port and row.split()[3] == "0A" for row in table)


def wait_until_listening(process, port):
    until = time.monotonic() + PATIENCE
    while process.poll() is None and not is_listening(port) and time.monotonic() < until:
        time.sleep(0.01)


def start(words, folder):
    how = {"cwd": folder, "stdin": subprocess.DEVNULL, "stdout": subprocess.PIPE, "stderr": subprocess.STDOUT, "start_new_session": True}
    return subprocess.Popen(["bash", "-c", words], **how)


def end(process):
    """What a command printed and its status, once it has ended."""
    try:
        printed = process.communicate(timeout=PATIENCE)[0]
    except subprocess.TimeoutExpired:
        subprocess.run(["kill", "-9", "--", f"-{process.pid}"], check=False)
        return process.communicate()[0].decode(errors="replace") + f"(not ended after {PATIENCE} seconds)\n", None
    return printed.decode(errors="replace"), process.returncode


def start_beside(command, port, folder):
    process = start("exec " + at_port(command.words.rstrip("& "), port), folder)
    wait_until_listening(process, port)
    return process


class Tally:
    def __init__(self):
        self.passed, self.failed = 0, 0

    def add(self, place, words, faults):
        self.passed, self.failed = self.passed + (not faults), self.failed + bool(faults)
        if faults:
            print(f"FAILED {place}: {words}", *faults, sep="\n")


def compared(command, printed, status, wanted, codes):
    """What is wrong with a run of a command."""
    faults = []
    if printed != wanted:
        faults += ["  the document has:", *(f"    {line}" for line in wanted.splitlines())]
        faults += ["  it printed:", *(f"    {line}" for line in printed.splitlines())]
    if command.is_alone and status != wanted_status(wanted, codes):
        faults.append(f"  it ended with {status}, and not {wanted_status(wanted, codes)}")
    return faults


def with_tail(command, said):
    """What stands below a command, cut into what it prints itself and what the one beside it prints, which has as many lines as that said."""
    lines = command.shown.splitlines(keepends=True)
    at = max(len(lines) - len(said.splitlines()), 0)
    return "".join(lines[:at]), "".join(lines[at:])


def run_block(listed, folder, codes, tally):
    port, beside = free_port(), None
    for command in listed:
        if command.is_beside:
            beside = command, start_beside(command, port, folder)
            continue
        printed, status = end(start(at_port(command.words, port), folder))
        wanted = command.shown
        if beside:
            (first, process), beside = beside, None
            said, ended = end(process)
            wanted, of_first = with_tail(command, said)
            tally.add(first.place, first.words, compared(first, said, ended, of_first, codes))
        tally.add(command.place, command.words, compared(command, printed, status, wanted, codes))
    if beside:
        subprocess.run(["kill", "-9", "--", f"-{beside[1].pid}"], check=False)
        tally.add(beside[0].place, beside[0].words, ["  no command stands below that runs beside it"])


def check_listing(path, above, block, tally):
    """A block that is said to be a file of examples/."""
    named = re.search(r"`(examples/[\w.]+)` is:?$", above)
    if named:
        shown = "".join(line + "\n" for _, line in block)
        is_it = (TOP / named[1]).read_text() == shown
        tally.add(f"{path.relative_to(TOP)}:{block[0][0]}", named[1], [] if is_it else ["  the file has other lines"])


def built_program():
    ran = subprocess.run([TOP / "pocsag", "show", "/dev/null"], check=False)
    if ran.returncode != 0:
        sys.exit("the program couldn't be built")
    return BUILT


def main():
    program = Path(sys.argv[1]) if len(sys.argv) > 1 else built_program()
    if not program.is_file():
        sys.exit(f"{program} isn't there")
    codes, tally = exit_codes(), Tally()
    for path in DOCUMENTS:
        folder = scratch(program)
        try:
            for above, block in blocks(path):
                run_block(commands(path, block), folder, codes, tally)
                check_listing(path, above, block, tally)
        finally:
            shutil.rmtree(folder)
    if tally.passed + tally.failed == 0:
        tally.add("README.md", "no document shows a command", ["  a command is an indented line that begins with `$ `"])
    print(f"{tally.passed} passed, {tally.failed} failed")
    return tally.failed > 0


if __name__ == "__main__":
    sys.exit(main())
