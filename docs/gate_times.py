#!/usr/bin/env python3
"""Runs `rt ci`, and makes a table of its times: for each crate its proofs, its tests and its must-fail edits.

    docs/gate_times.py [--write] [WORD ..]

The words are those of `rt ci`: names of crates, or `--anew`, with which all is proved again. What `rt ci` prints goes to the error
stream, each line with the minutes and seconds since the start, and the table to the output. With --write the table also replaces the one
in docs/performance.md, between the lines `<!-- table gate -->` and `<!-- end -->`. The status is that of `rt ci`.

`rt ci` keeps what it proved, and a crate that was kept costs nothing. So the times of a crate are noted when it is proved, in the file
that the variable GATE_TIMES names, or else in `gate_times.json` in the folder for temporary files. The table shows what is noted there.
They are noted anew at each line of `rt ci`, so a run that ends early leaves what was measured until then.

Crates are proved side by side, so a time is processor time: what the prover's processes had used when they were last looked at, which is
done five times a second. A process that ends between two looks is counted short by as much. The prover's processes are told apart by
their words: the crate's name stands after `--crate-name`, tests are built with `--test`, and edits are tried in folders `rt-edit-*`.
"""

import json
import os
import re
import subprocess
import sys
import tempfile
import threading
import time
from pathlib import Path

TOP = Path(__file__).resolve().parent.parent
DOCUMENT = TOP / "docs" / "performance.md"
TIMES = Path(os.environ.get("GATE_TIMES") or Path(tempfile.gettempdir()) / "gate_times.json")
LOOK = 0.2  # seconds
KINDS = ("proofs", "tests", "edits")
MARKED = re.compile(r"(<!-- table gate -->\n\n).*?(\n<!-- end -->)", re.S)


class Watch:
    """The processor time of the processes below one, by crate and kind."""

    def __init__(self, root):
        self.root, self.used, self.names = root, {}, {}

    def name_of(self, pid):
        """The crate and the kind of a process of the prover, or none."""
        words = Path(f"/proc/{pid}/cmdline").read_bytes().decode(errors="replace").split("\0")
        if "--crate-name" not in words:
            return None
        crate = words[words.index("--crate-name") + 1]
        is_edit = Path(os.readlink(f"/proc/{pid}/cwd")).name.startswith("rt-edit-")
        return crate, "edits" if is_edit else "tests" if "--test" in words else "proofs"

    def look(self):
        below, parents, fields = {self.root}, {}, {}
        for pid in (int(name) for name in os.listdir("/proc") if name.isdecimal()):
            try:
                # the name of a process, in parentheses, may have spaces
                fields[pid] = Path(f"/proc/{pid}/stat").read_text().rpartition(")")[2].split()
                parents[pid] = int(fields[pid][1])
            except OSError:
                pass
        is_growing = True
        while is_growing:
            found = {pid for pid, parent in parents.items() if parent in below} - below
            below, is_growing = below | found, bool(found)
        for pid in below & set(fields):
            key = pid, fields[pid][19]  # with the time of its start, since a number may come again
            try:
                if self.names.get(key) is None:
                    self.names[key] = self.name_of(pid)
            except OSError:
                continue
            self.used[key] = (int(fields[pid][11]) + int(fields[pid][12])) / os.sysconf("SC_CLK_TCK")

    def sums(self):
        found = {}
        for key, seconds in list(self.used.items()):
            if self.names.get(key):
                crate, kind = self.names[key]
                found.setdefault(crate, dict.fromkeys(KINDS, 0.0))[kind] += seconds
        return found


def clock(seconds):
    return f"{int(seconds) // 60}:{int(seconds) % 60:02}"


def crates():
    """The crates in the order of crates.txt."""
    return [line.split(":")[0].split()[0] for line in (TOP / "crates.txt").read_text().splitlines() if ":" in line and not line.startswith("#")]


def noted():
    """The times that earlier runs noted, by crate."""
    return json.loads(TIMES.read_text()) if TIMES.exists() else {}


def note(before, sums, proved):
    """Notes the times of this run over those of earlier ones, and returns both."""
    times = {name: dict(used) for name, used in before.items()}
    for name, used in sums.items():
        if name in proved:
            times[name] = used
        elif name in times:  # edits that are new of a crate that was kept
            times[name]["edits"] += used["edits"]
    TIMES.write_text(json.dumps(times))
    return times


def table(times):
    def cell(seconds):
        return f"{seconds:,.0f}" if seconds >= 0.5 else "–"

    rows = ["| crate | proofs, s | tests, s | edits | edits, s |", "|---|---|---|---|---|"]
    totals = dict.fromkeys((*KINDS, "count"), 0)
    for name in (name for name in crates() if name in times):
        used = times[name] | {"count": len(list((TOP / "crates" / name / "must-fail").glob("*.edit")))}
        totals = {kind: totals[kind] + used[kind] for kind in totals}
        rows.append(f"| `{name}` | {cell(used['proofs'])} | {cell(used['tests'])} | {used['count'] or '–'} | {cell(used['edits'])} |")
    rows.append(f"| all | {cell(totals['proofs'])} | {cell(totals['tests'])} | {totals['count']} | {cell(totals['edits'])} |")
    minutes = sum(totals[kind] for kind in KINDS) / 60
    return "\n".join(rows) + f"\n\n{minutes:.0f} minutes of processor time in all.\n"


def machine():
    model = re.search(r"^model name\s*: (.*)$", Path("/proc/cpuinfo").read_text(), re.M)
    return f"{model[1] if model else 'An unknown processor'}, {os.cpu_count()} processors, load {os.getloadavg()[0]:.1f} before the run."


def main():
    words = sys.argv[1:]
    line_of_machine, start = machine(), time.monotonic()
    how = {"cwd": TOP, "stdout": subprocess.PIPE, "stderr": subprocess.STDOUT, "text": True, "errors": "replace"}
    gate = subprocess.Popen(["rt", "ci", *(word for word in words if word != "--write")], **how)
    watch, ended = Watch(gate.pid), threading.Event()

    def watching():
        while not ended.wait(LOOK):
            watch.look()

    watcher = threading.Thread(target=watching)
    watcher.start()
    before, proved = noted(), set()
    for line in gate.stdout:
        at = time.monotonic() - start
        print(f"{clock(at):>6} {line}", end="", file=sys.stderr, flush=True)
        if match := re.match(r"rt: (\w+) proved$", line):
            proved.add(match[1])
        note(before, watch.sums(), proved)
    status = gate.wait()
    ended.set()
    watcher.join()
    text = table(note(before, watch.sums(), proved))
    print(f"{text}\n{line_of_machine}")
    if status == 0 and "--write" in words:
        DOCUMENT.write_text(MARKED.sub(lambda mark: f"{mark[1]}{text}\n{line_of_machine}\n{mark[2]}", DOCUMENT.read_text()))
    return status


if __name__ == "__main__":
    sys.exit(main())
