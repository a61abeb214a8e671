#!/bin/sh
# Times `load` of the built program over 1,000 to 10,000 pages, beside plain Rust that does the same steps: the session through a terminal,
# its transmission, two noises and two groups of receivers. A time is the processor's, and the least of 30 runs. The two take turns, and
# what they print is compared. It wants rt, rustc and Python 3.
set -eu
. "$(dirname -- "$0")/../workspace.sh"

"$top/pocsag" one 8 <"$top/examples/abc.tap" >/dev/null
rustc --edition 2024 -O -C target-cpu=x86-64-v2 -o "$work/plain" "$here/plain.rs"
python3 - "$work/plain" "$top/crates/page_tool/out/page_tool" <<'PY'
import resource, subprocess, sys

plain, program = sys.argv[1:]
TIMES = 30


def used():
    """The processor time of the runs so far."""
    told = resource.getrusage(resource.RUSAGE_CHILDREN)
    return told.ru_utime + told.ru_stime


def ran(*words):
    """The processor time of a run, and what it printed."""
    before = used()
    done = subprocess.run(words, check=True, stdout=subprocess.PIPE)
    return used() - before, done.stdout


print("| pages | proved, ms | µs a page | plain Rust, ms | µs a page | ratio |")
print("|---|---|---|---|---|---|")
for count in (1000, 2000, 5000, 10000):
    words = ["load", "7", str(count)]
    times = []
    for _ in range(TIMES):
        (a, printed), (b, other) = ran(program, *words), ran(plain, *words[1:])
        if printed != other:
            sys.exit(f"what is printed of {count} pages differs")
        times.append((a, b))
    a, b = (min(column) * 1000 for column in zip(*times))
    print(f"| {count:,} | {a:.1f} | {a / count * 1000:.2f} | {b:.1f} | {b / count * 1000:.2f} | {a / b:.2f} |", flush=True)
PY
