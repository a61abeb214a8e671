#!/bin/sh
# Times `line` of the built program over the longest files that it takes, and `play-line` over the longest lines, which are those that
# `line` makes of them, beside plain Rust that makes the same samples and hears them 32 at a time too. The two take turns, and what they
# write is compared. It wants rt, rustc, Python 3, and 143 MB of room for the files.
set -eu
. "$(dirname -- "$0")/../workspace.sh"

"$top/pocsag" one 8 <"$top/examples/abc.tap" >/dev/null
rustc --edition 2024 -O -C target-cpu=x86-64-v2 -o "$work/plain" "$here/plain.rs"
python3 - "$work" "$top/crates/page_tool/out/page_tool" <<'PY'
import filecmp, random, subprocess, sys, time

work, program = sys.argv[1:]
plain = f"{work}/plain"
SIZE = 8_388_608
SAMPLES = 64 * SIZE
TIMES = 5
BATCH = bytes.fromhex("7CD215D8" + 16 * "7A89C197")


def seconds(*words):
    start = time.perf_counter()
    subprocess.run(words, check=True, stdout=subprocess.DEVNULL)
    return time.perf_counter() - start


def printed(*words):
    return subprocess.run(words, check=True, stdout=subprocess.PIPE).stdout


def batches():
    """The preamble and idle batches, again and again."""
    return (72 * b"\xaa" + (SIZE // len(BATCH) + 1) * BATCH)[:SIZE]


def row(command, name, times):
    proved, plain = map(min, zip(*times))
    print(f"| `{command}` | {name} | {proved:.2f} | {proved / SAMPLES * 1e9:.2f} | {plain:.2f} | {plain / SAMPLES * 1e9:.2f} | {proved / plain:.2f} |", flush=True)


print("| command | bits | proved, s | ns a sample | plain Rust, s | ns a sample | ratio |")
print("|---|---|---|---|---|---|---|")
for name, content in [("zeros", bytes(SIZE)), ("preamble and idle batches", batches()), ("random", random.Random(1).randbytes(SIZE))]:
    air, line, other = f"{work}/air", f"{work}/line", f"{work}/other"
    with open(air, "wb") as file:
        file.write(content)
    row("line", name, [(seconds(program, "line", air, line, "1"), seconds(plain, "line", air, other, "1")) for _ in range(TIMES)])
    if not filecmp.cmp(line, other, shallow=False):
        sys.exit(f"the lines of {name} differ")
    row("play-line", name, [(seconds(program, "play-line", line, "8"), seconds(plain, "play-line", line)) for _ in range(TIMES)])
    if printed(program, "play-line", line, "8") != printed(plain, "play-line", line):
        sys.exit(f"what is heard of {name} differs")
PY
