#!/bin/sh
# Times `trial` of the built program over sessions of nearly 1,000,000 characters of valid blocks, whose transmissions are heard through a
# noise with at most two wrong bits in each word, beside the same in plain Rust, and compares what both print. The two take turns. It wants
# rt, rustc and Python 3.
set -eu
. "$(dirname -- "$0")/../workspace.sh"

"$top/pocsag" one 8 <"$top/examples/abc.tap" >/dev/null
rustc --edition 2024 -O -C target-cpu=x86-64-v2 -o "$work/plain" "$here/plain.rs"
python3 - "$work" "$top/crates/page_tool/out/page_tool" <<'PY'
import random, subprocess, sys, time

work, program = sys.argv[1:]
TIMES = 9
WORDS = 1_000_000
PREAMBLE = 18


def session(letters, count):
    """A logon, and so many blocks with so many letters."""
    block = b"\x025551234\r" + b"A" * letters + b"\r\x03"
    total = sum(block) % 4096
    block += bytes(0x30 + (total >> shift & 15) for shift in (8, 4, 0)) + b"\r"
    return b"\r\x1bPG1\r" + count * block


def noise():
    """Two bits of each word behind the preamble, or one."""
    random.seed(5)
    words = (1 << random.randrange(32) | 1 << random.randrange(32) for _ in range(WORDS - PREAMBLE))
    return 4 * PREAMBLE * b"\0" + b"".join(word.to_bytes(4, "big") for word in words)


def seconds(words, content):
    start = time.perf_counter()
    subprocess.run(words, input=content, check=True, stdout=subprocess.DEVNULL)
    return time.perf_counter() - start


def printed(words, content):
    return subprocess.run(words, input=content, check=True, stdout=subprocess.PIPE).stdout


with open(f"{work}/settings", "w") as file:
    file.write('cells = 65536\n[[subscriber]]\nid = "5551234"\ncapcode = 8\nclass = "alpha"\n')
with open(f"{work}/noise", "wb") as file:
    file.write(noise())
proved_words = [program, "trial", f"{work}/settings", f"{work}/noise", "8"]
plain_words = [f"{work}/plain", f"{work}/noise"]
rows = [
    ("5 characters, 49,900 pages", session(5, 49_900)),
    ("241 characters, 3,900 pages", session(241, 3_900)),
]
print("| texts | `trial`, s | plain Rust, s | ratio |")
print("|---|---|---|---|")
for name, content in rows:
    if printed(proved_words, content) != printed(plain_words, content):
        sys.exit(f"{name}: the two print different lines")
    times = [(seconds(proved_words, content), seconds(plain_words, content)) for _ in range(TIMES)]
    proved, plain = map(min, zip(*times))
    print(f"| {name} | {proved:.3f} | {plain:.3f} | {proved / plain:.2f} |")
PY
