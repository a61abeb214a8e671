#!/bin/sh
# Times `play` of the built program over the longest files that it hears, beside the same receiver in plain Rust, which takes 32 bits at a
# time too and prints the same lines, and with 64 receivers of four capcodes each beside one receiver. The two take turns. It wants rt, rustc,
# Python 3, and 134 MB of room for the files.
set -eu
. "$(dirname -- "$0")/../workspace.sh"

"$top/pocsag" one 8 <"$top/examples/abc.tap" >/dev/null
rustc --edition 2024 -O -C target-cpu=x86-64-v2 -o "$work/plain" "$here/plain.rs"
python3 - "$work" "$top/crates/page_tool/out/page_tool" <<'PY'
import random, subprocess, sys, time

work, program = sys.argv[1:]
SIZE = 67_108_864
TIMES = 5
BATCH = bytes.fromhex("7CD215D8" + 16 * "7A89C197")


def seconds(words):
    start = time.perf_counter()
    subprocess.run(words, check=True, stdout=subprocess.DEVNULL)
    return time.perf_counter() - start


def codeword(front):
    """The codeword with these first 21 bits."""
    rest = front << 10
    for at in range(30, 9, -1):
        if rest >> at & 1:
            rest ^= 0x769 << (at - 10)
    bits = front << 10 | rest
    return bits << 1 | bin(bits).count("1") & 1


def pages(capcode):
    """200 batches of pages of three message words, each to the next frame but one, with at most two wrong bits in each word."""
    random.seed(5)
    heads = [codeword(capcode // 8 << 2 | 3) if k % 4 == 0 else codeword(1 << 20 | random.getrandbits(20)) for k in range(16)]
    words = [0x7CD215D8] + heads
    return b"".join((w ^ 1 << random.randrange(32) ^ 1 << random.randrange(32)).to_bytes(4, "big") for _ in range(200) for w in words)


def air(batches):
    """The preamble and these batches, again and again."""
    return (72 * b"\xaa" + (SIZE // len(batches) + 1) * batches)[:SIZE]


def taking_turns(*runs):
    """The least times of these runs over the file, which take turns."""
    return map(min, zip(*[[seconds(words) for words in runs] for _ in range(TIMES)]))


def by_bit(time):
    """A time over the file, and that of a bit in nanoseconds."""
    return f"{time:.2f} | {time / SIZE / 8 * 1e9:.2f}"


AIR = f"{work}/air"
PLAY = [program, "play", AIR]
# none of them has a page in these files
MANY = ["+".join(str(1000 + 37 * (4 * k + j)) for j in range(4)) for k in range(64)]
# what is in a file, and whether it is played with 64 receivers too
rows = [
    ("zeros", bytes(SIZE), False),
    ("random", random.Random(5).randbytes(SIZE), False),
    ("preamble and idle batches", air(BATCH), True),
    ("pages to other capcodes", air(pages(40_000)), True),
    ("pages, a fourth of them to its capcode", air(pages(8)), False),
]
print("| bytes | receivers | `play`, s | ns a bit | plain Rust, s | ns a bit | ratio |")
print("|---|---|---|---|---|---|---|")
for name, content, is_for_many in rows:
    with open(AIR, "wb") as file:
        file.write(content)
    proved, plain = taking_turns([*PLAY, "8"], [f"{work}/plain", AIR])
    print(f"| {name} | one of one capcode | {by_bit(proved)} | {by_bit(plain)} | {proved / plain:.2f} |", flush=True)
    if is_for_many:
        many, one = taking_turns([*PLAY, *MANY], [*PLAY, "8"])
        print(f"| {name} | 64 of four capcodes | {by_bit(many)} | | | {many / one:.2f} times one |", flush=True)
PY
