#!/usr/bin/env python3
"""Makes the binary files of this folder.

    examples/make.py            writes them
    examples/make.py --check    compares them with what it would write, and ends with 1 if one differs

It needs Python 3 alone.
"""

import sys
from pathlib import Path

HERE = Path(__file__).resolve().parent
STX, ETX, EOT, ESC = b"\x02", b"\x03", b"\x04", b"\x1b"
PREAMBLE = 72  # bytes
# How often a sync word or slot comes in the transmission of session.tap, which is one batch.
WORDS = 17


def trailer(front):
    """The sum of the characters from STX to ETX as three characters of four bits each, the high bits first, and CR."""
    total = sum(front)
    return bytes(0x30 + (total >> shift & 15) for shift in (8, 4, 0)) + b"\r"


def block(name, text):
    front = STX + name + b"\r" + text + b"\r" + ETX
    return front + trailer(front)


def wrong_sum(name, text):
    """The same block with a sum that is one too high."""
    right = block(name, text)
    return right[:-2] + bytes([right[-2] + 1]) + right[-1:]


def session(pages):
    """A session: an empty line, the logon, the blocks, the goodbye."""
    return b"\r" + ESC + b"PG1\r" + b"".join(block(name, text) for name, text in pages) + EOT + b"\r"


def noise(patterns):
    """Wrong bits for the words after the preamble, which has none."""
    return bytes(PREAMBLE) + b"".join(pattern.to_bytes(4, "big") for pattern in patterns)


# Two wrong bits in each word of the batch: the sync word, two address words with their message words, and the idle words.
TWO = [0x80000001, 0x00300000, 0x40000002, 0x00018000, 0x00000081, 0x80100000]

FILES = {
    "abc.tap": block(b"123", b"ABC"),
    "fire.tap": block(b"5551234", b"FIRE AT HALL 3"),
    "wrong_sum.tap": wrong_sum(b"5551234", b"FIRE AT HALL 3"),
    "session.tap": session([(b"5551234", b"HELLO"), (b"5550002", b"12"), (b"999", b"X")]),
    "two.noise": noise(TWO + [0x00000003] * (WORDS - len(TWO))),
    # three wrong bits in the first message word, after the sync word and the address word
    "three.noise": noise([0, 0, 0x00700000]),
    # three in the first address word of one copy, and in the first message word of a second copy, which has its own preamble
    "copies.noise": noise([0, 0x00700000] + [0] * (WORDS - 2) + [0] * (PREAMBLE // 4) + [0, 0, 0x00700000]),
}


def is_binary(path):
    return path.suffix in (".tap", ".noise")


def main():
    lost = [path.name for path in sorted(HERE.iterdir()) if is_binary(path) and path.name not in FILES]
    if "--check" not in sys.argv[1:]:
        for name, content in FILES.items():
            (HERE / name).write_bytes(content)
    wrong = [name for name, content in FILES.items() if not (HERE / name).exists() or (HERE / name).read_bytes() != content]
    for name in wrong:
        print(f"examples/{name} isn't what examples/make.py makes")
    for name in lost:
        print(f"examples/{name} is made by nothing")
    if wrong or lost:
        return 1
    print(f"{len(FILES)} binary files of examples/ are what examples/make.py makes")
    return 0


if __name__ == "__main__":
    sys.exit(main())
