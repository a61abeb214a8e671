"""A soak of receivers: `play` and `show` of the built program over random files, beside the plain model of `bench/network`. `run.sh` in
this folder starts it: soak.py PROGRAM FOLDER SEED FILES SECONDS. It stops by itself, at the latest after so many seconds."""

import collections
import pathlib
import random
import signal
import subprocess
import sys
import time

sys.path.insert(0, str(pathlib.Path(__file__).resolve().parent.parent / "network"))
import model

PATIENCE = 60  # seconds for one file
AT_ONCE = 8  # files that are played at once
BASES = [0, 8, 1000, 2007656, 2007672, 2045048, 2045064, 2097136]


class Maker:
    """The capcodes and the bits of one file, from its seed."""

    def __init__(self, seed):
        self.random = random.Random(seed)
        base = self.random.choice(BASES)
        near = [base + k for k in range(16)] + [self.random.randrange(1 << 21) for _ in range(60)]
        usable = [k for k in near if not (2007664 <= k <= 2007671 or 2045056 <= k <= 2045063 or k >= 1 << 21)]
        self.capcodes = self.random.sample(sorted(set(usable)), self.random.choice([1, 2, 4, 4, 8, 40]))

    def wrong(self, word, sizes):
        """The word with one of these numbers of wrong bits."""
        for bit in self.random.sample(range(32), self.random.choice(sizes)):
            word ^= 1 << bit
        return model.low_first(word, 32)[::-1]

    def page(self):
        function = self.random.choice([0, 1, 2, 3, 3, 3])
        text = b""
        if function == 0:
            text = "".join(self.random.choices(model.NUMERIC, k=self.random.randint(0, 40))).rstrip(" ").encode()
        if function == 3:
            size = self.random.choice([0, 1, 2, 5, 20, 50, 400])
            text = bytes(self.random.choices([*range(0x20, 0x7F), 10, 13], k=size))
        return self.random.choice(self.capcodes), function, text

    def word(self):
        """A codeword that means something to these receivers, or nearly so."""
        address = model.address(self.random.choice(self.capcodes), self.random.randrange(4))
        message = model.message(self.random.randrange(1 << 20))
        other = model.codeword(self.random.randrange(1 << 21))
        return self.random.choice([address, address, message, message, message, model.IDLE, model.SYNC, other])

    def random_bits(self, size):
        return [self.random.getrandbits(1) for _ in range(size)]

    def preamble(self, size):
        return [(k + 1) % 2 for k in range(size)]

    def batch(self, sizes, syncs):
        bits = self.wrong(model.SYNC, syncs)
        for _ in range(16):
            bits += self.wrong(self.word(), sizes)
        return bits

    def noise(self):
        """Random bits, which hold no sync word as a rule; so one is put among some of them."""
        bits = self.random_bits(self.random.choice([0, 8, 32, 256, 1600, 5000, 40000]))
        if self.random.random() < 0.3:
            at = self.random.randint(0, len(bits))
            bits[at:at] = self.wrong(model.SYNC, [0, 1, 2])
        return bits

    def near_sync(self):
        """Sync words with up to four wrong bits, among preambles, codewords and pieces of them."""
        bits = []
        for _ in range(self.random.randint(1, 30)):
            kind = self.random.randrange(6)
            if kind == 0:
                bits += self.wrong(model.SYNC, [0, 1, 2, 2, 3, 3, 4])
            elif kind == 1:
                bits += self.preamble(self.random.randint(1, 100))
            elif kind == 2:
                bits += self.batch([0, 1, 2, 2, 3, 4], [0, 1, 2, 2, 3, 4])
            elif kind == 3:
                bits += self.wrong(self.word(), [0, 1, 2, 3])
            elif kind == 4:
                bits += self.wrong(model.SYNC, [0, 2])[: self.random.randint(1, 31)]
            else:
                bits += self.random_bits(self.random.randint(1, 40))
        return bits

    def sent(self, sizes, syncs):
        """Transmissions whose words, but for those of preambles, have one of these numbers of wrong bits each."""
        bits = []
        for _ in range(self.random.randint(1, 3)):
            words = model.transmission([self.page() for _ in range(self.random.randint(1, 5))])
            for place, word in enumerate(words):
                bits += self.wrong(word, [0] if place < 18 else syncs if word == model.SYNC else sizes)
        return bits

    def three_wrong(self):
        often = [0, 1, 2] * self.random.choice([1, 5, 15]) + [3]
        return self.sent(often, self.random.choice([[0, 1, 2], [0, 1, 2] * 4 + [3]]))

    def cut(self):
        bits = self.sent([0, 1, 2], [0, 1, 2])
        first = self.random.choice([0, 0, self.random.randrange(len(bits))])
        last = self.random.choice([len(bits), self.random.randint(first, len(bits)), max(first, len(bits) - self.random.randint(1, 1100))])
        return bits[first:last]

    def long_run(self):
        """A page of about 140 message words, with one wrong word at most."""
        groups = self.random.randint(138, 142)
        words = [model.address(self.random.choice(self.capcodes), self.random.choice([0, 3]))]
        words += [model.message(self.random.randrange(1 << 20)) for _ in range(groups)]
        words = [model.IDLE] * (self.random.choice(self.capcodes) % 8 * 2) + words + [model.IDLE] * 40
        bits = self.preamble(self.random.randint(0, 64))
        for at in range(0, len(words) // 16 * 16, 16):
            bits += self.wrong(model.SYNC, [0, 1, 2])
            for word in words[at : at + 16]:
                bits += self.wrong(word, [0, 1, 2] * 300 + [3])
        return bits


KINDS = {
    "random bits": Maker.noise,
    "bits near sync words": Maker.near_sync,
    "words three bits away": Maker.three_wrong,
    "cut transmissions": Maker.cut,
    "pages of about 140 groups": Maker.long_run,
}
WEIGHTS = [20, 35, 25, 18, 2]


class File:
    """A file that `play` and `show` read, and what the model says of it."""

    def __init__(self, program, folder, seed, number):
        self.number, self.maker = number, Maker(f"{seed} {number}")
        self.kind = self.maker.random.choices([*KINDS], WEIGHTS)[0]
        bits = KINDS[self.kind](self.maker)
        bits += [0] * (-len(bits) % 8)
        path = folder / f"bits{number % AT_ONCE}"
        path.write_bytes(bytes(model.number_of(bits[at : at + 8]) for at in range(0, len(bits), 8)))
        self.bits, self.runs = bits, []
        for words in (["play", path, *map(str, self.maker.capcodes)], ["show", path]):
            self.runs.append(subprocess.Popen([program, *words], stdout=subprocess.PIPE, stdin=subprocess.DEVNULL))

    def check(self):
        """Compares, and gives the two outputs."""
        found = model.stretches(self.bits)
        pages = model.heard_in(found, self.maker.capcodes)
        wanted = [model.page_lines(pages, self.maker.capcodes), model.table_of(found)]
        for name, run, lines in zip(("play", "show"), self.runs, wanted):
            got = run.communicate(timeout=PATIENCE)[0].decode()
            if (run.returncode, got) != (0, lines):
                pairs = zip([*got.splitlines(), "its end"], [*lines.splitlines(), "its end"])
                at, (first, second) = next((k, pair) for k, pair in enumerate(pairs, 1) if pair[0] != pair[1] or pair[0] == "its end")
                ends = f"file {self.number}, {self.kind}: {name} ends with {run.returncode}"
                raise SystemExit(f"FAILED: {ends}; line {at} is {first!r}, the model's {second!r}")
        return wanted

    def stop(self):
        for run in self.runs:
            run.kill()
            run.communicate()


def late(*_):
    raise SystemExit("FAILED: not done in time")


def main(program, folder, seed, files, limit):
    signal.signal(signal.SIGALRM, late)
    signal.alarm(int(limit))
    start, counts = time.monotonic(), {kind: collections.Counter() for kind in KINDS}
    print(f"seed {seed}", flush=True)
    for first in range(1, int(files) + 1, AT_ONCE):
        played = []
        try:
            for number in range(first, min(first + AT_ONCE, int(files) + 1)):
                played.append(File(program, pathlib.Path(folder), seed, number))
            for file in played:
                pages, table = file.check()
                batches = table.count("batch")
                seen = {"files": 1, "bytes": len(file.bits) // 8, "batches": batches, "slots": table.count("\n") - batches}
                counts[file.kind].update(seen, bad=table.count("bad"), pages=pages.count("\n"))
        finally:
            for file in played:
                file.stop()
        if file.number % 1000 == 0:
            print(f"{file.number} files, {time.monotonic() - start:.0f} s", flush=True)
    for kind, count in counts.items():
        print(f"{kind}: " + ", ".join(f"{count[name]} {name}" for name in ("files", "bytes", "batches", "slots", "bad", "pages")))
    print(f"{files} files, {time.monotonic() - start:.0f} s: play and show say what the model says")


main(*sys.argv[1:])
