"""Compares the built program with `model.py` over random sessions, noises, files and calls. Words: the program, a folder for files, the
seed, and how many rounds."""

import os
import random
import socket
import subprocess
import sys
import threading
import time

import model


def free_address():
    """An address of this machine whose port nobody has."""
    with socket.create_server(("127.0.0.1", 0)) as free:
        return free.getsockname()


class Maker:
    """Random settings, sessions, noises and what terminals say, from one seed."""

    def __init__(self, seed):
        self.random = random.Random(seed)

    def settings(self):
        """A settings file, its password, its subscribers and its cells."""
        cells = self.random.choice([1, 2, 5, 64, 64, 300])
        password = self.random.choice([None, None, b"SECRET"])
        base = self.random.choice([0, 8, 1000, 2007656, 2007672, 2045064, 2097136])
        subscribers = {}
        for _ in range(self.random.randint(1, 8)):
            capcode = base + self.random.randint(0, 15)
            if not (2007664 <= capcode <= 2007671 or 2045056 <= capcode <= 2045063 or capcode >= 1 << 21):
                name = str(self.random.randint(0, 99999)).encode()
                subscribers[name] = (capcode, self.random.choice([0, 1, 2, 3, 3, 3]))
        lines = [f"cells = {cells}"] + (['password = "SECRET"'] if password else [])
        for name, (capcode, function) in subscribers.items():
            lines += ["[[subscriber]]", f'id = "{name.decode()}"', f"capcode = {capcode}", f'class = "{model.CLASSES[function]}"']
        return "\n".join(lines) + "\n", password, subscribers, cells

    def text(self, function):
        if function == 0:
            return "".join(self.random.choices(model.NUMERIC, k=self.random.choice([0, 1, 5, 6, 20, 40, 41]))).encode()
        if function in (1, 2):
            return self.random.choice([b""] * 9 + [b"x"])
        size = self.random.choice([0, 1, 3, 10, 31, 32, 33, 100, 200, 400, 999, 1000, 1001])
        return bytes(self.random.choices([*range(0x20, 0x7F), 10, 13, 13, 0x5C, 0x5C], k=size))

    def pieces(self, body):
        """A content cut into bodies, each with the end of its block."""
        cut = []
        while len(body) > 250 or (len(body) > 1 and self.random.random() < 0.2):
            size = min(self.random.randint(1, 250), len(body) - 1)
            cut.append((body[:size], self.random.choice([0x17, 0x1F])))
            body = body[size:]
        cut.append((body, 3))
        if self.random.random() < 0.02:
            cut = [(b"A" * self.random.choice([250, 251]), 0x1F)] * 10 + cut
        return cut

    def block(self, body, end):
        block = b"\x02" + body + bytes([end])
        trailer = model.sum_of(block) + b"\r"
        if self.random.random() < 0.05:
            at = self.random.randrange(4)
            trailer = trailer[:at] + bytes([trailer[at] ^ 1]) + trailer[at + 1 :]
        front = self.random.choice([b"junk", b"\x02half", b"\x04q", b"\x04\x04"]) if self.random.random() < 0.05 else b""
        return front + block + (trailer if self.random.random() < 0.97 else trailer[:-1])

    def session(self, password, subscribers):
        """What a client says, right and wrong."""
        said = b"".join(self.random.choices([b"\r", b"\n\r", b"zz\r", b"\x1bPG1XXXXXX\r"], k=self.random.choice([0, 1, 1, 2])))
        said += b"\x1bPG1" + (password or b"") + b"\r"
        for _ in range(self.random.randint(0, 14)):
            name = self.random.choice([*subscribers, b"77777777"])
            text = self.text(subscribers.get(name, (0, 3))[1])
            if self.random.random() < 0.05:
                text = bytes([self.random.choice([0, 1, 7, 0x1F])]) + text[1:]
            body = name + b"\r" + model.spelled(text) + b"\r"
            if self.random.random() < 0.1:
                body = self.random.choice([body.replace(b"\r", b"", 1), body + b"\x1a", body + b"\r", body[:-1] + b"\x7f\r"])
            said += b"".join(self.block(*piece) for piece in self.pieces(body))
        said += self.random.choice([b"\x04\r"] * 4 + [b""])
        if self.random.random() < 0.3:
            said = bytes(c | self.random.choice([0, 128]) for c in said)
        return said

    def noise(self, words):
        """Bits to turn, for each word of a transmission: at most two, some more, or in the preamble too."""
        kind = self.random.choice(["none", "two", "two", "more", "any"])
        turned = []
        for k in range(words):
            most = {"none": [0], "two": [0, 1, 2], "more": [0, 0, 1, 2, 2, 2, 3, 4], "any": [0] * 12 + [1, 2, 3, 6]}[kind]
            size = self.random.choice(most) if k >= 18 or kind == "any" else 0
            turned.append(sum(1 << bit for bit in self.random.sample(range(32), size)))
        return turned, kind in ("none", "two")

    def hears(self):
        """What a terminal says to a client."""
        logon = [b"ID=", b"I\nD=", b"xID=", b"\x15\r", b"\x06\r", b"\x1e\r", b"\x1b\x04\r", b"\x1b[p\r", b"y\r", b"\n"]
        pages = [b"\x06\r", b"\x06\n\r", b"\x15\r", b"\x1e\r", b"\x1b[p\r", b"ID=", b"z\r", b"\x1b\x04\r"]
        said = b"" if self.random.random() < 0.2 else b"ID=\x06\r\x1b[p\r"
        said += b"".join(self.random.choices(logon, k=self.random.randint(0, 4)) if not said else [])
        said += b"".join(self.random.choices(pages, weights=[12, 3, 4, 2, 1, 1, 1, 1], k=self.random.randint(0, 12)))
        if self.random.random() < 0.3:
            said = bytes(c | self.random.choice([0, 128]) for c in said)
        return said


class Program:
    """The built program, and files in a folder."""

    def __init__(self, program, folder):
        self.program = program
        self.folder = folder

    def path(self, name):
        return os.path.join(self.folder, name)

    def write(self, name, content):
        with open(self.path(name), "wb") as file:
            file.write(content)
        return self.path(name)

    def run(self, *words, given=b""):
        done = subprocess.run([self.program, *map(str, words)], input=given, capture_output=True)
        return done.returncode, done.stdout.decode()

    def start(self, *words):
        return subprocess.Popen([self.program, *map(str, words)], stdout=subprocess.PIPE)


def same(what, got, wanted):
    if got != wanted:
        raise SystemExit(f"{what}: the program says {got!r}, the model {wanted!r}")


def turned(bits, noise):
    return [bit ^ (noise[k] if k < len(noise) else 0) for k, bit in enumerate(bits)]


def compare_trial(maker, program):
    """A session in memory, through a noise."""
    settings, password, subscribers, cells = maker.settings()
    said = maker.session(password, subscribers)
    answers, pages, _ = model.session(said, password, subscribers, cells)
    words = model.transmission(pages)
    noise, is_near = maker.noise(len(words))
    flips = model.bytes_of(noise)[: maker.random.choice([len(words) * 4] * 3 + [maker.random.randint(0, len(words) * 4)])]
    capcodes = sorted({capcode for capcode, _ in subscribers.values()} | {8})
    heard = model.heard(turned(model.bits_of(model.bytes_of(words)), model.bits_of(flips)), capcodes)
    wanted = "".join(answer + "\n" for answer in answers) + "---\n" + model.page_lines(heard, capcodes)
    names = program.write("settings", settings.encode()), program.write("noise", flips)
    same("trial", program.run("trial", *names, *capcodes, given=said), (0, wanted))
    for capcode in capcodes if is_near else []:
        of_it = [page for page in pages if page[0] == capcode]
        same("near", [page for page in heard if page[0] == capcode], of_it)


def connect(address):
    for _ in range(200):
        try:
            return socket.create_connection(address)
        except ConnectionRefusedError:
            time.sleep(0.01)
    raise SystemExit("the station doesn't listen")


def speak(maker, said, address):
    """Says this in random pieces, and gives what is replied."""
    replied = b""
    with connect(address) as line:
        at = 0
        while at < len(said):
            size = maker.random.choice([1, 7, 100, 4096, len(said)])
            line.sendall(said[at : at + size])
            at += size
        line.shutdown(socket.SHUT_WR)
        while piece := line.recv(4096):
            replied += piece
    return replied


def compare_station(maker, program):
    """Connections one after another, the file of their transmissions, what is heard of it with wrong bits, and its table."""
    settings, password, subscribers, cells = maker.settings()
    count = maker.random.randint(1, 4)
    air = program.path("air")
    address = free_address()
    station = program.start("station", "%s:%d" % address, program.write("settings", settings.encode()), air, count)
    lines, lists = "", []
    for number in range(1, count + 1):
        said = maker.session(password, subscribers)
        answers, pages, counts = model.session(said, password, subscribers, cells)
        same("replies", speak(maker, said, address), model.replies(answers))
        lines += model.report_line(number, answers, counts)
        lists.append(pages)
    same("lines", station.communicate()[0].decode(), lines)
    words = [word for pages in lists for word in model.transmission(pages)]
    with open(air, "rb") as file:
        same("air", file.read(), model.bytes_of(words))
    noise = [pattern for pages in lists for pattern in maker.noise(len(model.transmission(pages)))[0]]
    content = model.bytes_of(word ^ pattern for word, pattern in zip(words, noise))
    content = content[: maker.random.choice([len(content), len(content), maker.random.randint(0, len(content))])]
    capcodes = sorted({capcode for capcode, _ in subscribers.values()} | {8})
    bits = model.bits_of(content)
    same("play", program.run("play", program.write("heard", content), *capcodes), (0, model.page_lines(model.heard(bits, capcodes), capcodes)))
    same("show", program.run("show", program.path("heard")), (0, model.table(bits)))


def compare_send(maker, program):
    """A call of the client: what it says and what becomes of its pages, whatever a terminal says."""
    password = maker.random.choice([None, b"SECRET"])
    pages = [(str(maker.random.randint(0, 9999)).encode(), maker.text(maker.random.choice([0, 3]))[:1000]) for _ in range(maker.random.randint(0, 4))]
    content = b"PG1" + (password or b"") + b"\n"
    content += b"".join(name + b" " + model.shown(text).encode() + b"\n" for name, text in pages)
    hears = maker.hears()
    said = bytearray()

    def answer(listener):
        line, _ = listener.accept()
        with line:
            line.sendall(hears)
            line.shutdown(socket.SHUT_WR)
            while piece := line.recv(4096):
                said.extend(piece)

    with socket.create_server(("127.0.0.1", 0)) as listener:
        terminal = threading.Thread(target=answer, args=[listener])
        terminal.start()
        code, printed = program.run("send", "%s:%d" % listener.getsockname(), program.write("pages", content))
        terminal.join()
    is_on, outcomes, wanted = model.client(hears, password, pages)
    same("said", bytes(said), wanted)
    same("outcomes", printed, "".join(f"{k} {outcome}\n" for k, outcome in enumerate(outcomes, 1)))
    same("code", code, 12 if not is_on else 0 if set(outcomes) <= {"sent"} else 13)


def main(program, folder, seed, rounds):
    maker, program = Maker(int(seed)), Program(program, folder)
    for _ in range(int(rounds)):
        compare_trial(maker, program)
        compare_station(maker, program)
        compare_send(maker, program)
    print(f"{rounds} rounds: sessions in memory and over loopback, receivers, tables and calls are those of the model")


main(*sys.argv[1:])
