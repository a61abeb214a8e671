"""The rules of docs/profile.md in plain Python: sessions of the entry line, slots and transmissions, receivers, the table, and the
client. It shares nothing with the crates. `compare.py` compares the built program with it."""

GENERATOR = 0x769
SYNC = 0x7CD215D8
IDLE = 0x7A89C197
NUMERIC = "0123456789*U -]["
CLASSES = ["numeric", "tone1", "tone2", "alpha"]
LETTERS = "N12A"


# ---- words of the air


def remainder(bits):
    """Of a number of 31 bits by the generator."""
    for at in range(30, 9, -1):
        if bits >> at & 1:
            bits ^= GENERATOR << (at - 10)
    return bits


def codeword(front):
    """The codeword of these 21 bits."""
    bits = front << 10 | remainder(front << 10)
    return bits << 1 | bits.bit_count() & 1


def address(capcode, function):
    return codeword(capcode >> 3 << 2 | function)


def message(group):
    return codeword(1 << 20 | group)


# The patterns of at most two wrong bits, by what shows of them.
PATTERNS = {}
for first in range(32):
    for second in range(32):
        pattern = 1 << first | 1 << second
        PATTERNS[remainder(pattern >> 1), pattern.bit_count() & 1] = pattern
PATTERNS[0, 0] = 0


def fix(word):
    """The codeword within two bits of the word, or none."""
    pattern = PATTERNS.get((remainder(word >> 1), word.bit_count() & 1))
    return None if pattern is None else word ^ pattern


# ---- texts


def low_first(number, size):
    return [number >> i & 1 for i in range(size)]


def number_of(bits):
    """The first bit is the most significant one."""
    value = 0
    for bit in bits:
        value = value << 1 | bit
    return value


def groups(function, text):
    if function == 0:
        bits = [bit for c in text for bit in low_first(NUMERIC.index(chr(c)), 4)]
        filler = low_first(12, 4)
    else:
        bits = [bit for c in text for bit in low_first(c, 7)]
        filler = [0]
    while len(bits) % 20:
        bits += filler
    return [number_of(bits[i : i + 20]) for i in range(0, len(bits), 20)]


def text_of(function, held):
    if function in (1, 2):
        return b""
    size = 4 if function == 0 else 7
    bits = [bit for group in held for bit in reversed(low_first(group, 20))]
    numbers = [number_of(reversed(bits[i : i + size])) for i in range(0, len(bits) - size + 1, size)]
    if function == 0:
        return "".join(NUMERIC[k] for k in numbers).rstrip(" ").encode()
    return bytes(numbers).rstrip(b"\0")


def fits(function, text):
    if function in (1, 2):
        return text == b""
    if function == 0:
        return len(text) <= 40 and all(chr(c) in NUMERIC for c in text) and not text.endswith(b" ")
    return len(text) <= 1000 and all(0x20 <= c <= 0x7E or c in b"\r\n" for c in text)


# ---- the entry line


def sum_of(characters):
    total = sum(characters) % 4096
    return bytes(0x30 + (total >> shift & 15) for shift in (8, 4, 0))


def value_of(field):
    """The characters that a field spells, or none."""
    value, at = bytearray(), 0
    while at < len(field):
        pair = field[at : at + 2]
        if 0x20 <= pair[0] <= 0x7E:
            value.append(pair[0])
            at += 1
        elif len(pair) == 2 and pair[0] == 0x1A and 0x40 <= pair[1] <= 0x5F:
            value.append(pair[1] - 0x40)
            at += 2
        else:
            return None
    return bytes(value)


def spelled(value):
    return b"".join(bytes([0x1A, c + 0x40]) if c < 0x20 else bytes([c]) for c in value)


def lines_before_logon(characters, password):
    """What each line is, up to the logon, and the characters behind it."""
    items, line = [], bytearray()
    for at, c in enumerate(characters):
        if c == 0x0A:
            continue
        if c != 0x0D:
            line.append(c)
            continue
        if line == b"":
            items.append("empty")
        elif line[:4] == b"\x1bPG1" and (line[4:] == password if password else len(line) in (4, 10)):
            return items + ["logon"], characters[at + 1 :]
        else:
            items.append("wrong")
        line.clear()
    return items, b""


def blocks(characters):
    """What follows a logon: `bye`, and blocks with body, end, and whether the trailer is right."""
    items, at = [], 0
    while at < len(characters):
        if characters[at] == 4 and characters[at + 1 : at + 2] == b"\r":
            items.append("bye")
            at += 2
            continue
        if characters[at] != 2:
            at += 1
            continue
        end = next((k for k in range(at + 1, len(characters)) if characters[k] in b"\x02\x03\x17\x1f"), None)
        if end is None:
            break
        if characters[end] == 2:
            at = end
            continue
        trailer = characters[end + 1 : end + 5]
        if b"\r" in trailer:
            trailer = trailer[: trailer.index(b"\r") + 1]
        elif len(trailer) < 4:
            break
        right = trailer == sum_of(characters[at : end + 1]) + b"\r"
        items.append((characters[at + 1 : end], characters[end], right))
        at = end + 1 + len(trailer)
    return items


def judged(content, subscribers, spare):
    """The answer to a whole content, and its page or none."""
    parts = content.split(b"\r")
    values = [value_of(part) for part in parts]
    if len(parts) != 3 or parts[2] != b"" or None in values:
        return "RS form", None
    if values[0] not in subscribers:
        return "RS unknown", None
    capcode, function = subscribers[values[0]]
    if not fits(function, values[1]):
        return "RS text", None
    if cells(values[1]) > spare:
        return "RS room", None
    return "ACK", (capcode, function, values[1])


def cells(text):
    return max(1, -(-len(text) // 32))


def session(heard, password, subscribers, spare):
    """The answers to the bytes of a session, its pages, and how often each count of the report came."""
    answers, pages, counts = short_session(bytes(c & 127 for c in heard[: LENGTH - 1]), password, subscribers, spare)
    if len(heard) >= LENGTH and "END" not in answers:
        counts["forced"] = 1
        answers.append("END")
    return answers, pages, counts


def short_session(characters, password, subscribers, spare):
    """The same of characters that are too few for a forced length."""
    answers, pages, counts, joined = [], [], dict.fromkeys([*REPORT, "forced"], 0), b""
    items, rest = lines_before_logon(characters, password)
    for item in items:
        if item == "wrong":
            counts["wrong"] += 1
            answers.append("END" if counts["wrong"] == 3 else "NAK")
            if counts["wrong"] == 3:
                counts["forced"] = 1
                return answers, pages, counts
        else:
            answers.append("ID" if item == "empty" else "GO")
    for item in blocks(rest):
        if item == "bye":
            return answers + ["END"], pages, counts
        body, end, right = item
        page = None
        if not right:
            answer = "NAK"
        elif len(body) > 250:
            answer, joined = "RS body", b""
        elif len(joined) + len(body) > 2200:
            answer, joined = "RS content", b""
        elif end != 3:
            answer, joined = "ACK", joined + body
            counts["continued"] += 1
        else:
            answer, page = judged(joined + body, subscribers, spare)
            joined = b""
        if page:
            pages.append(page)
            spare -= cells(page[2])
            counts["pages"] += 1
        if answer != "ACK":
            counts[answer.lower().removeprefix("rs ")] += 1
        answers.append(answer)
    return answers, pages, counts


# The character that is answered End whatever it completes.
LENGTH = 1_000_000
REPORT = ["pages", "continued", "nak", "body", "content", "form", "unknown", "text", "room", "wrong"]
REPLIES = {"ID": b"ID=", "GO": b"\x06\r\x1b[p\r", "ACK": b"\x06\r", "NAK": b"\x15\r", "END": b"\x1b\x04\r"}


def replies(answers):
    return b"".join(REPLIES.get(answer, b"\x1e\r") for answer in answers)


def report_line(number, answers, counts, without_end="hung-up"):
    """The line of a session, which ended this way where no End was answered."""
    end = without_end if "END" not in answers else "forced" if counts["forced"] else "ended"
    return f"session {number} {end} " + " ".join(f"{name} {counts[name]}" for name in REPORT) + "\n"


# ---- the air


def slots(pages):
    """The slots of a transmission, chosen one after another."""
    waiting, run, chosen = list(pages), [], []
    while len(chosen) % 16 or waiting or run or chosen[-1:] != [IDLE]:
        frame = len(chosen) % 16 // 2
        if not run:
            page = next((page for page in waiting if page[0] % 8 == frame), None)
            if page:
                waiting.remove(page)
                capcode, function, text = page
                run = [address(capcode, function)] + [message(group) for group in groups(function, text)]
        chosen.append(run.pop(0) if run else IDLE)
    return chosen


def transmission(pages):
    """The words of a transmission of pages."""
    if not pages:
        return []
    chosen = slots(pages)
    words = [0xAAAAAAAA] * 18
    for at in range(0, len(chosen), 16):
        words += [SYNC] + chosen[at : at + 16]
    return words


def bits_of(data):
    return [byte >> i & 1 for byte in data for i in range(7, -1, -1)]


def bytes_of(words):
    return b"".join(word.to_bytes(4, "big") for word in words)


def is_sync(word):
    return (word ^ SYNC).bit_count() <= 2


def hunted(bits, at):
    """The place behind the first sync word of a hunt that begins at this place, or none."""
    word = 0
    for place in range(at, len(bits)):
        word = (word << 1 | bits[place]) & 0xFFFFFFFF
        if (word ^ SYNC).bit_count() <= 2 and place - at >= 31:
            return place + 1
    return None


def stretches(bits):
    """For each lock the words of its batches, each batch the list of its slots, and the place of the first bit behind each word."""
    found, at = [], 0
    while at is not None:
        lock = hunted(bits, at)
        at = None
        if lock is None:
            break
        batches, place = [[]], lock
        while place + 32 <= len(bits):
            word = number_of(bits[place : place + 32])
            place += 32
            if len(batches[-1]) < 16:
                batches[-1].append((word, place))
            elif is_sync(word):
                batches.append([])
            else:
                at = place
                break
        found.append(batches)
    return found


def heard(bits, capcodes):
    """The pages that receivers of these capcodes hear, as they are complete."""
    return heard_in(stretches(bits), capcodes)


def heard_in(found, capcodes):
    """The same of the stretches of lock of the bits."""
    pages = []
    for batches in found:
        fixed = [(fix(word), place) for batch in batches for word, place in batch]
        for p, (word, _) in enumerate(fixed):
            if word is None or word >> 31:
                continue
            capcode, function = (word >> 13) * 8 + p % 16 // 2, word >> 11 & 3
            end = p + 1
            while end < len(fixed) and fixed[end][0] is not None and fixed[end][0] >> 31:
                end += 1
            held = [word >> 11 & 0xFFFFF for word, _ in fixed[p + 1 : end]]
            if capcode in capcodes and end < len(fixed) and fixed[end][0] is not None and len(held) <= 350:
                pages.append((fixed[end][1], (capcode, function, text_of(function, held))))
    return [page for _, page in sorted(pages, key=lambda page: page[0])]


def shown(text):
    named = {0x5C: "\\\\", 0x0A: "\\n", 0x0D: "\\r"}
    return "".join(named.get(c) or (chr(c) if 0x20 <= c <= 0x7E else f"\\x{c:02X}") for c in text)


def page_lines(pages, capcodes):
    """The lines of pages that receivers hear which have one of these capcodes each, and are numbered in their order."""
    number = {capcode: k for k, capcode in enumerate(capcodes, 1)}
    return "".join(f"{number[capcode]:02} {capcode:07} {LETTERS[function]} {shown(text)}\n" for capcode, function, text in pages)


def table(bits):
    """The lines of `show`."""
    return table_of(stretches(bits))


def table_of(found):
    """The same of the stretches of lock of the bits."""
    lines, count = "", 0
    for batches in found:
        for batch in batches:
            count += 1
            lines += f"batch {count}\n"
            for place, (word, _) in enumerate(batch):
                lines += f"{place:02} {kind(fix(word), place // 2)}\n"
    return lines


def kind(word, frame):
    if word is None:
        return "bad"
    if word == IDLE:
        return "idle"
    if word >> 31:
        return f"message {word >> 11 & 0xFFFFF:05X}"
    return f"address {(word >> 13) * 8 + frame:07} {LETTERS[word >> 11 & 3]}"


# ---- the client


def marks(characters):
    """The marks of what a client hears, each with the number of characters up to it."""
    named = {b"\x06": "Ack", b"\x15": "Nak", b"\x1e": "Rs", b"\x1b\x04": "End", b"\x1b[p": "Go"}
    line, found = b"", []
    for at, c in enumerate(characters[:999_999], 1):
        if c == 0x0A:
            continue
        line += bytes([c])
        if line.endswith(b"ID="):
            found.append(("Id", at))
        elif c == 0x0D:
            found.append((named.get(line[:-1]), at))
        else:
            continue
        line = b""
    return [(mark, at) for mark, at in found if mark]


def page_blocks(name, text):
    content = name + b"\r" + spelled(text) + b"\r"
    bodies = [content[i : i + 250] for i in range(0, len(content), 250)]
    ended = [b"\x02" + body + (b"\x03" if k + 1 == len(bodies) else b"\x1f") for k, body in enumerate(bodies)]
    return [block + sum_of(block) + b"\r" for block in ended]


def client(hears, password, pages):
    """Whether it was logged on, the outcome of each page, and what is said."""
    logon = b"\x1bPG1" + (password or b"") + b"\r"
    said, outcomes, is_asked, is_on, naks, left = b"\r", [], False, False, 0, []
    for mark, _ in marks(bytes(c & 127 for c in hears)):
        if not is_on:
            if mark == "End":
                break
            if not is_asked:
                if mark == "Id":
                    is_asked, said = True, said + logon
                continue
            if mark == "Nak":
                naks += 1
                if naks == 3:
                    break
                said += logon
            if mark != "Go":
                continue
            is_on = True
        elif len(outcomes) < len(pages):
            if mark == "End":
                break
            if mark == "Ack":
                left, naks = left[1:], 0
                if left:
                    said += left[0]
                    continue
                outcomes.append("sent")
            elif mark == "Rs":
                outcomes.append("abandoned")
            elif mark == "Nak":
                naks += 1
                if naks < 3:
                    said += left[0]
                    continue
                outcomes.append("tries-spent")
                said += b"\x04\r"
                break
            else:
                continue
        elif mark == "End":
            break
        else:
            continue
        naks = 0
        if len(outcomes) < len(pages):
            left = page_blocks(*pages[len(outcomes)])
            said += left[0]
        else:
            said += b"\x04\r"
    rest = "disconnected" if is_on else "no-logon"
    return is_on, outcomes + [rest] * (len(pages) - len(outcomes)), said
