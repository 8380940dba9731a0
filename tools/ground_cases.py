#!/usr/bin/env python3
"""Writes the cases that the program ground_cases replays: crates/ground_cases/data/cases.txt.

The expected answers are Python's: its UTF-8 decoder says which bytes are well-formed and how long the
longest well-formed prefix is, and a plain walk over the bytes finds stops and boundaries.

  text HEX ok CHARACTERS | text HEX refused 2 PREFIX
  stop SET HEX FROM none | stop SET HEX FROM PLACE BYTE
  move HEX PLACE REACHED          from the start of the text
  char HEX PLACE NUMBER BEHIND | char HEX PLACE none
"""
import os
import random

SETS = {"double": b'"\\\r\n', "single": b"'\\\r\n", "template": b"$`\r\\"}
SIZES = (0, 1, 31, 32, 33, 63, 64, 65)


def hexed(data):
    return data.hex().upper() or "-"


def text_case(data):
    try:
        return f"text {hexed(data)} ok {len(data.decode('utf-8'))}"
    except UnicodeDecodeError as error:
        return f"text {hexed(data)} refused 2 {error.start}"


def stop_case(name, data, start):
    for place in range(start, len(data)):
        if data[place] in SETS[name]:
            return f"stop {name} {hexed(data)} {start} {place} {data[place]}"
    return f"stop {name} {hexed(data)} {start} none"


def boundary(data, place):
    return place == len(data) or (place < len(data) and data[place] & 0xC0 != 0x80)


def move_case(data, place):
    return f"move {hexed(data)} {place} {place if boundary(data, place) else 0}"


def char_case(data, place):
    rest = data[place:].decode("utf-8")
    if not rest:
        return f"char {hexed(data)} {place} none"
    return f"char {hexed(data)} {place} {ord(rest[0])} {place + len(rest[0].encode('utf-8'))}"


def texts():
    # the first and last character of each width, and the edges of the surrogates
    for code in (0, 0x7F, 0x80, 0x7FF, 0x800, 0xD7FF, 0xE000, 0xFFFF, 0x10000, 0x10FFFF):
        yield chr(code).encode("utf-8")
        yield b"ab" + chr(code).encode("utf-8") + b"c"
        # truncated at every byte, at the end and before more text
        for cut in range(1, len(chr(code).encode("utf-8"))):
            yield b"x" + chr(code).encode("utf-8")[:cut]
            yield b"x" + chr(code).encode("utf-8")[:cut] + b"y"
    # overlong forms, surrogates, numbers above 10FFFF
    for bad in ("C080", "C1BF", "E08080", "E09FBF", "F0808080", "F08FBFBF", "EDA080", "EDBFBF", "EDA081EDB080", "F4908080", "F7BFBFBF"):
        yield bytes.fromhex(bad)
        yield b"abc" + bytes.fromhex(bad) + b"d"
    # every byte that begins no character, and every lone continuation
    for lead in list(range(0x80, 0xC2)) + list(range(0xF5, 0x100)):
        yield b"q" + bytes([lead]) + b"\x80\x80\x80"
    for size in SIZES:
        yield b"a" * size
        yield b"a" * size + b"\xff"
        for char in ("é", "€", "𝄞"):
            yield b"a" * size + char.encode("utf-8") + b"b"


def stops():
    for name, stop in SETS.items():
        for size in SIZES:
            yield name, b"a" * size, 0
            yield name, b"a" * size, size + 7
            for byte in stop:
                # at the end, one before it, and behind a character that crosses a batch's edge
                yield name, b"a" * size + bytes([byte]), 0
                yield name, b"a" * size + bytes([byte]) + b"b" + bytes([byte]), 0
                yield name, b"a" * size + bytes([byte]) + b"b" * 40, size
                yield name, b"a" * size + bytes([byte]) + b"b" * 40, size + 1
                for char in ("é", "€", "𝄞"):
                    for back in range(1, 4):
                        head = b"a" * max(0, size - back)
                        yield name, head + char.encode("utf-8") + b"c" * 30 + bytes([byte]), 0
        for byte in range(256):
            yield name, b"a" * 33 + bytes([byte]) + b"a" * 33, 1


def main():
    seeded = random.Random(20261117)
    lines = [text_case(data) for data in texts()]
    for _ in range(200):
        lines.append(text_case(bytes(seeded.choice(b"a\x80\xbf\xc2\xe0\xed\xf0\xf4\xa0\x9f\x90") for _ in range(seeded.randrange(1, 9)))))
    lines += [stop_case(*case) for case in stops()]
    for _ in range(200):
        data = "".join(seeded.choice("ab\"'`$\\\r\né€𝄞") for _ in range(seeded.randrange(90))).encode("utf-8")
        lines.append(stop_case(seeded.choice(list(SETS)), data, seeded.randrange(len(data) + 3)))
    for data in ("aé€𝄞b".encode("utf-8"), b"", b"a"):
        lines += [move_case(data, place) for place in range(len(data) + 3)]
        lines += [char_case(data, place) for place in range(len(data) + 1) if boundary(data, place)]
    target = os.path.join(os.path.dirname(__file__), "..", "crates", "ground_cases", "data", "cases.txt")
    with open(target, "w", encoding="ascii") as out:
        out.write("\n".join(lines) + "\n")
    print(f"{len(lines)} cases")


if __name__ == "__main__":
    main()
