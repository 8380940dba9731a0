#!/usr/bin/env python3
"""Writes the cases that the program look_cases replays: crates/look_cases/data/cases.txt.

The expected answers are those of the reader below, a second one that was written from the rules of
docs/LITERALS.md and of ECMA-262 alone and goes character by character. It is first held against what a
JavaScript engine says (tools/node_literals.txt).

  SCAN START HEX refused NUMBER
  SCAN START HEX KIND END MARK UNITS FAULTS
  UNITS: units in hex joined by commas, `-` for none of them, `none` where no value is cooked
  FAULTS: KIND:FROM:TO joined by commas, KIND 1 unterminated or 2 invalid escape, or `-`
"""
import os
import random

HEX = "0123456789abcdefABCDEF"
SINGLE = {"b": 8, "f": 12, "n": 10, "r": 13, "t": 9, "v": 11, "'": 39, '"': 34, "\\": 92}
OPENS = {"string": "\"'", "template": "`", "resume": "}"}


def utf16(number):
    if number < 0x10000:
        return [number]
    return [0xD800 + (number - 0x10000) // 0x400, 0xDC00 + (number - 0x10000) % 0x400]


class Reader:
    def __init__(self, text, start):
        self.text, self.at = text, start

    def peek(self):
        return self.text[self.at] if self.at < len(self.text) else ""

    def hexes(self, most):
        digits = ""
        while len(digits) < most and self.peek() and self.peek() in HEX:
            digits += self.peek()
            self.at += 1
        return digits

    def escape(self, template):
        """Behind a backslash: the units, or None where the escape is invalid."""
        c = self.peek()
        self.at += 1
        if c == "\r":
            if self.peek() == "\n":
                self.at += 1
            return []
        if c in "\n\u2028\u2029":
            return []
        if c in SINGLE:
            return [SINGLE[c]]
        if c == "x":
            digits = self.hexes(2)
            return [int(digits, 16)] if len(digits) == 2 else None
        if c == "u" and self.peek() == "{":
            self.at += 1
            digits = ""
            while self.peek() and self.peek() in HEX:
                digits += self.hexes(1)
                if int(digits, 16) > 0x10FFFF:
                    if template:
                        self.hexes(len(self.text))
                    return None
            if not digits or self.peek() != "}":
                return None
            self.at += 1
            return utf16(int(digits, 16))
        if c == "u":
            digits = self.hexes(4)
            return [int(digits, 16)] if len(digits) == 4 else None
        if c == "0" and not (self.peek() and self.peek() in "0123456789"):
            return [0]
        if template and c == "0":
            self.at += 1
            return None
        if template and c in "123456789":
            return None
        if c in "01234567":
            digits = c
            while len(digits) < (3 if c in "0123" else 2) and self.peek() and self.peek() in "01234567":
                digits += self.peek()
                self.at += 1
            return [int(digits, 8)]
        return utf16(ord(c))


def read(text, scan, start):
    """Kind, end, mark, units or None, faults; places count characters."""
    opening = text[start]
    template = scan != "string"
    reader, units, faults, marked = Reader(text, start + 1), [], [], False

    def broken(times):
        return "Undetermined", reader.at, False, units, faults + [(1, start, reader.at)] * times

    while True:
        c = reader.peek()
        if not c:
            return broken(1)
        backslash = reader.at
        reader.at += 1
        if c == "\\":
            if not reader.peek():
                return broken(2)
            marked = True
            got = reader.escape(template)
            if got is None and template:
                units = None
            elif got is None:
                faults.append((2, backslash, reader.at))
            elif units is not None:
                units = units + got
            continue
        if not template and c == opening:
            return "Str", reader.at, marked, units, faults
        if not template and c in "\r\n":
            return broken(1)
        if template and c == "`":
            return ("NoSubstitutionTemplate" if scan == "template" else "TemplateTail"), reader.at, marked, units, faults
        if template and c == "$" and reader.peek() == "{":
            reader.at += 1
            return ("TemplateHead" if scan == "template" else "TemplateMiddle"), reader.at, marked, units, faults
        if template and c == "\r":
            marked = True
            if reader.peek() == "\n":
                reader.at += 1
            c = "\n"
        if units is not None:
            units = units + utf16(ord(c))


def case(scan, text, start=0):
    data = text.encode("utf-8")
    head = f"{scan} {len(text[:start].encode('utf-8'))} {data.hex().upper() or '-'}"
    if start >= len(text):
        return f"{head} refused 3"
    if text[start] not in OPENS[scan]:
        return f"{head} refused 4"
    kind, end, marked, units, faults = read(text, scan, start)
    place = lambda at: len(text[:at].encode("utf-8"))
    told = "none" if units is None else ",".join(f"{unit:04X}" for unit in units) or "-"
    wrong = ",".join(f"{k}:{place(p)}:{place(q)}" for k, p, q in faults) or "-"
    return f"{head} {kind} {place(end)} {'escaped' if marked else 'plain'} {told} {wrong}"


def engine():
    """The second reader against the engine's answers."""
    path = os.path.join(os.path.dirname(__file__), "node_literals.txt")
    count = 0
    for line in open(path, encoding="ascii"):
        words = line.split()
        text = bytes.fromhex(words[0]).decode("utf-8")
        scan = {"`": "template", "}": "resume"}.get(text[0], "string")
        kind, end, _, units, faults = read(text, scan, 0)
        taken = kind != "Undetermined" and not faults and end == len(text)
        if words[1] == "refused":
            assert not taken, line
        elif words[1] == "none":
            assert taken and units is None, line
        else:
            assert taken and units == [int(word, 16) for word in words[2:]], line
        count += 1
    return count


ESCAPES = ["0", "1", "7", "8", "9", "07", "08", "37", "377", "378", "400", "47", "477", "x", "x4", "x41", "x4g", "u", "u1", "u12", "u123", "u0041", "ug", "u{", "u{}",
           "u{41", "u{41}", "u{10FFFF}", "u{110000}", "u{1100000}", "u{110000", "uD83D", "uDE00", "uD83D\\uDE00", "uD83D\\u0041", "uD83D\\uD83D\\uDE00", "uD83D\\u", "uD83D\\uDE0",
           "uD83D\\u{DE00}", "b", "f", "n", "r", "t", "v", "'", '"', "\\", "`", "$", "{", "a", "é", "€", "𝄞", "\n", "\r", "\r\n", "\r\r", "\u2028", "\u2029", ""]


def cases():
    # the bench
    for text in ('"a\\x41"', '"\\08"', '"\\477"', '"\\uD83D\\uDE00"', '"\\u{D83D}\\u{DE00}"', '"\\u{110000}"', '"ab\n', '"\\', "'it''s'"):
        yield "string", text, 0
    for text in ("`a\r\nb`", "`\\07`", "`a$${"):
        yield "template", text, 0
    for scan, opening, closings in (("string", '"', '"'), ("string", "'", "'"), ("template", "`", "`${"), ("resume", "}", "`${")):
        closing = closings[0]
        for escape in ESCAPES:
            # at the text's end, a byte before it, and in the midst
            for tail in ("", closing, "z" + closing, "0" + closing, "F" + closing, "}" + closing):
                yield scan, opening + "\\" + escape + tail, 0
        for size in (0, 1, 30, 31, 32, 33, 62, 63, 64, 65):
            for char in ("", "é", "€", "𝄞", "\u2028", "\r", "\n", "\\n", "\\é", "\\𝄞", "$", "$$$$$$$$"):
                yield scan, "x" + opening + "a" * size + char + closing + "b", 1
                yield scan, opening + "a" * size + char, 0
                yield scan, opening + "a" * size + char + closings[-1] + ("{" if closings[-1] == "$" else ""), 0
        yield scan, opening + "$" * 1000 + closing, 0
        yield scan, opening + closing, 2
        yield scan, opening + closing, 9
        for other in "\"'`}a":
            yield scan, other + closing, 0


def main():
    engine_count = engine()
    seeded = random.Random(20261118)
    lines = [case(*one) for one in cases()]
    for _ in range(600):
        scan, opening = seeded.choice((("string", '"'), ("string", "'"), ("template", "`"), ("resume", "}")))
        text = opening + "".join(seeded.choice(("a", "\\", "\\", "u", "{", "}", "x", "0", "8", "D83D", "DE00", '"', "'", "`", "$", "\r", "\n", "é", "𝄞", "\u2028")) for _ in range(seeded.randrange(14)))
        lines.append(case(scan, text))
    lines = list(dict.fromkeys(lines))
    target = os.path.join(os.path.dirname(__file__), "..", "crates", "look_cases", "data", "cases.txt")
    with open(target, "w", encoding="ascii") as out:
        out.write("\n".join(lines) + "\n")
    print(f"{engine_count} answers of the engine agree; {len(lines)} cases")


if __name__ == "__main__":
    main()
