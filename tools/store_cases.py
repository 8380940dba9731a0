#!/usr/bin/env python3
"""Writes the scripts that the program store_cases replays: crates/store_cases/data/scripts.txt, and its stdout.

The expected answers are worked out here from the rules alone: a store is a list of finished values and an open
one; the 16-bit make weighs a value by its units, the WTF-8 make by its bytes, for which Python's own UTF-16 and
UTF-8 codecs join a pair of surrogates and leave a lone one as three bytes (the error handler `surrogatepass`).

Each call is a name and two numbers, 0 where it needs none.

  stores PLACES SIZE:CALL,CALL..= ANSWER|ANSWER ..;VALUES;VALUES;BYTES
      put UNIT · close · drop · keep UNIT UNIT · len N · unit N I · open I · limits · place N (WTF-8 alone)
  maps SLOTS 0:CALL,CALL..= ANSWER|ANSWER ..
      insert START VALUE · find START · fill N VALUE · clear · count, at numbers and at options
  faults RECORDS 0:CALL,CALL..= ANSWER ..
      append KIND TO · at I · fill KIND N · clear · count
"""
import os
import random

CELLS, PLACES = 1048576, 4096


def wtf8(units):
    raw = b"".join(unit.to_bytes(2, "little") for unit in units)
    return raw.decode("utf-16-le", "surrogatepass").encode("utf-8", "surrogatepass")


class Store:
    def __init__(self, places, capacity, weight):
        self.places, self.capacity, self.weight = min(places, PLACES), min(capacity, CELLS), weight
        self.values, self.open = [], []

    def load(self, last):
        return sum(map(self.weight, self.values)) + self.weight(last)

    def put(self, unit, _):
        if self.load(self.open + [unit]) > self.capacity:
            return "no12"
        self.open = self.open + [unit]
        return "ok"

    def close(self, *_):
        if len(self.values) >= self.places:
            return "no11"
        self.values.append(self.open)
        self.open = []
        return len(self.values) - 1

    def drop(self, *_):
        self.open = []
        return "ok"

    def keep(self, *units):
        if len(self.values) >= self.places:
            return "no11"
        self.open = []
        if self.load(list(units)) > self.capacity:
            return "no12"
        self.open = list(units)
        return self.close()

    def limits(self, *_):
        return f"{self.places}/{self.capacity}"

    def len(self, n, _):
        return len(self.values[n]) if n < len(self.values) else "no5"

    def unit(self, n, i):
        return unit_at(self.values[n], i) if n < len(self.values) else "no5"

    def open_unit(self, i, _):
        return unit_at(self.open, i)

    def place(self, n, _):
        if self.weight is len:
            return "none"
        return f"{sum(map(self.weight, self.values[:n]))}/{self.weight(self.values[n])}" if n < len(self.values) else "no5"

    def call(self, name, a, b):
        return getattr(self, {"open": "open_unit"}.get(name, name))(a, b)

    def tell(self):
        return "".join("".join(f" {unit:04X}" for unit in value) + end for value, end in [(value, ",") for value in self.values] + [(self.open, ";")])


def unit_at(units, i):
    return units[i] if i < len(units) else "no5"


def spelled(call):
    name, *numbers = call.split(" ")
    return name, *([int(number, 16) if name in ("put", "keep") else int(number) for number in numbers] + [0, 0])[:2]


def line(head, calls, answers):
    return head + ":" + ",".join("{} {} {}".format(*call) for call in calls) + "=" + answers


def stores(places, size, calls):
    left, right = Store(places, size, len), Store(places, size, lambda units: len(wtf8(units)))
    calls = [spelled(call) for call in calls]
    answers = "".join(f" {left.call(*call)}|{right.call(*call)}" for call in calls)
    held = b"".join(map(wtf8, right.values + [right.open])).hex().upper()
    return line(f"stores {places} {size}", calls, answers + ";" + left.tell() + right.tell() + held), left.values == right.values


def shown(value, optional):
    return "none" if value is None else "nothing" if optional and value % 2 else value


def maps(slots, calls):
    room, held, answers = min(slots, PLACES), {}, ""
    calls = [spelled(call) for call in calls]
    for name, a, b in calls:
        if name in ("insert", "fill"):
            taken = 0
            for start in range(a) if name == "fill" else (a,):
                if len(held) < room:
                    held.setdefault(start, b)
                    taken += 1
            answer = taken if name == "fill" else "ok" if taken else "no10"
            answers += f" {answer}|{answer}"
        elif name == "find":
            answers += f" {shown(held.get(a), False)}|{shown(held.get(a), True)}"
        elif name == "clear":
            held = {}
            answers += " ok|ok"
        else:
            answers += f" {len(held)}/{room}|{len(held)}/{room}"
    return line(f"maps {slots} 0", calls, answers)


def faults(records, calls):
    room, listed, answers = min(records, PLACES), [], ""
    calls = [spelled(call) for call in calls]
    for name, a, b in calls:
        if name in ("append", "fill"):
            wanted = [f"{a}/{to}" for to in (range(b) if name == "fill" else (b,))]
            taken = wanted[: max(0, room - len(listed))]
            listed = listed + taken
            answers += f" {len(taken)}" if name == "fill" else " ok" if taken else " no9"
        elif name == "at":
            answers += f" {listed[a] if a < len(listed) else 'no5'}"
        elif name == "clear":
            listed = []
            answers += " ok"
        else:
            answers += f" {len(listed)}/{room}"
    return line(f"faults {records} 0", calls, answers)


def listed_stores():
    # a pair within a value, and never across two
    yield 4, 9, ["put D83D", "put DE00", "close", "place 0", "len 0", "unit 0 0", "unit 0 1", "unit 0 2", "open 0"]
    yield 4, 9, ["put D83D", "close", "put DE00", "close", "place 0", "place 1", "place 2", "len 2", "unit 2 0"]
    yield 4, 9, ["put DE00", "put D83D", "put DE00", "close", "place 0"]
    yield 4, 9, ["put D83D", "put D83D", "put DE00", "open 0", "open 2", "open 3", "close", "place 0"]
    # a pair takes one byte more than its high half, and is taken where just that is free
    yield 1, 4, ["put D83D", "put DE00", "put 0061", "close", "close", "put 0061"]
    yield 1, 3, ["put D83D", "put DE00", "put 0061", "drop", "put 0061"]
    yield 2, 3, ["put 20AC", "close", "put 0061"]
    # the first and last unit of each width
    for unit in ("0000", "007F", "0080", "07FF", "0800", "D7FF", "D800", "DBFF", "DC00", "DFFF", "E000", "FFFF"):
        yield 2, 12, [f"put {unit}", f"put {unit}", "close", "place 0"]
    for high in ("D800", "DBFF"):
        for low in ("DC00", "DFFF"):
            yield 1, 4, [f"put {high}", f"put {low}", "close", "place 0"]
    # nothing lent, and more lent than is used
    yield 0, 0, ["limits", "put 0061", "close", "drop", "keep 0061 0062", "len 0", "open 0", "place 0"]
    yield 1, 0, ["put 0061", "close", "close"]
    yield 4097, 1048577, ["limits", "keep D83D DE00", "place 0"]
    # values stored whole: kept, too heavy, and without a place
    yield 2, 8, ["put 0061", "keep 0062 0063", "keep 20AC 20AD", "keep 20AC 20AC", "put 0061", "keep D83D DE00", "put 0061", "keep 0061 0061"]


def main():
    seeded = random.Random(20261118)
    cases = list(listed_stores())
    pool = ["0061", "00E9", "20AC", "D83D", "DE00", "D800", "DFFF", "FFFF"]
    for _ in range(150):
        calls = []
        for _ in range(seeded.randrange(4, 24)):
            unit, other, number = seeded.choice(pool), seeded.choice(pool), seeded.randrange(4)
            calls.append(seeded.choice([
                f"put {unit}", f"put {unit}", f"put {unit}", f"put {unit}", "close", "close", "drop", f"keep {unit} {other}",
                f"len {number}", f"place {number}", f"unit {number} {seeded.randrange(3)}", f"open {number}"]))
        cases.append((seeded.randrange(5), seeded.choice([0, 3, 6, 9, 12, 40]), calls))
    told = [stores(*case) for case in cases]
    lines = [text for text, _ in told]
    for slots in (0, 1, 3, 4095, 4096, 4097):
        lines.append(maps(slots, ["count", "find 5", "insert 5 8", "insert 5 9", "insert 6 7", "find 5", "find 6", "find 0", "insert 0 2", "insert 7 4",
                                  "insert 6 6", "count", "find 0", "clear", "count", "find 5", "insert 5 3", "find 5"]))
    # the last slot is used, and the first past the limit is not
    for slots in (4095, 4096, 4097):
        lines.append(maps(slots, ["fill 4098 6", "count", "find 4095", "find 4096", "insert 7 1", "clear", "fill 3 2", "count"]))
    for records in (0, 1, 2, 4097):
        lines.append(faults(records, ["count", "at 0", "append 1 4", "append 2 10", "append 1 7", "count", "at 0", "at 1", "at 2", "clear", "count",
                                      "at 0", "append 2 4", "at 0"]))
    for records in (4095, 4096, 4097):
        lines.append(faults(records, ["fill 2 4098", "count", "at 4094", "at 4095", "at 4096", "append 1 0"]))
    folder = os.path.join(os.path.dirname(__file__), "..", "crates", "store_cases")
    with open(os.path.join(folder, "data", "scripts.txt"), "w", encoding="ascii") as out:
        out.write("\n".join(lines) + "\n")
    with open(os.path.join(folder, "stdout"), "w", encoding="ascii") as out:
        out.write(f"{len(lines)} scripts agree\nboth makes tell the same values at the end of {sum(same for _, same in told)}\n")
    print(f"{len(lines)} scripts")


if __name__ == "__main__":
    main()
