#!/usr/bin/env python3
"""Respells the repository's own definitions, lemmas, fields and cases as today's Rattle spells them.

usage: python3 tools/respell.py        at the top, once, on a tree that has the spelling of the toolchain's own script

Types, and facts that are types, are in upper camel case (LivesOn); everything else is in snake case (bytes_of). A name is respelt where
specs/ or proofs/ declare it, and then everywhere in specs/, proofs/, the ghost parts of src/ and the code spans of the pages. Functions of src/, exported
names, strings, inputs and outputs keep their names. Two names that would fall together are listed, and nothing is written, unless APART tells them apart.
"""
import collections
import glob
import re
import sys

# names that the rule alone would make one: of a definition and its lemma, the lemma
APART = {
    "No-text": "TextRefused",
    "end-rule": "end_rule_lem",
    "last-backslash": "last_backslash_lem",
    "line-break": "line_break_lem",
    "text-end": "text_end_lem",
    "zero-decimal": "zero_decimal_lem",
}
# names of the library that are declared here too
KEPT = {"append-nil", "not_T"}
# names that are bound, derived or imported otherwise than by a line of their own
BOUND = ["bad-discrete", "body-discrete", "break-discrete", "character-discrete", "ending-discrete", "escape-discrete", "legacy-discrete", "notEscape-discrete", "production-discrete",
         "scan-discrete", "step-discrete", "terminator-discrete", "bytes-weight", "digit-behind", "first-in", "free-is", "in-k", "open-same"]
WORD = r"[A-Za-z][\w']*(?:-[\w']+)*"
DECLARED = re.compile(r"^\s*((?:pub |abbrev |opaque |inline )*)(data |record )?(" + WORD + r")((?: " + WORD + r")*)((?: [({].*)?) :(?: |$)(.*)")
TOKEN = re.compile(r"(?<![\w'◌-])" + WORD)


def snake(name):
    parts = []
    for part in re.split("[-_]", name):
        parts += re.sub(r"([a-z0-9'])([A-Z])", r"\1 \2", part).lower().split() or [""]
    return "_".join(parts)


def camel(name):
    return "".join(p[:1].upper() + p[1:] for p in re.split("[-_]", name))


def respelt(name):
    if name in KEPT:
        return name
    if name in APART:
        return APART[name]
    return camel(name) if name[0].isupper() else snake(name)


def files(*ends):
    found = []
    for end in ends:
        found += glob.glob("crates/*/" + end, recursive=True)
    return sorted(f for f in found if "/out/" not in f)


def names_declared(said):
    named = collections.defaultdict(set)
    for path in files("specs/**/*.antt", "proofs/**/*.antt"):
        for line in open(path, encoding="utf-8"):
            if line.lstrip().startswith(("--", "use ")):
                continue
            m = DECLARED.match(line)
            if m:
                for word in (m.group(3) + m.group(4)).split():
                    named[word].add(path)
    return named


def code(path, line):
    """The part of a line that is no comment, and the comment."""
    mark = "--" if path.endswith(".antt") else "//"
    if path.endswith(".antt"):
        m = re.search(r"(?:^|\s)--(?:\s|$)", line)
        at = m.start() if m else len(line)
    else:
        at = line.find(mark) if mark in line else len(line)
    return line[:at], line[at:]


def turned(text, names):
    return TOKEN.sub(lambda m: names.get(m.group(0), m.group(0)), text)


def in_code(path, text, names):
    out = []
    for line in text.split("\n"):
        front, behind = code(path, line)
        if path.endswith(".rt"):
            front = "".join(p if i % 2 else turned(p, names) for i, p in enumerate(re.split(r'(b?"(?:[^"\\]|\\.)*")', front)))
        else:
            front = turned(front, names)
        behind = re.sub(r"`([^`]*)`", lambda m: "`" + turned(m.group(1), names) + "`", behind)
        out.append(front + behind)
    return "\n".join(out)


def main():
    named = names_declared(None)
    made = re.compile(r"^(returns|bounds|loop|invariant|decreases|overflow|requires|units-smaller-in|units-preserved-in|faults-preserved-in)\b")
    names = {}
    for name, places in named.items():
        if all("/Answers.antt" in p or "/Invariants.antt" in p for p in places) and (made.match(name) or "-in-" in name):
            continue
        new = respelt(name)
        if new != name:
            names[name] = new
    for name in BOUND:
        names[name] = respelt(name)
        named[name].add("crates/-")
    together = collections.defaultdict(set)
    for old, new in names.items():
        together[new].add(old)
    for name in named:
        if name in together:
            together[name].add(name)
    bad = {new: olds for new, olds in together.items() if len(olds) > 1}
    for new, olds in sorted(bad.items()):
        print(f"{new}: " + ", ".join(f"{o} ({', '.join(sorted({p.split('/')[1] for p in named[o]}))})" for o in sorted(olds)))
    if "--look" in sys.argv:
        for path in files("specs/**/*.antt", "proofs/**/*.antt", "src/*.rt"):
            tokens = set()
            for line in open(path, encoding="utf-8"):
                tokens |= set(TOKEN.findall(code(path, line)[0]))
            for t in sorted(tokens):
                if t in names and names[t] in tokens:
                    print(f"{path}: {t} and {names[t]}")
            by = collections.defaultdict(set)
            for t in tokens:
                by[names.get(t, t)].add(t)
            for new, olds in sorted(by.items()):
                if len(olds) > 1 and new not in olds:
                    print(f"{path}: {' '.join(sorted(olds))}")
        return
    for path in files("specs/**/*.antt", "proofs/**/*.antt", "src/*.rt"):
        text = open(path, encoding="utf-8").read()
        new = in_code(path, text, names)
        if new != text:
            open(path, "w", encoding="utf-8").write(new)
    for path in ["README.md"] + sorted(glob.glob("docs/*.md")):
        text = open(path, encoding="utf-8").read()
        new = re.sub(r"`([^`\n]*)`", lambda m: "`" + turned(m.group(1), names) + "`", text)
        if new != text:
            open(path, "w", encoding="utf-8").write(new)
    print(f"{len(names)} names")


main()
