#!/usr/bin/env python3
"""Whether the theorems of the crate grammar bite: each lookahead of the productions is taken away, one at a time, and the check must refuse the crate.

    tools/lookaheads.py [FILE..]        # FILE: Production.antt, Recovery.antt or both (the default)

Works on copies in a temporary folder. The environment variable RT names the command `rt`, if it is another.
Prints a line for each lookahead: the definition's line without it, and the lemmas that were refused. Ends with status 1 if a copy is proved.
"""
import os, re, shutil, subprocess, sys, tempfile

ROOT = os.path.dirname(os.path.dirname(os.path.abspath(__file__)))
CRATE = os.path.join(ROOT, "crates", "grammar")
RT = os.environ.get("RT", "rt")

# which theorem rests on which lemma
THEOREMS = {
    "characters_clear": "derivations_are_one",
    "closing_ends": "derivations_are_one",
    "steps_clear": "readings_are_one",
    "endings_clear": "readings_are_one",
    "endings_end": "readings_are_one",
    "agreed": "bench_stands",
    "seven_in_a_template": "seven_digits",
    "seven_in_a_string": "seven_digits",
}

# the lookahead of a CR in a LineContinuation of a string, of a template, and of a raw line terminator of a template: they share one rule, so each gets a rule of its own here
LOOSE = """abbrev pub loose : LineTerminatorSequence → Rule
loose lf = line_terminator_sequence lf
loose cr = this 0x0D ▸ done
loose ls = line_terminator_sequence ls
loose ps = line_terminator_sequence ps
loose crlf = line_terminator_sequence crlf

"""
SHARED = [
    ("a CR continues the line of a string, whatever stands behind", "string_character quote (line_continuation l) = continuation l", 'string_character quote (line_continuation l) = one_of "\\\\" ▸ loose l'),
    ("a CR continues the line of a template, whatever stands behind", "template_character (line_continuation l) = continuation l", 'template_character (line_continuation l) = one_of "\\\\" ▸ loose l'),
    ("a raw CR of a template, whatever stands behind", "template_character (line_terminator l) = line_terminator_sequence l", "template_character (line_terminator l) = loose l"),
]


def weaker(clause):
    """The clause without its lookahead, or without one part of it."""
    both = re.search(r"lookahead_not \((\S+) \+\+ (chars \"[^\"]*\")\)", clause)
    if both:
        yield clause.replace(both.group(0), f"lookahead_not ({both.group(2)})")
        yield clause.replace(both.group(0), f"lookahead_not {both.group(1)}")
        return
    one = re.search(r"lookahead(?:_not)? (?:\(.*?\)\)|\(.*?\)|\w+)", clause)
    if one:
        yield clause.replace(one.group(0), "done")


def edits(name):
    text = open(os.path.join(CRATE, "specs", name), encoding="utf-8").read()
    for line in text.splitlines():
        if "=" in line and "lookahead" in line.split("=", 1)[1] and "▸" in line:
            for new in weaker(line):
                yield new, text.replace(line + "\n", new + "\n")
    if name == "Production.antt":
        for title, old, new in SHARED:
            assert text.count(old) == 1, old
            at = text.index("-- LineContinuation ::")
            yield title, (text[:at] + LOOSE + text[at:]).replace(old, new)


def refused(name, text):
    with tempfile.TemporaryDirectory() as folder:
        shutil.copytree(CRATE, os.path.join(folder, "crates", "grammar"), ignore=shutil.ignore_patterns("out"))
        open(os.path.join(folder, "crates.txt"), "w").write("grammar:\n")
        open(os.path.join(folder, "crates", "grammar", "specs", name), "w", encoding="utf-8").write(text)
        run = subprocess.run([RT, "check"], cwd=os.path.join(folder, "crates", "grammar"), capture_output=True, text=True)
        if run.returncode == 0:
            return None
        lemmas = re.findall(r"/(\w+\.antt):\d+:\d+: error: `([^`]+)`", run.stdout + run.stderr)
        return list(dict.fromkeys(lemmas)) or [("?", (run.stdout + run.stderr).strip().splitlines()[-1])]


def main():
    proved = 0
    for name in sys.argv[1:] or ["Production.antt", "Recovery.antt"]:
        for title, text in edits(name):
            lemmas = refused(name, text)
            if lemmas is None:
                proved += 1
                print(f"{name}: {title}\n    NOT REFUSED", flush=True)
                continue
            theorems = sorted({THEOREMS[n] for _, n in lemmas if n in THEOREMS})
            print(f"{name}: {title}\n    {', '.join(theorems) or 'no theorem'}: {', '.join(f + ' ' + n for f, n in lemmas)}", flush=True)
    sys.exit(1 if proved else 0)


main()
