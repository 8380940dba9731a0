#!/usr/bin/env python3
"""Writes crates/grammar_cases/specs/Cases.antt from tools/node_literals.txt: the answers of a JavaScript engine as cases of a theorem.

    tools/engine_cases.py [EVERY]       # each EVERY-th line (default 1)
"""
import os, sys

ROOT = os.path.dirname(os.path.dirname(os.path.abspath(__file__)))
every = int(sys.argv[1]) if len(sys.argv) > 1 else 1


def numbers(ns, digits):
    return "(" + "".join(f"0x{n:0{digits}X} ∷ " for n in ns) + "[])"


def case(line):
    text, verdict, *units = line.split()
    said = {"none": "uncooked", "refused": "refused"}.get(verdict) or "(accepted " + numbers([int(u, 16) for u in units], 4) + ")"
    return f"    case {numbers(bytes.fromhex(text), 2)} {said}\n"


with open(os.path.join(ROOT, "tools", "node_literals.txt")) as f:
    lines = f.read().splitlines()[::every]
with open(os.path.join(ROOT, "crates", "grammar_cases", "specs", "Cases.antt"), "w") as f:
    f.write("""-- Literals and the answers of a JavaScript engine, written by tools/engine_cases.py. Assumes nothing.
use Rattle.std.specs.Prelude.{ℕ, List, [], ◌∷◌}
use Rattle.std.specs.List.{AllByRecursion}
use Rattle.grammar_cases.specs.Engine.{Verdict, accepted, uncooked, refused, Case, Agrees}

abbrev case : List ℕ → Verdict → Case
case bs v = record { bytes = bs; verdict = v }

abbrev pub cases : List Case
cases =
""" + "    ∷ ".join(case(line).lstrip() if i else case(line) for i, line in enumerate(lines)) + """    ∷ []

abbrev pub EngineAgrees : Type 0
EngineAgrees = AllByRecursion Agrees cases
""")
