#!/usr/bin/env python3
"""Lists places in crates/*/src where an older form of the language may stand, by point.

    python3 tools/places.py [POINT]

A listed place is one to look at, not a fault: docs/DESIGN-PASS.md says what became of each.
"""
import difflib
import glob
import re
import sys

FILES = sorted(glob.glob('crates/*/src/**/*.rt', recursive=True))
TEXT = {f: open(f, encoding='utf-8').read() for f in FILES}
WORDS = set('as break const continue crate dyn else enum extern false fn for if impl in let loop match mod move mut pub ref '
            'return self Self static struct super trait true type unsafe use where while Ok Err Some None Result Option'.split())


def grep(pattern):
    """Every line that matches, as file:line and its text."""
    want = re.compile(pattern)
    return [(f'{f}:{n}', line.strip())
            for f in FILES
            for n, line in enumerate(TEXT[f].splitlines(), 1) if want.search(line)]


def functions():
    """Every function: its place, name, signature with contract, and body."""
    head = re.compile(r'^( *)(?:pub(?:\([a-z]+\))? )?(?:extern "C" )?fn (\w+)', re.M)
    for f in FILES:
        for m in head.finditer(TEXT[f]):
            indent, rest = m.group(1), TEXT[f][m.start():]
            opens = re.search(rf'^{indent}{{$|^.* {{$', rest, re.M)
            ends = re.search(rf';$|^{indent}{{}}$', rest, re.M)
            if not opens or (ends and ends.start() < opens.start()):
                sign, body = rest[:ends.start()], ''
            else:
                close = re.search(rf'^{indent}}}$', rest, re.M)
                sign, body = rest[:opens.end() - 1], rest[opens.end():close.start()]
            yield f'{f}:{TEXT[f].count(chr(10), 0, m.start()) + 1}', m.group(2), sign, body


def shape(body):
    """The tokens of a body, with names numbered in the order of their coming and literals alike."""
    names = {}
    out = []
    for t in re.findall(r'b?"[^"]*"|b?\'[^\']+\'|\w+|[^\s\w]', re.sub(r'//.*', '', body)):
        if t[0].isdigit() or t.startswith(('"', "'", 'b"', "b'")):
            out.append('0')
        elif re.match(r'\w', t) and t not in WORDS:
            out.append(f'n{names.setdefault(t, len(names))}')
        else:
            out.append(t)
    return out


def twins():
    """Pairs of functions whose bodies have the same shape, or nearly."""
    known = [(place, name, shape(body)) for place, name, _, body in functions() if body]
    found = []
    for i, (p, a, x) in enumerate(known):
        for q, b, y in known[i + 1:]:
            if min(len(x), len(y)) < 18 or max(len(x), len(y)) > 1.3 * min(len(x), len(y)):
                continue
            match = difflib.SequenceMatcher(None, x, y, autojunk=False)
            if match.quick_ratio() >= 0.9 and match.ratio() >= 0.9:
                found.append((p, f'{a} ~ {b} ({q}) {match.ratio():.2f}'))
    return found


def facts():
    """Facts that stand in three or more contracts of a crate."""
    seen = {}
    for place, name, sign, _ in functions():
        crate = place.split('/')[1]
        for clause in re.findall(r'(?:requires|ensures)[^{]*{(.*)}', sign):
            for fact in re.split(r' × | → ', clause):
                fact = fact.strip(' ()')
                if len(fact) > 12:
                    seen.setdefault((crate, fact), set()).add(name)
    return [(c, f'{len(ns)}: {fact}: {", ".join(sorted(ns))}') for (c, fact), ns in sorted(seen.items()) if len(ns) >= 3]


def together():
    """Two or more parameters that four or more functions of a crate have together."""
    seen = {}
    for place, name, sign, _ in functions():
        crate = place.split('/')[1]
        params = re.findall(r'\b(\w+): (?:&(?:mut )?)?[\w<\[]', sign.split('requires')[0].split('ensures')[0])
        params = [p for p in params if not p[0].isupper()]
        for i, a in enumerate(params):
            for b in params[i + 1:]:
                seen.setdefault((crate, a, b), []).append(name)
    return [(c, f'{len(ns)}: ({a}, {b}): {", ".join(ns)}') for (c, a, b), ns in sorted(seen.items()) if len(ns) >= 4]


POINTS = {
    1: [('enums', lambda: grep(r'^\s*(pub(\([a-z]+\))? )?enum ')),
        ('flags in structs', lambda: grep(r'^ {4}(pub )?\w+: bool,$')),
        ('functions that answer a number', lambda: [(p, s.splitlines()[0].strip()) for p, _, s, _ in functions()
                                                    if re.search(r'\) -> (u8|u16|u32)\b', s)]),
        ('failures handed on by hand', lambda: grep(r'Err\(\w+\) => (return )?Err\(|None => (return )?None|is_err\(\)|Err\(AllocError\)'))],
    2: [('functions of one shape', twins)],
    3: [('loops', lambda: grep(r'^\s*(\'[a-z]+: )?(while|loop)\b|^\s*(\'[a-z]+: )?for .*(\.\.|enumerate)'))],
    4: [('conversions and printing by functions', lambda: [(p, n) for p, n, _, _ in functions()
                                                           if re.match(r'(write_|done$|number$|unit$|word$|fault_word|.*_told$|told_of|scan_of|scan_named|call_of'
                                                                       r'|kind_number|response_of|turned_down|seen_of|marked$|opening_of|value_of$)', n)]),
        ('impls of comparing, copying, converting, printing', lambda: grep(r'^\s*impl.* (PartialEq|Eq|Ord|PartialOrd|Clone|From<.*|TryFrom<.*|.*Display|Debug) for'))],
    5: [('facts in three or more contracts of a crate', facts),
        ('parameters together in four or more functions of a crate', together)],
    6: [('lent slices in structs', lambda: grep(r'^ {4}(pub(\([a-z]+\))? )?\w+: &\'\w+ (mut )?\[')),
        ('arrays as answers', lambda: [(p, s.splitlines()[0].strip()) for p, _, s, _ in functions() if re.search(r'-> \[', s)])],
    7: [('a word or number decides what is called', lambda: grep(r'match (name|kind|call|command\.word|scan|set|what|request\.what|word)\b')),
        ('function pointers', lambda: grep(r': fn\(|dyn '))],
}


def main():
    wanted = [int(a) for a in sys.argv[1:]] or sorted(POINTS)
    for point in wanted:
        for title, find in POINTS[point]:
            rows = find()
            print(f'{point}. {title}: {len(rows)}')
            for place, text in rows:
                print(f'    {place}  {text}')


main()
