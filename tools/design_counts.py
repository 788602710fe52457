#!/usr/bin/env python3
"""Lists, below a checkout of this repository, the lines of crates/*/src/ where an older design may stand, point by point
of docs/DESIGN-PASS.md, and counts them:  tools/design_counts.py [FOLDER]. A line is a place to look, not a verdict."""
import collections
import glob
import itertools
import re
import sys

ROOT = sys.argv[1] if len(sys.argv) > 1 else "."
FILES = {f[len(ROOT) + 1:]: open(f).read() for f in sorted(glob.glob(f"{ROOT}/crates/*/src/**/*.rt", recursive=True))}

LINES = [
    ("1a flags beside a value", r"^\s+(pub(\(crate\))? )?\w+: bool,"),
    ("1b enums", r"^\s*(pub(\(crate\))? )?enum \w+"),
    ("1c sentinels: a field that is 0 where there is nothing", r"\bused: 0,|\borders: 0,|\.used == 0|\.height (!=|<) \d"),
    ("1d Option and Result taken apart by hand", r"^\s*let (Some|Ok)\(.*\) = .* else \{|None => None|\.is_err\(\) \{|Ok\((?P<x>\w+)\) => Ok\((?P=x)\)"),
    ("1e functions whose answer is a small number", r"fn \w+(<[^>]*>)?\(.*\) -> (Option<)?(u8|u16|u32)\b"),
    ("3 loops that count an index", r"for \w+ in .*\.\.|while .*\.len\(\)|\b(at|start|end|i) \+= 1|\b(start|end) = i\b"),
    ("4a equality, conversion, printing by hand", r"fn (same|is|has|byte|from_byte|number|name|refused|ended|kind_of|in_words|write_\w+|order|order_of|is_\w+)\b"),
    ("4b casts", r" as (u8|u16|i8|i16|usize|u128)\b"),
    ("6 slices, with what stands beside them", r"^\s*(pub )?(fn .*|\w+: )(&('\w+ )?(mut )?\[\w+\]).*|^\s+(pub(\(crate\))? )?(used|end): usize"),
    ("7 enums that only choose a step", r"enum (Class|Task|Command|Operand|First|Leaf|Escape|Step)\b"),
]


def show(title, rows):
    print(f"== {title}: {len(rows)}")
    for row in rows:
        print("   " + row)


for title, pattern in LINES:
    rows = [f"{f}:{n}: {l.strip()}" for f, s in FILES.items() for n, l in enumerate(s.split("\n"), 1) if re.search(pattern, l)]
    show(title, rows)

# 2: functions of one crate whose bodies have one shape (names, numbers and strings left out)
shapes = collections.defaultdict(list)
for f, s in FILES.items():
    for m in re.finditer(r"fn (\w+)[^{;]*?(?:\n\s*(?:requires|ensures)[^\n]*)*\n?\s*\{\n(.*?)\n(\s*)\}\n", s, re.S):
        body = m.group(2)
        words = re.findall(r"\b(?:match|if|else|while|for|return|let|Some|None|Ok|Err|self)\b|=>|[(){}\[\]?]|\.\w+", body)
        if len(words) >= 8:
            shapes[" ".join(words)].append(f"{f}: {m.group(1)}")
show("2a functions of one shape", [", ".join(v) for v in shapes.values() if len(v) > 1])
arms = [f"{f}:{n}: {l.strip()}" for f, s in FILES.items() for n, l in enumerate(s.split("\n"), 1) if re.search(r"=> (return )?Err\(Fault::Unexpected\(place\)\)", l)]
show("2b arms that refuse a token alike", arms)

# 5: facts in three contracts or more, and pairs of parameters in three functions or more
facts = collections.Counter()
for s in FILES.values():
    for m in re.finditer(r"^\s*(?:requires|ensures)(?: \w+)? (\{.*\})", s, re.M):
        facts[m.group(1)] += 1
show("5a facts in three contracts or more", [f"{n} times {k}" for k, n in facts.most_common() if n >= 3])
pairs = collections.defaultdict(list)
for f, s in FILES.items():
    for m in re.finditer(r"fn (\w+)\s*(?:<[^(]*?>)?\(([^)]*)\)", s, re.S):
        ps = sorted({re.sub(r"\s+", " ", p.strip()) for p in m.group(2).split(",") if p.strip() and "self" not in p})
        for pair in itertools.combinations(ps, 2):
            pairs[pair].append(f.split("/")[1] + "/" + m.group(1))
rows = [f"{len(v)} times ({a}, {b}): {', '.join(v)}" for (a, b), v in pairs.items() if len(v) >= 3]
show("5b parameters together in three functions or more", sorted(rows, reverse=True))

# 8: proofs
def count(pattern):
    files = glob.glob(f"{ROOT}/crates/*/{pattern}", recursive=True)
    return len(files), sum(open(f).read().count("\n") for f in files)
print("== 8 proof files, lines: answers %s, invariants %s, all of proofs %s, specs %s" % (count("proofs/**/Answers.antt"), count("proofs/**/Invariants.antt"), count("proofs/**/*.antt"), count("specs/**/*.antt")))
