#!/usr/bin/env python3
"""Brings the names of definitions and lemmas to today's spelling: words in snake case, and a dash only between two names.

usage: tools/respell.py [FOLDER]      once, over crates/ of the folder (else of this one), after the kit's port.py

Functions of src/, types, modules, generated names (goals and the fields of their records), strings and exported names keep theirs.
It stops, with nothing written, where two names would fall together.
"""
import collections
import os
import re
import sys

ROOT = sys.argv[1] if len(sys.argv) > 1 else "."
TOKEN = re.compile(r"(?<![\w'◌-])[A-Za-z_][\w']*(?:-[\w']+)*")
HEAD = re.compile(r"^ *(?:(?:abbrev|unfoldable|pub) )*([a-z][\w']*(?:-[\w']+)*) :(?= )", re.M)
# words of std that a dash may join to a name of ours
WORDS = {"length", "take", "drop", "map", "set", "append", "insert", "remove", "sum", "min", "filter"}
# lemmas that get another name since a definition beside them now has theirs, in these files alone
BESIDE = {
    "crates/supplied/specs/Spans.antt": {"same_number": "same_span_point"},
    "crates/supplied/specs/MadeSpans.antt": {"same_number": "same_span_point"},
    "crates/supplied/proofs/spans/questions/SpanFamily/first_point/Answers.antt": {"same_number": "same_span_point"},
    "crates/supplied/specs/MadeRoutes.antt": {"made_as": "made_as_lem"},
    "crates/supplied/specs/MadeRanges.antt": {"made_as": "made_as_lem"},
}


def sources():
    for folder, dirs, files in os.walk(os.path.join(ROOT, "crates")):
        dirs[:] = sorted(d for d in dirs if d not in ("out", ".git"))
        for f in sorted(files):
            if f.endswith((".antt", ".rt")):
                yield os.path.relpath(os.path.join(folder, f), ROOT)


def snake(name):
    return re.sub(r"(?<=[a-z0-9])([A-Z])", lambda m: "_" + m[1].lower(), name)


def main():
    texts = {p: open(os.path.join(ROOT, p), encoding="utf-8").read() for p in sources()}
    goals, heads, tokens = set(), set(), collections.Counter()
    functions = set()
    for p, t in texts.items():
        goals.update(re.findall(r"\bgoal\.([\w'-]+)", t))
        for m in TOKEN.finditer(t):
            tokens[m[0]] += 1
        if p.endswith(".antt"):
            heads.update(HEAD.findall(t))
        else:
            functions.update(re.findall(r"\bfn (\w+)", t))
    heads -= goals
    # camel case anywhere: the code has none that begins with a small letter
    new = {n: snake(n) for n in tokens if re.match(r"[a-z]", n) and re.search(r"[a-z0-9][A-Z]", n) and "-" not in n and not n.startswith("in_")}
    camel = set(new.values())
    names = {new.get(h, h) for h in heads if "-" not in h} | WORDS
    for n in sorted(heads):
        if "-" in n:
            parts = [snake(x) for x in n.split("-")]
            to = parts[0]
            for a, b in zip(parts, parts[1:]):
                to += ("-" if a in names and b in names and len(parts) == 2 else "_") + b
            if to in functions or to in camel:
                to += "_lem"
            if to != n:
                new[n] = to
    # names that would fall together
    seen = collections.defaultdict(set)
    for n, to in new.items():
        seen[to].add(n)
    bad = []
    for to, from_ in seen.items():
        defined = to in heads and not any(to in b for b in BESIDE.values())
        if len(from_) > 1 or (defined and to not in KNOWN):
            bad.append((to, sorted(from_), defined))
    for to in seen:
        if to in tokens and to not in functions and to not in heads:
            print("look:", to, sorted(seen[to]), tokens[to])
    if bad:
        for b in sorted(bad):
            print("falls together:", b)
        raise SystemExit(1)
    for p, t in texts.items():
        own = BESIDE.get(p, {})

        def turn(m):
            n = m[0]
            if n in own:
                return own[n]
            if n in new and not t.startswith("goal.", max(0, m.start() - 5)):
                return new[n]
            return n

        to = TOKEN.sub(turn, t)
        if to != t:
            with open(os.path.join(ROOT, p), "w", encoding="utf-8") as f:
                f.write(to)
    with open(os.path.join(ROOT, "docs", "RENAMED.tsv"), "w", encoding="utf-8") as f:
        for n in sorted(new):
            if n in heads:
                f.write(f"{n}\t{new[n]}\n")


# a lemma of one crate and a definition of another, never in one scope
KNOWN = {"has_room", "in_order"}

if __name__ == "__main__":
    main()
