#!/usr/bin/env python3
"""Counts the places in src/ that an older design would leave, point by point.

    python3 tools/places.py [--list] [COMMIT]

counts in the tree, or at a commit; --list names each place. What it finds is a candidate: docs/DESIGN-PASS.md says of
each whether it was changed, or why it stays. Points 1 to 7 are read off crates/*/src, point 8 off crates/*/proofs.
"""
import collections
import re
import subprocess
import sys

LISTING = "--list" in sys.argv
COMMIT = next((a for a in sys.argv[1:] if a != "--list"), None)


def names():
    if COMMIT:
        out = subprocess.run(["git", "ls-tree", "-r", "--name-only", COMMIT, "crates"], capture_output=True, text=True, check=True)
    else:
        out = subprocess.run(["git", "ls-files", "--cached", "--others", "--exclude-standard", "crates"], capture_output=True, text=True, check=True)
    return sorted(out.stdout.split())


def read(name):
    if COMMIT:
        return subprocess.run(["git", "show", f"{COMMIT}:{name}"], capture_output=True, text=True, check=True).stdout
    try:
        return open(name, encoding="utf-8").read()
    except FileNotFoundError:
        return ""


SOURCES = {n: read(n) for n in names() if re.match(r"crates/\w+/src/.*\.rt$", n)}
PROOFS = {n: read(n) for n in names() if re.match(r"crates/\w+/proofs/.*\.antt$", n)}


def hits(pattern, files, flags=re.M):
    found = []
    for name, text in files.items():
        for m in re.finditer(pattern, text, flags):
            line = text.count("\n", 0, m.start()) + 1
            found.append((f"{name}:{line}", " ".join(m.group(0).split())[:90]))
    return found


def functions():
    """Each function of src/: its place, its name, its parameters, and its head with the clauses."""
    for name, text in SOURCES.items():
        for m in re.finditer(r"^ *(?:pub(?:\([a-z]+\))? )?(?:extern \"C\" )?fn (\w+)", text, re.M):
            head = []
            for line in text[m.start() :].split("\n"):
                head.append(line)
                bare = line.strip()
                if bare == "{" or bare.endswith(";") or (bare.endswith("{") and not re.match(r"(?:ensures|requires)", bare)):
                    break
            whole = "\n".join(head)
            params = re.search(r"\(([^)]*)\)", re.sub(r"\(crate\)|Fn\w*\([^)]*\)", "", whole))
            listed = [p.strip() for p in params.group(1).split(",")] if params else []
            place = f"{name}:{text.count(chr(10), 0, m.start()) + 1}"
            yield place, m.group(1), [p for p in listed if ":" in p], whole


def facts():
    """Facts that the contracts of three functions or more ask for."""
    where = collections.defaultdict(list)
    for place, name, _, clauses in functions():
        for m in re.finditer(r"requires \w* ?\{ ([^}]*) \}", clauses):
            fact = re.sub(r"\.(now|old|new)\b", "", m.group(1))
            where[fact].append((place, f"{name}: {fact}"))
    return [hit for found in where.values() if len(found) >= 3 for hit in found]


def together():
    """Functions whose parameters hold a pair, by name and type, that five functions or more hold."""
    where = collections.defaultdict(list)
    for place, name, params, _ in functions():
        for i, a in enumerate(params):
            for b in params[i + 1 :]:
                if not a.startswith("rt:") and not b.startswith("rt:"):
                    where[(a, b)].append((place, name))
    many = {hit for found in where.values() if len(found) >= 5 for hit in found}
    return sorted(many)


POINTS = [
    ("1 a flag or a Result with a value beside it", lambda: hits(r"-> \(Result<|fn \w+[^;{]*&mut [^;{]*-> bool|-> Result<Result<", SOURCES)),
    ("1 an error handed on by hand, where ? would do", lambda: hits(r"Err\(\w+\) => return Err\(|let (?:Some|Ok)\([^=]*= [^;]*? else \{\s*return (?:None|Err\()|if let Err\(\w+\) = [^{]*\{\s*return Err", SOURCES)),
    ("1 numbers for kinds or refusals", lambda: hits(r"\b(?:code|number|axis|part|place): u(?:8|32)\b|fn number\(self\) -> u8|Err\(\w+\) => REFUSED", SOURCES)),
    ("2 functions of one name in several files", lambda: twins()),
    ("2 functions of one name but for a type or a size", lambda: hits(r"\bfn \w+_(?:u8|u16|u32|end)\b|fn shifted_\w+|const (?:NO_)?ROW: Row", SOURCES)),
    ("3 loops that count by hand", lambda: hits(r"^\s*while .*|for \w+ in 0\.\..*|\bcount \+= 1", SOURCES)),
    ("3 loops that search", lambda: hits(r"for [^{]*\{\s*if [^{]*\{\s*return ", SOURCES)),
    ("4 conversions, comparisons and copies by hand", lambda: hits(r"match \((?:self|a), (?:other|b)\)|match self(?:\.kind)? \{\s*\w+::\w+(?:\([^)]*\))? => \d+|if [\w ]+ == \w+ \{ 0 \} else \{ 1 \}|=> 1,\s*None => 0|a\.left < b\.left|(?:left|preference): (?:row|self)\.\w+,", SOURCES)),
    ("5 facts that three contracts or more ask for", facts),
    ("5 parameters that five functions or more take together", together),
    ("6 a buffer with a length or a place beside it", lambda: hits(r"&mut \[[^\]]*\],\s*(?:count|at|start): usize", SOURCES)),
    ("6 an ordered list that is searched by hand", lambda: hits(r"fn rank\b", SOURCES)),
    ("7 a number that says which step to run", lambda: hits(r"match (?:place|axis|code|map) \{|\bfn\(", SOURCES)),
    ("8 answers", lambda: hits(r"^pub [\w'-]+ : goal\.", {n: t for n, t in PROOFS.items() if n.endswith("/Answers.antt")})),
]


def twins():
    where = collections.defaultdict(list)
    for place, name, _, _ in functions():
        if "/tests.rt" not in place:
            where[name].append((place, name))
    skip = {"new", "number", "read", "write", "address", "length", "low", "high", "len", "main"}
    trait = {m for _, t in hits(r"^    fn \w+", SOURCES) for m in re.findall(r"fn (\w+)", t)}
    return [hit for name, found in where.items() if len({p.split(":")[0] for p, _ in found}) > 1 and name not in skip | trait for hit in found]


for title, find in POINTS:
    found = find()
    print(f"{len(found):4}  {title}")
    if LISTING:
        for place, what in found:
            print(f"        {place}  {what}")
