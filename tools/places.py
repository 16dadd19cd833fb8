#!/usr/bin/env python3
"""Places in crates/*/src where an older form may stand in for one of today's, by kind.

    python3 tools/places.py            the number of places of each kind
    python3 tools/places.py KIND       the places of one kind, a line each

A place is a spot to look at and no fault by itself.
"""
import collections
import glob
import itertools
import os
import re
import sys

TOP = os.path.dirname(os.path.dirname(os.path.abspath(__file__)))
WORDS = set("fn let mut if else match for in while return pub impl struct enum self Self true false "
            "None Some Ok Err const use requires ensures as ref where move".split())


def sources():
    for path in sorted(glob.glob(os.path.join(TOP, "crates/*/src/**/*.rt"), recursive=True)):
        if not path.endswith("tests.rt"):
            yield os.path.relpath(path, TOP), open(path, encoding="utf-8").read()


def lines(pattern):
    found = re.compile(pattern)
    for path, text in sources():
        for number, line in enumerate(text.split("\n"), 1):
            if found.search(line) and not line.lstrip().startswith("//"):
                yield f"{path}:{number}: {line.strip()}"


def functions():
    """Each function as path, line, name, parameters and body."""
    head = re.compile(r"^( *)(?:pub )?fn (\w+)[^(]*\(((?:[^()]|\([^()]*\))*)\)", re.M)
    for path, text in sources():
        for m in head.finditer(text):
            end = text.find("\n" + m.group(1) + "}\n", m.end())
            start = text.find("\n" + m.group(1) + "{\n", m.end())
            one = re.match(r"[^\n;]*\{\n", text[m.end():])
            if one and "ensures" not in one.group(0) and "requires" not in one.group(0):
                start = m.end() + one.end() - 2
            if end < 0 or start < 0 or start > end or ";" in text[m.end():start].split("\n")[0]:
                continue
            yield path, text[:m.start()].count("\n") + 1, m.group(2), m.group(3), text[start:end]


def twins():
    """Functions whose bodies are alike but for names and numbers, twelve words or more."""
    shapes = collections.defaultdict(list)
    for path, line, name, _, body in functions():
        body = re.sub(r"//[^\n]*", "", body)
        tokens = re.findall(r"\w+|[^\s\w]", body)
        shape = tuple(t if t in WORDS or not t[0].isalnum() else "x" for t in tokens)
        if sum(t.isalnum() for t in shape) >= 12:
            shapes[shape].append(f"{path}:{line}: {name}")
    for group in shapes.values():
        if len(group) > 1:
            yield " ~ ".join(group)


def travellers():
    """Three parameters that three functions or more take together."""
    where = collections.defaultdict(set)
    for path, line, name, params, _ in functions():
        names = [p.split(":")[0].replace("mut ", "").strip() for p in re.split(r",\s*(?![^<]*>)", params) if ":" in p]
        for three in itertools.combinations(sorted(names), 3):
            where[three].add(f"{path}:{name}")
    for three, at in sorted(where.items()):
        if len(at) >= 3:
            yield f"{', '.join(three)}: {len(at)} functions, " + ", ".join(sorted({a.split('/')[1] for a in at}))


def facts():
    """Parts of clauses that three functions or more of one crate state alike."""
    where = collections.defaultdict(list)
    clause = re.compile(r"^ *(?:requires|ensures)(?: \w+)? \{(.*)\}\s*$", re.M)
    for path, text in sources():
        for m in clause.finditer(text):
            for part in re.split(r" × ", m.group(1).strip()):
                where[path.split("/")[1], part.strip("() ")].append(path)
    for (crate, part), at in sorted(where.items()):
        if len(at) >= 3:
            yield f"{crate}: {part}: {len(at)} clauses"


def answers():
    for path in sorted(glob.glob(os.path.join(TOP, "crates/*/proofs/**/Answers.antt"), recursive=True)):
        for line in open(path, encoding="utf-8"):
            if re.match(r"(pub )?[a-z]\S* : goal\.", line) or re.match(r"(pub )?[a-z]\S* : ", line):
                yield os.path.relpath(path, TOP) + ": " + line.strip()


KINDS = {
    "enums": ("1: enums, to be read for the shape of Option or Result", lambda: lines(r"^(pub )?enum ")),
    "flags": ("1: flags in structs", lambda: lines(r"^    (pub )?\w+: bool,$")),
    "codes": ("1: numbers for kinds or refusals, and 0 or false for none",
              lambda: lines(r"-> u8$|=> \d+,$|^\s+\d+ => \w+::\w|, or 0 |0 for none|0 if ")),
    "refusals": ("1: early returns of an error where `?` could stand", lambda: lines(r"return Err\(")),
    "twins": ("2: bodies that are alike but for names", twins),
    "indices": ("3: loops over a range", lambda: lines(r"\bfor \w+ in [^{]*\.\.")),
    "searches": ("3: loops that look for something, or add up",
                 lambda: (f"{p}:{n}: {f}" for p, n, f, _, b in functions()
                          if re.search(r"\n\s+for \w+ in (?!\w+\.\.|\(?\d|0\.\.)[^{]*\{", b) and not re.search(r"for \w+ in [^{]*\.\.", b))),
    "casts": ("4: conversions by `as`", lambda: lines(r" as (u8|u16|u32|u64|usize|i16)\b")),
    "impls": ("4: equality, order, copying, conversion, printing by hand",
              lambda: lines(r"^impl\b.*\b(PartialEq|Eq|PartialOrd|Ord|Clone|Copy|From|TryFrom|Display|Debug)(<[^>]*>)? for ")),
    "matches": ("4: matches whose arms are true or false, or none for none", lambda: lines(r"=> (true|false),$|None => None")),
    "facts": ("5: facts stated in three clauses or more of a crate", facts),
    "travellers": ("5: parameters that travel together", travellers),
    "buffers": ("6: arrays of a fixed length", lambda: lines(r"\[[A-Za-z<>:]+; ?[0-9A-Z_]+\]")),
    "bytes": ("6: bytes where text could stand", lambda: lines(r"\[u8\]")),
    "switches": ("7: matches on which step or call to run, tables of functions",
                 lambda: lines(r"match \(?(task\.phase|command|guide|dice|self\.work|work)\b|: \[?fn\(")),
    "answers": ("8: answers in proofs", answers),
}


def main():
    if len(sys.argv) > 1:
        for place in KINDS[sys.argv[1]][1]():
            print(place)
        return
    for kind, (what, find) in KINDS.items():
        print(f"{kind:12}{len(list(find())):5}  {what}")


main()
