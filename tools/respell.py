#!/usr/bin/env python3
"""Brings the names that this repository defines in antt to one spelling: words in snake case, types in camel case.

usage: python3 tools/respell.py [ROOT]     rewrites crates/*/{src,specs,proofs}; run once, on files of the older spelling

Names that the check makes (goals, steps of a proof, cases) keep their dashes: only a name that some file of the
repository defines is respelled. Functions of src/, strings and comments keep their words. Where a respelled word would
fall together with a function of the same Rust file, the file imports it as NAME_rule.
"""
import os
import re
import sys

NAME = re.compile(r"[A-Za-z_][A-Za-z0-9_']*(?:-[A-Za-z0-9_']+)*")
DEFINES = re.compile(r"^\s*(?:abbrev |pub |unfoldable |record |data |ruleset )*([A-Za-z_][A-Za-z0-9_']*(?:-[A-Za-z0-9_']+)*)\s*(?:[({:=]|$)(.*)$")
# A definition whose value is a type is spelled as one.
TYPE = re.compile(r"^\s*(?:abbrev |pub |unfoldable )*([a-z][A-Za-z0-9_']*(?:-[A-Za-z0-9_']+)*)\s*:\s*(?:.*→ )?Type [01]\s*$")
MADE = ("Answers.antt", "Invariants.antt", "Choices.antt", "Proof.antt")


def files(root):
    for folder, dirs, names in os.walk(os.path.join(root, "crates")):
        dirs[:] = sorted(d for d in dirs if d != "out")
        for f in sorted(names):
            if f.endswith((".antt", ".rt")):
                yield os.path.join(folder, f)


def parts(line, path):
    """A line as pieces: what is code, and what is a comment or a string."""
    mark = "--" if path.endswith(".antt") else "//"
    held = re.compile(r'("(?:[^"\\]|\\.)*")' if path.endswith(".rt") else r"(\0)")
    at = re.search(r"(?:^|\s)" + mark, line)
    code, rest = (line[: at.start()], line[at.start() :]) if at else (line, "")
    return held.split(code), rest


def defined(root):
    names, types = set(), set()
    for path in files(root):
        text = open(path, encoding="utf-8").read()
        if path.endswith(".rt"):
            names |= {a for line in re.findall(r"^ghost use [^;]*;", text, re.M) for a in re.findall(r" as ([A-Za-z_][A-Za-z0-9_'-]*)", line) if "-" in a}
            continue
        made = os.path.basename(path) in MADE
        for line in text.split("\n"):
            code = re.split(r"(?:^|\s)--", line)[0]
            m = DEFINES.match(code)
            if m and "-" in m.group(1) and not (made and re.search(r"goal\." + re.escape(m.group(1)) + r"(?![\w'-])", text)):
                names.add(m.group(1))
            names |= {a for a in re.findall(r" as ([A-Za-z_][A-Za-z0-9_'-]*)", code) if "-" in a}
            m = TYPE.match(code)
            if m and "/specs/" in path:
                types.add(m.group(1))
    return names, types


def spelled(name, types):
    if name in types or name[0].isupper():
        return "".join(w[:1].upper() + w[1:] for w in name.split("-"))
    return name.replace("-", "_")


def rust_names(text):
    found = set(re.findall(r"^(?:pub )?(?:const )?fn (\w+)", text, re.M))
    for line in re.findall(r"^use [^;]*;", text, re.M | re.S):
        found |= set(re.findall(r"\b([a-z_]\w*)\b(?!::)", line))
    return found


def respell(path, new):
    text = open(path, encoding="utf-8").read()
    own = dict(new)
    if path.endswith(".rt"):
        rust = rust_names(text)
        for line in re.findall(r"^ghost use [^;]*;", text, re.M | re.S):
            for item in re.findall(r"[{,]\s*([^,{}]+?)\s*(?=[,}])", line):
                if item in new and new[item] in rust:
                    own[item] = new[item] + "_rule"
    out = []
    for line in text.split("\n"):
        code, rest = parts(line, path)
        ghost_use = line.startswith("ghost use ")
        for i in range(0, len(code), 2):
            if ghost_use:
                code[i] = NAME.sub(lambda m: new.get(m.group(), m.group()) + (f" as {own[m.group()]}" if own.get(m.group()) != new.get(m.group()) else ""), code[i])
            else:
                code[i] = NAME.sub(lambda m: own.get(m.group(), m.group()), code[i])
        out.append("".join(code) + rest)
    if "\n".join(out) != text:
        open(path, "w", encoding="utf-8").write("\n".join(out))
        return True
    return False


def main():
    root = sys.argv[1] if len(sys.argv) > 1 else "."
    names, types = defined(root)
    new = {n: spelled(n, types) for n in names | types}
    new = {a: b for a, b in new.items() if a != b}
    together = {}
    for a, b in new.items():
        together.setdefault(b, []).append(a)
    for b, a in sorted(together.items()):
        if len(a) > 1:
            print("fall together:", b, a)
    changed = sum(respell(p, new) for p in files(root))
    print(f"{len(new)} names respelled in {changed} files; types: {sorted(types)}")


main()
