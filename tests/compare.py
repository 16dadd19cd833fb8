#!/usr/bin/env python3
"""Plays random scripts with the program and with the reference, and compares what they print, line by line.

    tests/compare.py [COUNT [SEED]]           compares COUNT scripts (2,000), the first made from SEED (1)
    tests/compare.py --store COUNT FOLDER     writes COUNT scripts and the reference's output into a folder

The program does not read the lines list and mend and the guides tree and even yet, so that the comparison fails until it does.
"""
import pathlib
import random
import subprocess
import sys

from reference import GUIDES, output

HERE = pathlib.Path(__file__).resolve().parent
PROGRAM = HERE.parent / "crates" / "torglimuz" / "out" / "torglimuz"
NAMES = "call station work key\n"
WORKS = ("put", "strike", "look", "after")
BAD = (
    "", " ", "run", "run 0 -", "run 0 - - -", "run 0  - -", "run 0 - - ", " run 0 - -", "run\t0 - -", "run 0 - -\r", "Run 0 - -",
    "run - - -", "run 0 - 1", "run 0 1 -", "begin 0 put -", "begin 0 first 1", "begin 0 peek 1", "begin - look 1", "begin 0 look 4294967296",
    "begin 0 look -1", "begin 0 look 1x", "open 1 line -", "open 1 bush 8", "open - line 8", "open 1 8 8", "list 0 - -", "mend - - 0", "leave 0 - 0",
    "list - -", "close - - -", "begin 0 look --", "1 2 3 4", "- - - -",
)


def a_key(rng, few):
    return rng.choice((0, 4294967295)) if rng.random() < 0.02 else rng.randrange(few)


def an_open(rng, guides):
    guide = rng.choice(guides)
    places = rng.choice((2, 3, 4, 8, 16, 64)) if rng.random() < 0.9 else rng.choice((0, 1, 65, 200, 1024, 1025, 4294967295))
    stations = rng.randrange(1, 5) if rng.random() < 0.9 else rng.choice((0, 16, 17, 4294967295))
    return f"open {stations} {guide} {places}"


def a_line(rng, few, stations, guides):
    r, station = rng.random(), rng.randrange(stations)
    if r < 0.40:
        work = rng.choice(WORKS + ("put",) * 3 + ("first",))
        return f"begin {station} {work} {'-' if work == 'first' else a_key(rng, few)}"
    if r < 0.80:
        return f"run {station} - -"
    if r < 0.84:
        return f"leave {station} - -"
    if r < 0.90:
        return "list - - -"
    if r < 0.95:
        return "mend - - -"
    if r < 0.97:
        return an_open(rng, guides)
    return rng.choice(BAD)


def a_script(seed, guides):
    rng = random.Random(seed)
    if rng.random() < 0.02:
        return rng.choice((b"", b"call station work\n", NAMES.encode()[:-1], b"run 0 - -\n", NAMES.encode() + b"x" * 32768))
    few = rng.choice((3, 8, 30, 100))
    stations = rng.choice((1, 2, 3, 4))
    first = [f"open {stations} {rng.choice(guides)} {rng.choice((3, 8, 30, 64))}"] if rng.random() < 0.9 else []
    lines = first + [a_line(rng, few, stations + (rng.random() < 0.1), guides) for _ in range(rng.randrange(5, 200))]
    text = NAMES + "".join(line + "\n" for line in lines)
    return (text[:-1] if rng.random() < 0.05 else text).encode()


def compare(count, seed):
    guides, lines = tuple(GUIDES), 0
    for number in range(seed, seed + count):
        script = a_script(number, guides)
        got = subprocess.run([PROGRAM], input=script, capture_output=True, check=True).stdout.decode().split("\n")
        wanted = output(script) + [""]
        if got != wanted:
            at = next(i for i, pair in enumerate(zip(got + [None], wanted + [None])) if pair[0] != pair[1])
            sys.exit(f"script {number}: line {at} is {got[at:at + 1]}, wanted {wanted[at:at + 1]}")
        lines += len(wanted)
    print(f"{count} scripts, {lines} printed lines: all alike")


def store(count, folder):
    folder = pathlib.Path(folder)
    folder.mkdir(parents=True, exist_ok=True)
    for number in range(1, count + 1):
        script = a_script(number, tuple(GUIDES))
        (folder / f"{number:03}.txt").write_bytes(script)
        (folder / f"{number:03}.out").write_text("\n".join(output(script)) + "\n")
    print(f"{count} scripts in {folder}")


if __name__ == "__main__":
    if sys.argv[1:2] == ["--store"]:
        store(int(sys.argv[2]), sys.argv[3])
    else:
        numbers = [int(word) for word in sys.argv[1:]]
        compare(*(numbers + [2000, 1][len(numbers):]))
