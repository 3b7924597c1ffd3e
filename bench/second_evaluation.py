#!/usr/bin/env python3
"""Runs the program and the second evaluation over made scripts, and tells where their answers differ.

    bench/second_evaluation.py PROGRAM [--scripts 1000] [--seed 1] [--first 1] [--keep target/second]

Each script is made from the seed and its number, with its files (bench/second/making.py), and is evaluated apart from the
program (bench/evaluate). Compared are the line, the status, and the names and bytes of all files that are put. Where they
differ the script is told by its number, and its files are kept in a folder of that number. At the end it is told how often
each end came; the status is 1 where any script differs.
"""

import argparse
import random
import subprocess
import sys
import tempfile
from collections import Counter
from pathlib import Path

sys.dont_write_bytecode = True
sys.path.insert(0, str(Path(__file__).resolve().parent))
from second.making import make
from second.run import evaluate

ROOT = Path(__file__).resolve().parent.parent
WORDS = ["plain", "m.mod"]


def write(folder, files):
    folder.mkdir(parents=True, exist_ok=True)
    for name, text in files.items():
        (folder / name).write_text(text, encoding="ascii")


def held(folder):
    return {one.name: one.read_bytes() for one in folder.iterdir()}


def wanted(folder):
    """What the folder has to hold, and what a run has to print and to end with, by the second evaluation."""
    puts, line, status = evaluate(folder, WORDS)
    return {**held(folder), **dict(puts)}, line, status


def answered(program, folder):
    """What the folder holds after a run of the program, what that printed and how it ended."""
    run = subprocess.run([program, *WORDS], cwd=folder, stdin=subprocess.DEVNULL, capture_output=True, timeout=120)
    return held(folder), (run.stdout + run.stderr).decode("latin-1"), run.returncode


def difference(want, got):
    """What the two answers differ in, or None."""
    files, line, status = want
    if got[1] != line + "\n":
        return f"printed {got[1].strip()!r}, not {line!r}"
    if got[2] != status:
        return f"status {got[2]}, not {status}"
    for name in sorted(set(files) | set(got[0])):
        if files.get(name) != got[0].get(name):
            return f"another {name}" if name in files and name in got[0] else f"{name} is {'not ' if name in files else ''}put"
    return None


def compare(program, files, keep):
    """The line that is wanted, and the difference."""
    with tempfile.TemporaryDirectory() as place:
        folder = Path(place)
        write(folder, files)
        want = wanted(folder)
        wrong = difference(want, answered(program, folder))
    if wrong:
        write(keep, files)
    return want[1], wrong


def sort_of(line):
    """The sort of an end: its words without names and numbers."""
    words = line.split()
    kept = {"script": [words[0], words[-1]], "input": [words[0], *words[2:4]], "missing": words[:1]}
    return " ".join(kept.get(words[0], [word for word in words if word.isalpha()][:1]))


def main():
    parser = argparse.ArgumentParser(description=__doc__, formatter_class=argparse.RawDescriptionHelpFormatter)
    parser.add_argument("program", type=lambda path: Path(path).resolve())
    parser.add_argument("--scripts", type=int, default=1000)
    parser.add_argument("--seed", type=int, default=1)
    parser.add_argument("--first", type=int, default=1, help="the number of the first script")
    parser.add_argument("--keep", type=Path, default=ROOT / "target" / "second")
    asked = parser.parse_args()
    ends, differ = Counter(), 0
    for number in range(asked.first, asked.first + asked.scripts):
        files = make(random.Random(f"{asked.seed} {number}"))
        line, wrong = compare(asked.program, files, asked.keep / f"{asked.seed}-{number}")
        ends[sort_of(line)] += 1
        if wrong:
            differ += 1
            print(f"script {number}: {wrong}", flush=True)
    for end, count in ends.most_common():
        print(f"{count:7} {end}")
    print(f"{asked.scripts} scripts, {differ} differ")
    return 1 if differ else 0


if __name__ == "__main__":
    sys.exit(main())
