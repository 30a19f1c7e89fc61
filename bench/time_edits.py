#!/usr/bin/env python3
"""Asks a built `pathsum` for the pairs that make_edits.py wrote, by `same local` and by `same`, and prints a table.

usage: time_edits.py FOLDER PROGRAM

The seconds are those of the clock. The status is 1 where an answer of `same local` isn't the one wanted, or where the two
contradict each other.
"""
import subprocess
import sys
import time
from pathlib import Path

SECONDS = 120


def run(program, words, given):
    start = time.perf_counter()
    try:
        with open(given, "rb") as pair:
            done = subprocess.run([program, *words], stdin=pair, stdout=subprocess.PIPE, timeout=SECONDS)
        answer = done.stdout.decode(errors="replace").strip()
    except subprocess.TimeoutExpired:
        answer = "(none)"
    return time.perf_counter() - start, answer


def main():
    folder, program = Path(sys.argv[1]), sys.argv[2]
    wrong = 0
    print("| Pair | `same local` | Seconds | `same` | Seconds |")
    print("|---|---|---|---|---|")
    for given in sorted(folder.glob("*.pair")):
        wanted = given.with_suffix(".answer").read_text().strip().split("|")
        here, local = run(program, ["same", "local"], given)
        there, whole = run(program, ["same"], given)
        fits = any(local == w or (w.endswith(" *") and local.startswith(w[:-1])) for w in wanted)
        kinds = {answer.split()[0] for answer in (local, whole) if answer}
        if not fits or {"yes", "no"} <= kinds:
            wrong += 1
            local += " (!)"
        short = [answer if len(answer) < 60 else answer[:57] + "..." for answer in (local, whole)]
        print(f"| {given.stem} | {short[0]} | {here:.3f} | {short[1]} | {there:.3f} |", flush=True)
    sys.exit(1 if wrong else 0)


if __name__ == "__main__":
    main()
