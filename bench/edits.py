#!/usr/bin/env python3
"""Asks a built `pathsum` about edits of this folder's known circuits, by `same local` and by `same`, and prints a table.

usage: edits.py PROGRAM [--times N] [--only FAMILY,..]

Of each family of make_circuits.py the first text of its largest size is taken. Its edits, and the answer to each:

  one       a controlled not near the middle is turned round between four Hadamard gates: yes
  changed   it stands the other way round, without those: no
  hundred   so many controlled nots, spread over the text, are turned round between Hadamard gates: yes
  shuffled  the gates stand in another order, which keeps that of any two with a common qubit: yes

Seconds are those of the processor, the least of N runs, 3 where it is left out. `reading` is what the text takes against
itself, which is to read both and to find that nothing is left. The status is 1 where an answer is neither the one above
nor unknown.
"""
import argparse
import random
import re
import resource
import subprocess
import sys
import tempfile
from pathlib import Path

import make_circuits as known
import make_edits


def turned_round(line):
    control, target = re.findall(r"\d+", line)
    around = known.h(control) + known.h(target)
    return around + known.cx(target, control) + around


def other_way(line):
    control, target = re.findall(r"\d+", line)
    return known.cx(target, control)


def replaced(lines, places, new):
    places = set(places)
    return [made for place, line in enumerate(lines) for made in (new(line) if place in places else [line])]


def shuffled(lines):
    """make_edits.py's order, over lines: each is a gate of that text on the qubits that it names."""
    gates = [(line, *re.findall(r"q\[(\d+)\]", line)) for line in lines]
    return [gate[0] for gate in make_edits.shuffled(gates, random.Random(1))]


def edits(lines):
    spots = [place for place, line in enumerate(lines) if line.startswith("CX")]
    middle = [spots[len(spots) // 2]]
    spread = [spots[i * len(spots) // 100] for i in range(100)] if len(spots) >= 100 else spots
    yield "one", "yes", replaced(lines, middle, turned_round)
    yield "changed", "no", replaced(lines, middle, other_way)
    yield "hundred", "yes", replaced(lines, spread, turned_round)
    yield "shuffled", "yes", shuffled(lines)


def families():
    """The largest size of each family: its name, its qubits, and the lines of its first text."""
    largest = {}
    for name, qubits, first, _ in known.pairs():
        family = name.split("_")[0]
        if family not in largest or len(first) > len(largest[family][1]):
            largest[family] = (qubits, first)
    return [(family, *circuit) for family, circuit in largest.items()]


def seconds(program, words, given, times):
    """The least time of the processor, and the answer."""
    least = answer = None
    for _ in range(times):
        given.seek(0)
        before = resource.getrusage(resource.RUSAGE_CHILDREN)
        done = subprocess.run([program, *words], stdin=given, stdout=subprocess.PIPE, check=False)
        after = resource.getrusage(resource.RUSAGE_CHILDREN)
        took = after.ru_utime + after.ru_stime - before.ru_utime - before.ru_stime
        least = took if least is None else min(least, took)
        answer = (done.stdout.decode(errors="replace").split() or ["(none)"])[0]
    return least, answer


def ask(program, words, qubits, first, second, times):
    with tempfile.TemporaryFile() as given:
        given.write((known.text(qubits, first) + "====\n" + known.text(qubits, second)).encode())
        return seconds(program, words, given, times)


def main():
    told = argparse.ArgumentParser()
    told.add_argument("program", type=Path)
    told.add_argument("--times", type=int, default=3)
    told.add_argument("--only", default="")
    told = told.parse_args()
    wrong = count = wholes = locals_ = 0
    print("| Family | Gates | Edit | `same` | Seconds | `same local` | Seconds | Reading |")
    print("|---|---|---|---|---|---|---|---|")
    for family, qubits, lines in families():
        if told.only and family not in told.only.split(","):
            continue
        reading, _ = ask(told.program, ["same", "local"], qubits, lines, lines, told.times)
        for edit, wanted, second in edits(lines):
            there, whole = ask(told.program, ["same"], qubits, lines, second, told.times)
            here, local = ask(told.program, ["same", "local"], qubits, lines, second, told.times)
            count += 1
            wholes += whole == wanted
            locals_ += local == wanted
            mark = ""
            if {whole, local} - {wanted, "unknown"}:
                wrong += 1
                mark = " (!)"
            print(f"| {family} | {len(lines)} | {edit} | {whole} | {there:.3f} | {local}{mark} | {here:.3f} | {reading:.3f} |", flush=True)
    print(f"\nOf {count} edits `same` decides {wholes}, and `same local` {locals_}.")
    sys.exit(1 if wrong else 0)


if __name__ == "__main__":
    main()
