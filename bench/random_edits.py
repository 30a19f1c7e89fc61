#!/usr/bin/env python3
"""Asks a built `pathsum` for random small circuits and edits of them, by `same local` and by `same`.

usage: random_edits.py PROGRAM [COUNT] [SEED]      COUNT pairs, 1,000 where it is left out

The second text of a pair is the first one with some gates changed, dropped, put in, rewritten, or moved within their
qubits' order. The status is 1 where one of the two answers is yes and the other no, or one a refusal and the other not.
"""
import random
import subprocess
import sys
from collections import Counter

from make_edits import by_hand, shuffled, text

NAMES = {"h": 1, "x": 1, "s": 1, "t": 1, "tdg": 1, "cx": 2, "cz": 2, "ccx": 3, "swap": 2}


def gate(chance, qubits):
    name = chance.choice([name for name, count in NAMES.items() if count <= qubits])
    return (name, *chance.sample(range(qubits), NAMES[name]))


def edited(gates, chance, qubits):
    gates = list(gates)
    for _ in range(chance.randrange(4)):
        place = chance.randrange(len(gates) + 1)
        kind = chance.randrange(4)
        if kind == 0:
            gates.insert(place, gate(chance, qubits))
        elif kind == 1:
            pair = gate(chance, qubits)
            if pair[0] in ("h", "x", "cx", "cz", "ccx", "swap"):
                gates[place:place] = [pair, pair]
        elif place < len(gates) and kind == 2:
            del gates[place]
        elif place < len(gates) and gates[place][0] == "ccx":
            gates[place : place + 1] = by_hand(*gates[place][1:])
    return shuffled(gates, chance) if chance.randrange(2) else gates


def ask(program, words, given):
    done = subprocess.run([program, *words], input=given.encode(), stdout=subprocess.PIPE, timeout=120)
    return done.stdout.decode().split()[0]


def main():
    program = sys.argv[1]
    count = int(sys.argv[2]) if len(sys.argv) > 2 else 1000
    chance = random.Random(int(sys.argv[3]) if len(sys.argv) > 3 else 1)
    kinds, wrong = Counter(), 0
    for _ in range(count):
        qubits = chance.randrange(1, 6)
        first = [gate(chance, qubits) for _ in range(chance.randrange(1, 40))]
        given = text(qubits, first) + "====\n" + text(qubits, edited(first, chance, qubits))
        local, whole = ask(program, ["same", "local"], given), ask(program, ["same"], given)
        kinds[f"same local {local}, same {whole}"] += 1
        if {local, whole} in ({"yes", "no"}, {"input", "yes"}, {"input", "no"}):
            wrong += 1
            print(f"(!) same local {local}, same {whole}:\n{given}")
    for kind, number in sorted(kinds.items()):
        print(f"{number:6} {kind}")
    sys.exit(1 if wrong else 0)


if __name__ == "__main__":
    main()
