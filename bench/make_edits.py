#!/usr/bin/env python3
"""Writes pairs of large circuits of which the second is an edit of the first, for time_edits.py.

usage: make_edits.py FOLDER [GATES]      GATES is about how many gates a text has, 60,000 where it is left out

The circuits: `clifford_t`, random gates of Clifford and T on 32 qubits; `adders`, ripple-carry adders of 31 bits one after
the other; `fourier`, Fourier transforms of 24 qubits and their inverses; `ladders`, ladders of Toffoli gates on 63
qubits. Each has a Toffoli gate in its middle. Its edits, and the answer to each:

  one        that Toffoli is the text-book one from Clifford and T gates: yes
  changed    so it is, and one tdg of it is a t: no
  hundred    a hundred Toffoli gates, spread over the text, are so rewritten: yes, or unknown
  shuffled   the gates stand in another order, which keeps that of any two with a common qubit: yes
  both       one, shuffled: yes
"""
import heapq
import random
import sys
from pathlib import Path


def toffoli(a, b, c):
    return [("ccx", a, b, c)]


def by_hand(a, b, c):
    """The Toffoli gate of Nielsen and Chuang."""
    gates = [("h", c), ("cx", b, c), ("tdg", c), ("cx", a, c), ("t", c), ("cx", b, c), ("tdg", c), ("cx", a, c)]
    return gates + [("t", b), ("t", c), ("h", c), ("cx", a, b), ("t", a), ("tdg", b), ("cx", a, b)]


def clifford_t(count, chance):
    gates = []
    for _ in range(count):
        name = chance.choice(["h", "s", "t", "x", "cx", "cx"])
        gates.append((name, *chance.sample(range(32), 2 if name == "cx" else 1)))
    return 32, gates


def adder(n):
    b, a = [1 + 2 * i for i in range(n)], [2 + 2 * i for i in range(n)]
    before = [0] + a[:-1]
    gates = []
    for i in range(n):
        gates += [("cx", a[i], b[i]), ("cx", a[i], before[i])] + toffoli(before[i], b[i], a[i])
    gates += [("cx", a[-1], 2 * n + 1)]
    for i in reversed(range(n)):
        gates += toffoli(before[i], b[i], a[i]) + [("cx", a[i], before[i]), ("cx", before[i], b[i])]
    return gates


def adders(count, chance):
    one = adder(31)
    return 64, one * (count // len(one) + 1)


def fourier(count, chance):
    forth, back = [], []
    for i in reversed(range(24)):
        forth.append(("h", i))
        forth += [(f"cu1(pi/{2 ** (i - j)})", j, i) for j in reversed(range(i))]
    for gate in reversed(forth):
        back.append((gate[0].replace("(pi", "(-pi"), *gate[1:]))
    return 25, (forth + back) * (count // (2 * len(forth)) + 1)


def ladders(count, chance):
    k = 32
    half = toffoli(0, 1, k)
    for i in range(2, k - 1):
        half += toffoli(i, k + i - 2, k + i - 1)
    half += toffoli(k - 1, 2 * k - 3, 2 * k - 2)
    one = half + half[-2::-1]
    return 63, one * (count // len(one) + 1)


def shuffled(gates, chance):
    """Another order in which gates with a common qubit stand as they did."""
    last, waits, behind = {}, [0] * len(gates), [[] for _ in gates]
    for place, gate in enumerate(gates):
        for qubit in gate[1:]:
            if qubit in last:
                behind[last[qubit]].append(place)
                waits[place] += 1
            last[qubit] = place
    # (a gate is moved by some hundred places at most)
    ready = [(place + chance.random() * 200, place) for place, wait in enumerate(waits) if wait == 0]
    heapq.heapify(ready)
    order = []
    while ready:
        _, place = heapq.heappop(ready)
        order.append(gates[place])
        for other in behind[place]:
            waits[other] -= 1
            if waits[other] == 0:
                heapq.heappush(ready, (other + chance.random() * 200, other))
    return order


def replaced(gates, places, new):
    """The gates with the Toffoli at each of the places made by `new`."""
    places, out = set(places), []
    for place, gate in enumerate(gates):
        out += new(*gate[1:]) if place in places else [gate]
    return out


def changed(a, b, c):
    gates = by_hand(a, b, c)
    gates[2] = ("t", c)
    return gates


def text(qubits, gates):
    head = ["OPENQASM 2.0;", 'include "qelib1.inc";', f"qreg q[{qubits}];"]
    return "".join(f"{line}\n" for line in head + [f"{g[0]} {','.join(f'q[{q}]' for q in g[1:])};" for g in gates])


def main():
    folder = Path(sys.argv[1])
    count = int(sys.argv[2]) if len(sys.argv) > 2 else 60_000
    folder.mkdir(parents=True, exist_ok=True)
    for make in (clifford_t, adders, fourier, ladders):
        chance = random.Random(1)
        qubits, gates = make(count, chance)
        spots = [(i + 1) * len(gates) // 101 for i in range(100)]
        for i, spot in enumerate(spots):
            gates[spot + i : spot + i] = toffoli(0, 1, 2)
        spots = [spot + i for i, spot in enumerate(spots)]
        edits = {
            "one": (replaced(gates, spots[50:51], by_hand), "yes"),
            "changed": (replaced(gates, spots[50:51], changed), "no *"),
            "hundred": (replaced(gates, spots, by_hand), "yes|unknown *"),
            "shuffled": (shuffled(gates, chance), "yes"),
        }
        edits["both"] = (shuffled(edits["one"][0], chance), "yes")
        for name, (edit, answer) in edits.items():
            (folder / f"{make.__name__}_{name}.pair").write_text(text(qubits, gates) + "====\n" + text(qubits, edit))
            (folder / f"{make.__name__}_{name}.answer").write_text(answer + "\n")
        (folder / f"{make.__name__}_itself.pair").write_text(text(qubits, gates) + "====\n" + text(qubits, gates))
        (folder / f"{make.__name__}_itself.answer").write_text("yes\n")
        print(f"{make.__name__}: {len(gates)} gates on {qubits} qubits")


if __name__ == "__main__":
    main()
