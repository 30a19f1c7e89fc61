#!/usr/bin/env python3
"""Writes large plain pairs for timing, each with the answer that it must get.

usage: make_plain.py FOLDER [QUBITS LINES]      60 qubits and 60000 lines where not said

For each pair there are FOLDER/NAME.pair, the input of `pathsum same`, and FOLDER/NAME.answer, the line that it must
print. Answers are found by the simulation in `Circuit` below, which knows nothing of the program.
"""
import random
import sys
from itertools import combinations
from math import comb
from pathlib import Path

TURN = 1 << 32
LIMIT = 65536


def angle(units):
    """An angle as text, from its whole number of pi/2^30."""
    if units == 0:
        return "0"
    sign, units, divisor = "-" if units < 0 else "", abs(units), 1 << 30
    while units % 2 == 0 and divisor > 1:
        units //= 2
        divisor //= 2
    return sign + ("" if units == 1 else f"{units}*") + "pi" + ("" if divisor == 1 else f"/{divisor}")


def units_of(text):
    """The units of an angle as `angle` writes it."""
    if text == "0":
        return 0
    times, _, divisor = text.lstrip("-").partition("pi")
    units = int(times[:-1] or 1) * (1 << 30) // int(divisor[1:] or 1)
    return -units if text.startswith("-") else units


class Circuit:
    """Lines of a plain text, and what they do to a basis input.

    Each qubit holds the sum modulo 2 of the inputs in a mask. Phases are kept by masks, in 2^-32 of a turn, each for
    the inputs where its sum is 1."""

    def __init__(self, qubits):
        self.qubits = qubits
        self.lines = []
        self.masks = [1 << i for i in range(qubits)]
        self.phases = {}
        self.passed = None

    def cx(self, control, target):
        self.lines.append(f"CX q[{control}],q[{target}];")
        self.masks[target] ^= self.masks[control]

    def u(self, units, qubit, apart=False):
        """A phase of `units` times pi/2^30, in the last place of `U` or apart in two. A number in an angle has at
        most nine digits."""
        units = (units + (1 << 30)) % (1 << 31) - (1 << 30)
        first = units // 3 if apart or abs(units) > 999_999_999 else 0
        self.lines.append(f"U(0,{angle(first)},{angle(units - first)}) q[{qubit}];")
        phase = 2 * units % TURN
        mask = self.masks[qubit]
        self.phases[mask] = (self.phases.get(mask, 0) + phase) % TURN
        width = mask.bit_count()
        if phase:
            most = min(32 - ((phase & -phase).bit_length() - 1), width)
            raw = sum(comb(width, size) for size in range(1, most + 1))
            if raw > LIMIT and self.passed is None:
                self.passed = raw

    def text(self):
        return "".join(line + "\n" for line in ["OPENQASM 2.0;", f"qreg q[{self.qubits}];"] + self.lines)


def lifted(mask, phase):
    """The terms of a phase that is given where the sum modulo 2 of a mask is 1: (-2)^(s-1) for each s of it."""
    places = [i for i in range(mask.bit_length()) if mask >> i & 1]
    terms = {}
    for size in range(1, len(places) + 1):
        units = phase * (-2) ** (size - 1) % TURN
        if units == 0:
            break
        for chosen in combinations(places, size):
            terms[chosen] = units
    return terms


def answer(first, second):
    for circuit in (first, second):
        if circuit.passed is not None:
            return f"unknown passed terms {circuit.passed}"
    for one, other in zip(first.masks, second.masks):
        if one != other:
            least = one ^ other
            return bits(first.qubits, [(least & -least).bit_length() - 1])
    terms = {}
    for mask in first.phases.keys() | second.phases.keys():
        phase = (second.phases.get(mask, 0) - first.phases.get(mask, 0)) % TURN
        for term, units in lifted(mask, phase).items():
            terms[term] = (terms.get(term, 0) + units) % TURN
    left = [term for term, units in terms.items() if units]
    if not left:
        return "yes"
    return bits(first.qubits, min(left, key=lambda term: (len(term), term)))


def bits(qubits, ones):
    return "no " + "".join("1" if i in ones else "0" for i in range(qubits))


def triples(pick, qubits, lines, swapped):
    """Phases on sums of three qubits, each put together and taken apart again: thousands of terms of degree 3.
    The second text has them in another order, each on another of its three qubits."""
    blocks = []
    for _ in range(lines // 5):
        blocks.append((pick.sample(range(qubits), 3), pick.randrange(1, 1 << 30)))
    circuit = Circuit(qubits)
    if swapped:
        pick.shuffle(blocks)
    for (a, b, c), units in blocks:
        a, b, c = (b, c, a) if swapped else (a, b, c)
        circuit.cx(a, c)
        circuit.cx(b, c)
        circuit.u(units, c, apart=swapped)
        circuit.cx(b, c)
        circuit.cx(a, c)
    return circuit


def wide(pick, qubits, lines, swapped):
    """Lines of CX that spread each input over half of the qubits, with half turns and quarter turns between. The
    second text has a pair of CX that undo each other in place of nothing, here and there."""
    circuit = Circuit(qubits)
    extra = random.Random(7)
    for i in range(lines * 4 // 5):
        if swapped and i % 8 == 0:
            control, target = extra.sample(range(qubits), 2)
            circuit.cx(control, target)
            circuit.cx(control, target)
        if i % 64 == 0:
            circuit.u(pick.choice([1 << 30, 1 << 29, 3 << 29]), pick.randrange(qubits))
        else:
            control, target = pick.sample(range(qubits), 2)
            circuit.cx(control, target)
    return circuit


def single(pick, qubits, lines, swapped):
    """Phases on the inputs alone, so that one term is changed over and over. The second text has their sums."""
    sums = [0] * qubits
    circuit = Circuit(qubits)
    for i in range(lines):
        units = pick.randrange(1 << 31)
        sums[i % qubits] += units
        if not swapped:
            circuit.u(units, i % qubits)
    if swapped:
        for qubit, units in enumerate(sums):
            circuit.u(units, qubit)
    return circuit


def undone(pick, qubits, lines, swapped):
    """A circuit of CX and phases of an eighth of a turn on sums of up to four, and then its inverse; against nothing."""
    circuit = Circuit(qubits)
    if swapped:
        return circuit
    steps = []
    for i in range(lines // 2):
        narrow = [q for q in range(qubits) if circuit.masks[q].bit_count() < 4]
        if i % 3 == 0 or len(narrow) < 2:
            steps.append(("u", pick.choice([1 << 28, 3 << 28]), pick.choice(narrow)))
            circuit.u(*steps[-1][1:])
            continue
        control, target = pick.sample(narrow, 2)
        if (circuit.masks[control] ^ circuit.masks[target]).bit_count() <= 4:
            steps.append(("cx", control, target))
            circuit.cx(control, target)
        else:
            steps.append(("u", 1 << 28, target))
            circuit.u(1 << 28, target)
    for kind, first, second in reversed(steps):
        circuit.cx(first, second) if kind == "cx" else circuit.u(-first, second)
    return circuit


def passing(pick, qubits, lines, swapped):
    """As `triples`, with one phase at the end whose raw count is above the limit."""
    circuit = triples(pick, qubits, lines - 2 * qubits, swapped)
    if not swapped:
        for qubit in range(qubits - 1):
            circuit.cx(qubit, qubits - 1)
        circuit.u(1 << 26, qubits - 1)
    return circuit


def moved(circuit, by):
    """The same lines, with the last phase greater by so many pi/2^30."""
    at = max(i for i, line in enumerate(circuit.lines) if line.startswith("U"))
    copy = Circuit(circuit.qubits)
    for i, line in enumerate(circuit.lines):
        numbers = [int(part.split("]")[0]) for part in line.split("q[")[1:]]
        if line.startswith("CX"):
            copy.cx(*numbers)
        else:
            first, second = (units_of(text) for text in line[4:].split(")")[0].split(","))
            copy.u(first + second + (by if i == at else 0), numbers[0], first != 0)
    return copy


def pairs(qubits, lines):
    """Each pair under its name."""
    for family in (triples, wide, single, undone, passing):
        first, second = (family(random.Random(family.__name__), qubits, lines, swapped) for swapped in (False, True))
        yield family.__name__, first, second
        if family in (triples, single):
            yield family.__name__ + "_moved", first, moved(second, 1)
        if family is wide:
            yield "wide_moved", first, moved(second, 1 << 30)
            second.cx(0, 1)
            yield "wide_turned", first, second


def main():
    if len(sys.argv) not in (2, 4):
        sys.exit(__doc__)
    folder = Path(sys.argv[1])
    qubits, lines = (int(word) for word in sys.argv[2:] or ("60", "60000"))
    folder.mkdir(parents=True, exist_ok=True)
    for name, first, second in pairs(qubits, lines):
        verdict = answer(first, second)
        (folder / f"{name}.pair").write_text(first.text() + "====\n" + second.text())
        (folder / f"{name}.answer").write_text(verdict + "\n")
        print(f"{name}: {len(first.lines)} and {len(second.lines)} lines, {verdict}")


if __name__ == "__main__":
    main()
