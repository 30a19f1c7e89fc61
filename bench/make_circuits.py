#!/usr/bin/env python3
"""Writes pairs of plain texts of known circuits, for time.py.

usage: make_circuits.py FOLDER

Each pair is one linear map, since its second text is the first one rewritten by rules that keep the map, or is
empty where the first is a circuit and then its inverse.

  ladder_K      a ladder of Toffoli gates on 2K-1 qubits, computed and undone; each Toffoli with its controls exchanged
  adder_N       a ripple-carry adder of N bits on 2N+2 qubits (Cuccaro, Draper, Kutin, Moulton); with the longer last part
  draper_N      an adder of N bits by a Fourier transform (Draper); each controlled phase with its qubits exchanged
  fourier_N     the quantum Fourier transform; each controlled phase with its qubits exchanged
  multiplier_N  the product of two elements of the field with 2^N elements, added to a third, on 3N qubits; each Toffoli with its
                controls exchanged, in another order
  shift_N       the circuit that finds a hidden shift of a bent function on N qubits (Roetteler); the shift as phases
  grover_K      a step of Grover's search over K qubits with K-2 places for a ladder; each Toffoli with its controls exchanged
  clifford_N_G  G random gates of H, S and CX on N qubits; each CX turned round between Hadamards, each S as Z and its inverse
  mirror_N_G    G random gates of Clifford and T on N qubits and then their mirror; nothing
"""
import random
import sys
from pathlib import Path


def u(theta, phi, lam, q):
    return f"U({theta},{phi},{lam}) q[{q}];"


def h(q):
    return [u("pi/2", "0", "pi", q)]


def x(q):
    return [u("pi", "0", "pi", q)]


def phase(angle, q):
    return [u("0", "0", angle, q)]


def cx(c, t):
    return [f"CX q[{c}],q[{t}];"]


def over(divisor):
    """pi over a power of two, and its opposite."""
    return ("pi" if divisor == 1 else f"pi/{divisor}", "-pi" if divisor == 1 else f"-pi/{divisor}")


def ccx(a, b, c):
    """The Toffoli gate of Nielsen and Chuang."""
    t, back = over(4)
    lines = h(c) + cx(b, c) + phase(back, c) + cx(a, c) + phase(t, c) + cx(b, c) + phase(back, c) + cx(a, c)
    return lines + phase(t, b) + phase(t, c) + h(c) + cx(a, b) + phase(t, a) + phase(back, b) + cx(a, b)


def controlled_phase(divisor, a, b, undone=False):
    half, back = over(2 * divisor)[:: -1 if undone else 1]
    return phase(half, a) + cx(a, b) + phase(back, b) + cx(a, b) + phase(half, b)


def ladder(k, exchanged):
    """k controls 0..k-1, places k..2k-3, and the target 2k-2."""
    gates = [(0, 1, k)]
    gates += [(i, k + i - 2, k + i - 1) for i in range(2, k - 1)]
    gates += [(k - 1, 2 * k - 3, 2 * k - 2)]
    gates += gates[-2::-1]
    return [line for a, b, c in gates for line in (ccx(b, a, c) if exchanged else ccx(a, b, c))]


def adder(n, longer):
    """Adds a to b: carry 0, then b and a of each bit, and the high bit last."""
    b = [1 + 2 * i for i in range(n)]
    a = [2 + 2 * i for i in range(n)]
    before = [0] + a[:-1]
    lines = []
    for i in range(n):
        lines += cx(a[i], b[i]) + cx(a[i], before[i]) + ccx(before[i], b[i], a[i])
    lines += cx(a[-1], 2 * n + 1)
    for i in reversed(range(n)):
        if longer:
            lines += x(b[i]) + cx(before[i], b[i]) + ccx(before[i], b[i], a[i]) + x(b[i])
            lines += cx(a[i], before[i]) + cx(a[i], b[i])
        else:
            lines += ccx(before[i], b[i], a[i]) + cx(a[i], before[i]) + cx(before[i], b[i])
    return lines


def fourier(n, exchanged):
    lines = []
    for i in reversed(range(n)):
        lines += h(i)
        for j in reversed(range(i)):
            divisor = 2 ** (i - j)
            lines += controlled_phase(divisor, i, j) if exchanged else controlled_phase(divisor, j, i)
    return lines


def draper(n, exchanged):
    """Adds the first n qubits to the last n: these are transformed, turned and transformed back."""
    def turn(a, b, by, undone=False):
        return controlled_phase(by, b, a, undone) if exchanged else controlled_phase(by, a, b, undone)

    there, again = [], []
    for i in reversed(range(n)):
        there += h(n + i)
        layer = []
        for j in reversed(range(i)):
            there += turn(n + j, n + i, 2 ** (i - j))
            layer += turn(n + j, n + i, 2 ** (i - j), True)
        again = layer + h(n + i) + again
    add = [line for i in range(n) for j in range(i + 1) for line in turn(j, n + i, 2 ** (i - j))]
    return there + add + again


# which powers below the highest stand in a polynomial over the field of two elements, by its degree
REDUCTIONS = {2: (0, 1), 3: (0, 1), 4: (0, 1), 8: (0, 1, 3, 4), 16: (0, 1, 3, 5), 21: (0, 2)}


def powers(n):
    """For each k the powers below n that make x^k."""
    made = [{k} for k in range(n)]
    for k in range(n, 2 * n - 1):
        above = {power + 1 for power in made[-1]}
        made.append(above ^ {n} ^ set(REDUCTIONS[n]) if n in above else above)
    return made


def multiplier(n, exchanged):
    """Adds the product of a and b to c; a, b and c are n qubits each."""
    terms = [(i, j, k) for i in range(n) for j in range(n) for k in sorted(powers(n)[i + j])]
    if exchanged:
        random.Random(n).shuffle(terms)
    lines = []
    for i, j, k in terms:
        lines += ccx(n + j, i, 2 * n + k) if exchanged else ccx(i, n + j, 2 * n + k)
    return lines


def hidden_shift(n, as_phases):
    """The bent function is the inner product of both halves and a cubic function of the first."""
    chance = random.Random(n)
    half = n // 2
    cubic = [chance.sample(range(half), 3) for _ in range(half)] if half > 2 else []
    shift = [q for q in range(n) if chance.randrange(2)] or [0]

    def cz(a, b):
        return h(b) + cx(a, b) + h(b) if not as_phases else h(a) + cx(b, a) + h(a)

    def oracle(at):
        lines = [line for i in range(half) for line in cz(i, half + i)]
        for a, b, c in cubic:
            a, b = (b, a) if as_phases else (a, b)
            lines += h(at + c) + ccx(at + a, at + b, at + c) + h(at + c)
        return lines

    everywhere = [line for q in range(n) for line in h(q)]
    flips = [line for q in shift for line in x(q)]
    signs = [line for q in shift for line in phase("pi", q)]
    if as_phases:
        return signs + everywhere + oracle(0) + everywhere + signs + oracle(half) + everywhere
    return everywhere + flips + oracle(0) + flips + everywhere + oracle(half) + everywhere


def grover(k, exchanged):
    """A phase where all k qubits are 1, and the reflection about their even sum."""
    into = [(0, 1, k)] + [(i, k + i - 2, k + i - 1) for i in range(2, k - 1)]

    def toffolis(each):
        return [line for a, b, c in each for line in (ccx(b, a, c) if exchanged else ccx(a, b, c))]

    def sign():
        own, place = k - 1, k + len(into) - 1
        middle = h(own) + cx(place, own) + h(own)
        return toffolis(into) + middle + toffolis(into[::-1])

    everywhere = [line for q in range(k) for line in h(q)]
    flips = [line for q in range(k) for line in x(q)]
    return sign() + everywhere + flips + sign() + flips + everywhere


def clifford(n, gates, rewritten):
    chance = random.Random(gates)
    lines = []
    for _ in range(gates):
        kind, a = chance.randrange(3), chance.randrange(n)
        b = (a + 1 + chance.randrange(n - 1)) % n
        if kind == 0:
            lines += h(a)
        elif kind == 1:
            lines += phase("pi", a) + phase("-pi/2", a) if rewritten else phase("pi/2", a)
        else:
            lines += h(a) + h(b) + cx(b, a) + h(a) + h(b) if rewritten else cx(a, b)
    return lines


def mirror(n, gates, seed):
    """Random gates, and then the inverse of each in the other order."""
    chance = random.Random(seed)
    forth, back = [], []
    for _ in range(gates):
        kind = chance.randrange(4)
        a = chance.randrange(n)
        if kind == 0:
            there = again = h(a)
        elif kind == 1:
            there, again = phase("pi/2", a), phase("-pi/2", a)
        elif kind == 2:
            there, again = phase("pi/4", a), phase("-pi/4", a)
        else:
            there = again = cx(a, (a + 1 + chance.randrange(n - 1)) % n)
        forth += there
        back.append(again)
    return forth + [line for lines in reversed(back) for line in lines]


def text(qubits, lines):
    return "".join(f"{line}\n" for line in ["OPENQASM 2.0;", f"qreg q[{qubits}];"] + lines)


def pairs():
    """Each pair under its name: its qubits, and the lines of both texts."""
    for k in (5, 10, 20, 32):
        yield f"ladder_{k}", 2 * k - 1, ladder(k, False), ladder(k, True)
    for n in (4, 6, 8, 16, 31):
        yield f"adder_{n}", 2 * n + 2, adder(n, False), adder(n, True)
    for n in (4, 8, 16):
        yield f"draper_{n}", 2 * n, draper(n, False), draper(n, True)
    for n in (8, 16, 30):
        yield f"fourier_{n}", n, fourier(n, False), fourier(n, True)
    for n in (4, 8, 16, 21):
        yield f"multiplier_{n}", 3 * n, multiplier(n, False), multiplier(n, True)
    for n in (4, 8, 16, 40):
        yield f"shift_{n}", n, hidden_shift(n, False), hidden_shift(n, True)
    for k in (3, 4, 6, 10):
        yield f"grover_{k}", 2 * k - 2, grover(k, False), grover(k, True)
    for n, gates in ((8, 200), (32, 2000), (64, 10000)):
        yield f"clifford_{n}_{gates}", n, clifford(n, gates, False), clifford(n, gates, True)
    for n, gates in ((8, 500), (20, 1000), (20, 5000)):
        yield f"mirror_{n}_{gates}", n, mirror(n, gates, 1), []


def main():
    folder = Path(sys.argv[1])
    folder.mkdir(parents=True, exist_ok=True)
    for name, qubits, first, second in pairs():
        (folder / f"{name}.pair").write_text(text(qubits, first) + "====\n" + text(qubits, second))
        (folder / f"{name}.answer").write_text("yes|unknown *\n")
        print(f"{name}: {len(first)} and {len(second)} lines")


if __name__ == "__main__":
    main()
