"""Edits of circuits that the whole question doesn't decide, and random ones, by `same local` and by `same`."""
import random
import unittest

from pathsum import program

GATES = {"h": 1, "x": 1, "s": 1, "t": 1, "tdg": 1, "cx": 2, "cz": 2, "ccx": 3}
BITS = 16


def by_hand(a, b, c, changed=False):
    """The Toffoli gate of Nielsen and Chuang; changed, with a t where it has a tdg."""
    gates = [("h", c), ("cx", b, c), ("t" if changed else "tdg", c), ("cx", a, c), ("t", c), ("cx", b, c), ("tdg", c), ("cx", a, c)]
    return gates + [("t", b), ("t", c), ("h", c), ("cx", a, b), ("t", a), ("tdg", b), ("cx", a, b)]


def adder(bits=BITS):
    """A ripple-carry adder (Cuccaro, Draper, Kutin, Moulton) on 2*bits+2 qubits; the Toffoli gates are `toffolis(adder())`."""
    b, a = [1 + 2 * i for i in range(bits)], [2 + 2 * i for i in range(bits)]
    before = [0] + a[:-1]
    gates = []
    for i in range(bits):
        gates += [("cx", a[i], b[i]), ("cx", a[i], before[i]), ("ccx", before[i], b[i], a[i])]
    gates.append(("cx", a[-1], 2 * bits + 1))
    for i in reversed(range(bits)):
        gates += [("ccx", before[i], b[i], a[i]), ("cx", a[i], before[i]), ("cx", before[i], b[i])]
    return gates


def toffolis(gates):
    return [place for place, gate in enumerate(gates) if gate[0] == "ccx"]


def rewritten(gates, places, changed=()):
    """The gates with the Toffoli at each of the places by hand."""
    out = []
    for place, gate in enumerate(gates):
        out += by_hand(*gate[1:], changed=place in changed) if place in places or place in changed else [gate]
    return out


def lines(gates):
    return "".join(f"{name} {','.join(f'q[{q}]' for q in on)};\n" for name, *on in gates)


def text(qubits, gates):
    return f'OPENQASM 2.0;\ninclude "qelib1.inc";\nqreg q[{qubits}];\n{lines(gates)}'


def ask(words, qubits, first, second):
    """The line that is printed."""
    given = text(qubits, first) + "====\n" + text(qubits, second)
    return program.ask(words, given.encode()).output.decode().strip()


class Adders(unittest.TestCase):
    """The whole stays unknown, whatever is edited."""

    def answers(self, second, first=None):
        pair = (2 * BITS + 2, first or adder(), second)
        return ask(("same",), *pair).split()[0], ask(("same", "local"), *pair)

    def setUp(self):
        self.spots = toffolis(adder())

    def test_one_gate(self):
        middle = self.spots[len(self.spots) // 2]
        self.assertEqual(self.answers(rewritten(adder(), [middle])), ("unknown", "yes"))
        whole, local = self.answers(rewritten(adder(), [], changed=[middle]))
        self.assertEqual((whole, local.split()[0], local.split()[2:]), ("unknown", "no", ["behind", str(middle)]))

    def test_windows(self):
        """Nearly all of the circuit stands between two edits, so they are decided one by one."""
        ends = [self.spots[0], self.spots[-1]]
        for places in (ends, self.spots, self.spots[::3]):
            with self.subTest(places):
                self.assertEqual(self.answers(rewritten(adder(), places)), ("unknown", "yes"))
        for changed in (self.spots[:1], self.spots[-1:], self.spots[7:8]):
            with self.subTest(changed):
                whole, local = self.answers(rewritten(adder(), [spot for spot in ends if spot not in changed], changed=changed))
                self.assertEqual((whole, local.split()[0] == "yes"), ("unknown", False))

    def test_a_gate_that_was_moved(self):
        """Neither the place that it left nor the one that it came to is one map, but what stands from the one to the other is."""
        for name, answer in (("t", True), ("s", False)):
            with self.subTest(name):
                first, second = adder(), rewritten(adder(), self.spots[-1:])
                first.insert(9, (name, 0))
                second.insert(2, ("t", 0))
                whole, local = self.answers(second, first)
                self.assertEqual((whole, local.split()[0] == "yes"), ("unknown", answer))


class Random(unittest.TestCase):
    def gate(self, chance, qubits):
        name = chance.choice([name for name, count in GATES.items() if count <= qubits])
        return (name, *chance.sample(range(qubits), GATES[name]))

    def edited(self, gates, chance, qubits):
        """Some gates are rewritten, put in with what undoes them, dropped, put in, or exchanged with the next one."""
        gates = rewritten(gates, [place for place in toffolis(gates) if chance.randrange(3) == 0])
        for _ in range(chance.randrange(5)):
            place, kind = chance.randrange(len(gates)), chance.randrange(8)
            if kind == 0:
                gates.insert(place, self.gate(chance, qubits))
            elif kind == 1 and len(gates) > 1:
                del gates[place]
            elif kind < 5:
                gate = self.gate(chance, qubits)
                gates[place:place] = [gate, gate] if gate[0] not in ("s", "t", "tdg") else [("t", gate[1]), ("tdg", gate[1])]
            elif set(gates[place][1:]).isdisjoint(gates[place - 1][1:]):
                gates[place - 1], gates[place] = gates[place], gates[place - 1]
        return gates

    def test_pairs(self):
        """What `same local` answers never contradicts what `same` does, and where the one is no, the other is no yes."""
        chance = random.Random(5)
        kinds = set()
        for _ in range(150):
            qubits = chance.randrange(1, 6)
            first = [self.gate(chance, qubits) for _ in range(chance.randrange(1, 120))]
            second = self.edited(first, chance, qubits)
            whole, local = (ask(words, qubits, first, second) for words in (("same",), ("same", "local")))
            kind = (whole.split()[0], local.split()[0])
            self.assertNotIn(kind, {("yes", "no"), ("no", "yes")}, text(qubits, first) + "====\n" + text(qubits, second))
            kinds.add(kind)
        self.assertLessEqual({("yes", "yes"), ("no", "no"), ("unknown", "yes"), ("unknown", "no")}, kinds)


if __name__ == "__main__":
    unittest.main()
