"""The second checker agrees with `replay` on the derivations of all examples and on forged ones."""
import random
import unittest

import pathsum

from .checker import check
from .gates import ROOT, Reader

EXAMPLES = ROOT / "examples"


def pairs():
    """The examples that are two texts."""
    for path in sorted(EXAMPLES.glob("*.pair")):
        parts = path.read_bytes().split(b"====\n")
        if len(parts) == 2:
            yield path.name, parts[0], parts[1]
    for first, second in (("toffoli_by_hand", "toffoli"), ("fourier", "fourier_textbook"), ("adder", "adder_parallel")):
        yield first, (EXAMPLES / f"{first}.qasm").read_bytes(), (EXAMPLES / f"{second}.qasm").read_bytes()


def proofs():
    """Each example that has a derivation, with it."""
    for name, first, second in pairs():
        try:
            answer = pathsum.prove(first, second)
        except pathsum.CircuitError:
            continue
        if answer.verdict == "yes":
            yield name, first, second, answer.derivation.encode()


def forged(derivation, chance):
    """Derivations near a right one: a line lost, doubled, exchanged with the next, changed, or the end cut off."""
    lines = derivation.split(b"\n")[:-1]
    at = chance.randrange(len(lines))
    other = chance.choice([b"join", b"id a", b"id b", b"overlap", b"end", b"elim 0", b"omega 1", b"hh 0 1", b"hh 1 0",
                           b"leaf a 0", b"leaf b 1", b"leaf a 00", b"turn", b"", b"hh 0 65536", b"pathsum 1", b"leaf a 4294967295"])
    kind = chance.randrange(7)
    if kind == 0:
        lines = lines[:at] + lines[at + 1 :]
    elif kind == 1:
        lines = lines[: at + 1] + lines[at:]
    elif kind == 2 and at:
        lines[at - 1], lines[at] = lines[at], lines[at - 1]
    elif kind == 3:
        lines[at] = other
    elif kind == 4:
        lines = lines[:at] + [other] + lines[at:]
    elif kind == 5:
        lines = lines[:at]
    else:
        words = lines[at].split(b" ")
        words[-1] = str(chance.randrange(6)).encode() if words[-1].isdigit() else words[-1]
        lines[at] = b" ".join(words)
    text = b"".join(line + b"\n" for line in lines)
    return text[:-1] if chance.random() < 0.1 else text


class Derivations(unittest.TestCase):
    def agree(self, first, second, derivation):
        one, other = Reader(first), Reader(second)
        wanted = check(derivation, one.qubits, [one.gates, other.gates])
        self.assertEqual(pathsum.replay(first, second, derivation).line, wanted, derivation.decode())
        return wanted

    def test_of_the_examples(self):
        names = []
        for name, first, second, derivation in proofs():
            with self.subTest(name):
                self.assertEqual(self.agree(first, second, derivation), "accepted")
            names.append(name)
        self.assertGreaterEqual(len(names), 10)

    def test_forged(self):
        chance, seen = random.Random(1), set()
        for name, first, second, derivation in proofs():
            for _ in range(60 if len(derivation) < 2000 else 12):
                with self.subTest(name):
                    seen.add(self.agree(first, second, forged(derivation, chance)).split(" ")[-1])
        # each reason was met (a limit has a test of its own)
        self.assertLessEqual({"accepted", "Form", "Cut", "Order", "Redex"}, seen)

    def test_of_another_pair(self):
        first, second = ((EXAMPLES / f"{name}.qasm").read_bytes() for name in ("toffoli_by_hand", "toffoli"))
        broken = (EXAMPLES / "broken_rewrite.qasm").read_bytes()
        derivation = pathsum.prove(first, second).derivation.encode()
        self.assertTrue(self.agree(broken, second, derivation).startswith("left k=0 m=0 P=3/4*x0"))

    def test_limit(self):
        """A turn by pi/8 on the sum of 64 qubits has more than 65,536 terms, and nine times 64 variables are too many."""
        parts = (EXAMPLES / "too_many_terms.pair").read_bytes().split(b"====\n")
        gates = Reader(parts[0]).gates
        lines = ["pathsum 1", "leaf a 0"]
        for at in range(1, len(gates)):
            lines += [f"leaf a {at}", "join"]
        derivation = "".join(f"{line}\n" for line in lines + ["end"]).encode()
        self.assertRegex(self.agree(*parts, derivation), "^rejected [0-9]+ Limit$")
        hadamards = b"OPENQASM 2.0;\nqreg q[64];\n" + b"U(pi/2,0,pi) q;\n" * 5
        lines = ["pathsum 1", "leaf a 0"]
        for at in range(1, 320):
            lines += [f"leaf a {at}", "join"]
        derivation = "".join(f"{line}\n" for line in lines + ["end"]).encode()
        self.assertRegex(self.agree(hadamards, hadamards, derivation), "^rejected [0-9]+ Limit$")

    def test_reason_before_reason(self):
        """A step that does not apply is Redex, also where a limit would be passed; Form comes before all."""
        first = b"OPENQASM 2.0;\nqreg q[1];\nU(pi/2,0,pi) q[0];\n"
        for derivation, wanted in [
            (b"pathsum 1\nleaf a 0\nelim 0\nend\n", "rejected 3 Redex"),
            (b"pathsum 1\nelim 0\nend\n", "rejected 2 Order"),
            (b"pathsum 1\nelim 0\nturn\nend\n", "rejected 3 Form"),
            (b"pathsum 1\nelim 0\n", "rejected 3 Cut"),
            (b"", "rejected 1 Cut"),
            (b"pathsum 1\nid a\nid b\noverlap\nend\n", "rejected 4 Order"),
        ]:
            self.assertEqual(self.agree(first, first, derivation), wanted)


if __name__ == "__main__":
    unittest.main()
