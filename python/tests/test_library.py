"""The gates that are offered to be pasted are those of their names, and docs/VERDICTS.md says what the library has."""
import math
import re
import unittest

import pathsum
from pathsum.library import BODIES, LIBRARY

from . import matrices
from .gates import ROOT, library
from .matrices import controlled, of_text, rotation

HEAD = 'OPENQASM 2.0;\ninclude "qelib1.inc";\n'
ROOT_OF_X = [[(1 + 1j) / 2, (1 - 1j) / 2], [(1 - 1j) / 2, (1 + 1j) / 2]]
X = [[0, 1], [1, 0]]


def permutation(images):
    return [[float(at == image) for at in range(len(images))] for image in images]


def diagonal(entries):
    return [[entry if at == start else 0 for at in range(len(entries))] for start, entry in enumerate(entries)]


def times(first, second):
    """The matrix of one gate and then another, both as columns."""
    size = len(first)
    return [[sum(second[mid][at] * column[mid] for mid in range(size)) for at in range(size)] for column in first]


def half_controlled(theta, phi, lam, gamma):
    u = of_text(f"OPENQASM 2.0;qreg q[1];U({theta},{phi},{lam}) q[0];")
    factor = complex(math.cos(gamma), math.sin(gamma))
    return controlled([[factor * entry for entry in column] for column in u])


IDENTITY = diagonal([1, 1])
ZX = rotation("zx", math.pi / 4)
WANTED = {
    "u0": ("(pi/8)", IDENTITY),
    "sxdg": ("", [[entry.conjugate() for entry in column] for column in ROOT_OF_X]),
    "cs": ("", diagonal([1, 1, 1, 1j])),
    "csdg": ("", diagonal([1, 1, 1, -1j])),
    "csx": ("", controlled(ROOT_OF_X)),
    "ccz": ("", diagonal([1] * 7 + [-1])),
    "dcx": ("", permutation([0, 3, 1, 2])),
    "iswap": ("", [[1, 0, 0, 0], [0, 0, 1j, 0], [0, 1j, 0, 0], [0, 0, 0, 1]]),
    "cu": ("(pi/4,pi/8,pi/2,pi/16)", half_controlled("pi/4", "pi/8", "pi/2", math.pi / 16)),
    "crx": ("(pi/4)", controlled(rotation("x", math.pi / 4))),
    "cry": ("(pi/4)", controlled(rotation("y", math.pi / 4))),
    "rxx": ("(pi/4)", rotation("xx", math.pi / 4)),
    "ryy": ("(pi/4)", rotation("yy", math.pi / 4)),
    "rzx": ("(pi/4)", rotation("zx", math.pi / 4)),
    # one of the qubits is turned by pi/4 to either side of the other's flip
    "ecr": ("", times(times(rotation("zx", math.pi / 4), [[0, 0, 1, 0], [0, 0, 0, 1], [1, 0, 0, 0], [0, 1, 0, 0]]),
                      rotation("zx", -math.pi / 4))),
    "c3x": ("", controlled(controlled(controlled(X)))),
}


class Bodies(unittest.TestCase):
    def test_each_is_the_gate_of_its_name(self):
        for name, (angles, wanted) in WANTED.items():
            with self.subTest(name):
                qubits = len(wanted).bit_length() - 1
                places = ",".join(f"q[{at}]" for at in range(qubits))
                text = f"{HEAD}{BODIES[name]}\nqreg q[{qubits}];\n{name}{angles} {places};\n"
                self.assertIsNotNone(matrices.phase_between(wanted, of_text(text)))
                self.assertEqual(pathsum.same(text, text).verdict, "yes")

    def test_relative_toffoli(self):
        """It is the Toffoli gate but for phases at single basis states."""
        text = f"{HEAD}{BODIES['rccx']}\nqreg q[3];\nrccx q[0],q[1],q[2];\n"
        toffoli = permutation([0, 1, 2, 3, 4, 5, 7, 6])
        for column, other in zip(of_text(text), toffoli):
            for entry, wanted in zip(column, other):
                self.assertAlmostEqual(abs(entry), wanted)

    def test_all_are_here(self):
        self.assertEqual(set(WANTED) | {"rccx"}, set(BODIES))
        self.assertFalse(set(BODIES) & set(LIBRARY))


class Document(unittest.TestCase):
    def test_the_library(self):
        self.assertEqual(re.findall(r"gate (\w+)", library()), LIBRARY)
        document = (ROOT / "docs/VERDICTS.md").read_text()
        for name in LIBRARY:
            self.assertIn(f"`{name}`", document)
        for body in BODIES.values():
            self.assertIn(body, " ".join(document.split()))

    def test_the_table_of_phases(self):
        """Each row of the table has the verdict that it tells, and the phase that its matrices have."""
        document = (ROOT / "docs/VERDICTS.md").read_text()
        rows = re.findall(r"^\| `([^|]*)` \| `([^|]*)` \| (yes|no)(.*) \|$", document, re.MULTILINE)
        self.assertGreaterEqual(len(rows), 12)
        for first, second, verdict, told in rows:
            with self.subTest((first, second)):
                texts = [f"{HEAD}qreg q[2];\n{'' if each == 'nothing' else each}\n" for each in (first, second)]
                self.assertEqual(pathsum.same(*texts).verdict, verdict)
                factor = matrices.phase_between(*map(of_text, texts))
                phase = re.search(r"with (\d+)/(\d+) of a turn", told)
                if phase:
                    turn = 2 * math.pi * int(phase[1]) / int(phase[2])
                    self.assertAlmostEqual(factor, complex(math.cos(turn), math.sin(turn)))
                elif verdict == "no":
                    self.assertIn("no phase of the whole", told)
                    self.assertIsNone(factor)
                else:
                    self.assertAlmostEqual(factor, 1)


if __name__ == "__main__":
    unittest.main()
