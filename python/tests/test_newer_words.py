"""Questions that only newer programs know: with one that doesn't, nothing is said of them; with a stand-in that does, the
answers are read and told."""
import unittest
from fractions import Fraction

import pathsum
from pathsum.circuits import Circuit
from pathsum.sharing import shared_of

from .stand_in import StandIns, knows
from .test_edits import BITS, adder, lines

HEAD = 'OPENQASM 2.0;\ninclude "qelib1.inc";\nqreg q[2];\n'


def answers(*words):
    return knows(*words, given=HEAD + "====\n" + HEAD)


class StandIn(StandIns):
    def test_not_known(self):
        self.stand_in()
        answer = pathsum.compare(HEAD + "rx(pi) q[0];\n", HEAD + "x q[0];\n")
        self.assertEqual((answer.line, answer.phase, answer.shared), ("no 00", None, None))
        self.assertIn("exact maps", answer.explain())
        with self.assertRaises(pathsum.NotKnownError):
            pathsum.same(HEAD, HEAD, phase=True)

    def test_phase(self):
        self.stand_in(same_phase=("yes phase 3/4", 0))
        answer = pathsum.compare(HEAD + "rx(pi) q[0];\n", HEAD + "x q[0];\n")
        self.assertEqual((answer.line, answer.phase), ("no 00", Fraction(3, 4)))
        self.assertIn("up to a global phase of 3/4 of a turn (3*pi/2)", answer.explain())
        answer = pathsum.same(HEAD, HEAD, phase=True)
        self.assertEqual((answer.question, answer.verdict, answer.phase), ("phase", "yes", Fraction(3, 4)))
        pathsum.assert_same(HEAD + "rx(pi) q[0];\n", HEAD + "x q[0];\n", phase=True)

    def test_phase_no(self):
        for line, second in [("no 01 10", "10"), ("no 01", None)]:
            self.stand_in(same_phase=(line, 1))
            answer = pathsum.same(HEAD, HEAD, phase=True)
            self.assertEqual((answer.input.bits, answer.second_input and answer.second_input.bits), ("01", second))
            self.assertNotIn("exact maps", answer.explain())
            self.assertEqual(pathsum.compare(HEAD + "x q[0];\n", HEAD).phase, None)

    def test_local_yes(self):
        self.stand_in(same_local=("yes", 0))
        first, second = HEAD + "h q;\nx q[0];\nh q;\n", HEAD + "h q;\ny q[0];\nh q;\n"
        answer = pathsum.compare(first, second)
        self.assertEqual((answer.verdict, answer.question), ("yes", "local"))
        self.assertEqual(answer.shared, pathsum.Shared(2, 2, (5, 5), (5, 5)))
        self.assertIn("2 items in front and 2 behind", answer.explain())
        self.assertEqual(answer.to_json()["shared"]["first_lines"], [5, 5])

    def test_local_no(self):
        """An input of the whole is asked for; where that stays unknown, the state behind the front is told."""
        self.stand_in(same_local=("no 10 behind 2", 1))
        answer = pathsum.compare(HEAD + "x q;\nt q[0];\n", HEAD + "x q;\n")
        self.assertEqual((answer.line, answer.behind, answer.shared.front), ("no 00", 0, 2))
        self.stand_in(same_local=("no 10 behind 3", 1))
        first = HEAD + "h q[0];\nt q[0];\nh q[0];\nx q[0];\n"
        answer = pathsum.compare(first, HEAD + "h q[0];\nt q[0];\nh q[0];\n")
        self.assertEqual((answer.verdict, answer.input.bits), ("no", answer.input.bits))

    def test_local_unknown(self):
        self.stand_in(same_local=("unknown passed terms 70000", 2))
        self.assertEqual(pathsum.compare(HEAD + "x q;\ny q;\n", HEAD + "x q;\ny q;\n").verdict, "yes")
        answer = pathsum.compare(HEAD + "x q;\nh q[0];\nt q[0];\nh q[0];\n", HEAD + "x q;\n")
        self.assertEqual((answer.line, answer.shared.front), ("unknown passed terms 70000", 2))


class Sharing(unittest.TestCase):
    def shared(self, first, second, told=None):
        return shared_of(Circuit("a", (HEAD + first).encode()), Circuit("b", (HEAD + second).encode()), told)

    def test_parts(self):
        none = (0, -1)
        for first, second, wanted in [
            ("", "", (0, 0, none, none, False)),
            ("x q;\n", "x q[0];\nx q[1];\n", (2, 0, none, none, False)),
            ("x q;\nh q[0];\n", "x q;\n", (2, 0, (5, 5), none, False)),
            ("x q[0];\n\nh q[1];\n// c\ny q;\n", "x q[0];\ny q;\n", (1, 2, (6, 6), none, False)),
            ("x q[0];\nx q[0];\n", "x q[0];\n", (1, 0, (5, 5), none, False)),
            ("rx(pi/2) q[0];\n", "rx(pi/4) q[0];\n", (0, 0, (4, 4), (4, 4), False)),
            ("gate g a { x a; }\ng q[0];\n", "gate g a { y a; }\ng q[0];\n", (0, 0, (5, 5), (5, 5), False)),
            ("gate g a { x a; }\ng q[0];\n", "gate g a { x a; }\ng q[0];\n", (1, 0, none, none, False)),
            ("gate g a { y a; }\nx q[0];\ng q[0];\n", "x q[0];\ny q[0];\n", (1, 0, (6, 6), (5, 5), False)),
            ("gate x a { y a; }\nx q[0];\n", "x q[0];\n", (0, 0, (5, 5), (4, 4), False)),
            ("barrier q;\nx q[0];\n", "x q[0];\n", (1, 0, none, none, False)),
            ("cx q[0],q[1];\n", "cx q[1],q[0];\n", (0, 0, (4, 4), (4, 4), False)),
            ("x q[0];\ny q[1];\n", "y q[1];\nx q[0];\n", (2, 0, none, none, True)),
            ("x q[0];\ny q[1];\ncx q[0],q[1];\nt q[0];\nh q;\n", "y q[1];\nx q[0];\ncx q[0],q[1];\ns q[0];\nh q[1];\nh q[0];\n",
             (4, 1, (7, 7), (7, 7), True)),
            ("x q[0];\ncx q[0],q[1];\n", "cx q[0],q[1];\nx q[0];\n", (0, 0, (4, 5), (4, 5), False)),
        ]:
            with self.subTest((first, second)):
                self.assertEqual(self.shared(first, second), pathsum.Shared(*wanted))

    def test_a_front_that_is_told(self):
        """The front that the program told is as the items stand, or after exchanges, or nothing is told of lines."""
        first, second = "x q[0];\ny q[1];\nt q[0];\n", "y q[1];\nx q[0];\ns q[0];\n"
        self.assertEqual(self.shared(first, second, 2), pathsum.Shared(2, 0, (6, 6), (6, 6), True))
        self.assertEqual(self.shared(first, second, 0), pathsum.Shared(0, 0, (4, 6), (4, 6), False))
        self.assertIsNone(self.shared(first, second, 1))


@unittest.skipUnless(answers("same", "phase"), "the program does not know these words yet")
class Phase(unittest.TestCase):
    def test_phases(self):
        for first, second, phase in [
            ("rx(pi) q[0];", "x q[0];", "1/4"),
            ("sx q[0]; sx q[0];", "x q[0];", "1/4"),
            ("u3(2*pi,0,0) q[0];", "", "1/2"),
            ("", "h q[0]; s q[0]; h q[0]; s q[0]; h q[0]; s q[0];", "1/8"),
            ("x q[0];", "x q[0];", "0"),
        ]:
            with self.subTest((first, second)):
                answer = pathsum.same(HEAD + first, HEAD + second, phase=True)
                self.assertEqual((answer.verdict, answer.phase), ("yes", Fraction(phase)))
                compared = pathsum.compare(HEAD + first, HEAD + second)
                self.assertEqual((compared.verdict, compared.phase), ("yes", None) if phase == "0" else ("no", Fraction(phase)))
        self.assertEqual(pathsum.same(HEAD + "x q[0];", HEAD, phase=True).verdict, "no")
        self.assertEqual(pathsum.compare(HEAD + "z q[0];", HEAD).phase, None)


@unittest.skipUnless(answers("same", "local"), "the program does not know these words yet")
class Local(unittest.TestCase):
    """Adders, whose whole stays unknown, with one gate between the two halves that is rewritten or changed: the items of
    either half all hang together."""

    WIDE = HEAD.replace("q[2]", f"q[{2 * BITS + 2}]")
    HALF = len(adder()) // 2 + 1
    FRONT, BACK = lines(adder()[:HALF]), lines(adder()[HALF:])
    BACK_ONE = "h q;\nt q;\n" * 40

    def compared(self, first, second):
        """The answer to what is left, and that to the whole."""
        first, second = (f"{self.WIDE}{self.FRONT}{between}{self.BACK}" for between in (first, second))
        return pathsum.compare(first, second), pathsum.same(first, second)

    def test_yes(self):
        on = f"q[{2 * BITS}];\n"
        answer, whole = self.compared(f"x {on}", f"h {on}z {on}h {on}")
        self.assertEqual((answer.verdict, answer.question, answer.line), ("yes", "local", "yes"))
        line = self.HALF + 4
        self.assertEqual(answer.shared, pathsum.Shared(self.HALF, self.HALF - 1, (line, line), (line, line + 2)))
        self.assertEqual(whole.verdict, "unknown")

    def test_no(self):
        """What is left is t against s; no input of the whole is known, so the state behind the front is told."""
        on = f"q[{2 * BITS}];\n"
        answer, whole = self.compared(f"t {on}", f"s {on}")
        state = "0" * (2 * BITS) + "10"
        self.assertEqual((answer.verdict, answer.line), ("no", f"no {state} behind {self.HALF}"))
        self.assertEqual((answer.behind, answer.shared.front, answer.shared.back), (self.HALF, self.HALF, self.HALF - 1))
        self.assertEqual(whole.verdict, "unknown")

    def test_no_in_front(self):
        """Nothing is alike in front, so the input is one of the whole."""
        back = self.BACK_ONE.replace("q;", "q[0];")
        answer = pathsum.compare(f"{HEAD}x q[0];\n{back}", HEAD + back)
        self.assertEqual((answer.verdict, answer.line, answer.behind), ("no", "no 00", 0))

    def test_an_input_is_asked_for(self):
        """Where the whole is decided, its input is told."""
        answer = pathsum.compare(HEAD + "x q;\nt q[0];\n", HEAD + "x q;\ns q[0];\n")
        self.assertEqual((answer.question, answer.line, answer.behind), ("same", "no 00", 0))
        self.assertEqual(answer.shared, pathsum.Shared(2, 0, (5, 5), (5, 5)))


if __name__ == "__main__":
    unittest.main()
