"""Each verdict once from Python, as a typed result, and in words."""
import threading
import time
import unittest
from pathlib import Path
from unittest import mock

import pathsum
from pathsum import program
from pathsum.answers import Qubit

from .gates import ROOT

EXAMPLES = ROOT / "examples"
HEAD = 'OPENQASM 2.0;\ninclude "qelib1.inc";\n'
ONE = HEAD + "qreg q[1];\n"


class Written:
    """What a tool's circuit may look like."""

    def __init__(self, text):
        self.text = text

    def qasm(self):
        return self.text


class Verdicts(unittest.TestCase):
    def test_yes(self):
        answer = pathsum.same(EXAMPLES / "toffoli_by_hand.qasm", str(EXAMPLES / "toffoli.qasm"))
        self.assertIsInstance(answer, pathsum.Yes)
        self.assertEqual((answer.verdict, answer.status, bool(answer)), ("yes", 0, True))
        self.assertIn("global phase included", answer.explain())

    def test_no(self):
        first = HEAD + "qreg a[2];\nqreg b[1];\nt b[0];\n"
        answer = pathsum.same(first, HEAD + "qreg q[3];\n")
        self.assertIsInstance(answer, pathsum.No)
        self.assertEqual((answer.status, bool(answer), answer.input.bits), (1, False, "001"))
        self.assertEqual([(str(qubit), bit) for qubit, bit in answer.input], [("a[0]", 0), ("a[1]", 0), ("b[0]", 1)])
        self.assertEqual(answer.input.ones, (Qubit("b", 0),))
        self.assertEqual(str(answer.input), "a=00, b=1")
        self.assertIn("a[0]=0, a[1]=0, b[0]=1", answer.explain())
        self.assertIn("exact maps", answer.explain())

    def test_no_of_many_qubits(self):
        wide = HEAD + "qreg q[40];\n"
        answer = pathsum.same(wide + "t q[30];\n", wide)
        self.assertIn("with q[30] 1 and all others 0", answer.explain())

    def test_unknown(self):
        answer = pathsum.same(ONE + "h q[0];\nt q[0];\nh q[0];\n", ONE)
        self.assertIsInstance(answer, pathsum.Unknown)
        self.assertEqual(answer.remaining, pathsum.RemainingSum("k=2 m=1 P=7/8*y0 f=-", 2, 1, 1))
        with self.assertRaises(pathsum.UndecidedError):
            bool(answer)
        self.assertIn("What to try", answer.explain())

    def test_a_limit(self):
        first, second = (EXAMPLES / "too_many_terms.pair").read_text().split("====\n")
        answer = pathsum.same(first, second)
        self.assertEqual(answer.limit, pathsum.Limit("terms", 679_120, 65_536))
        self.assertIn("679,120", answer.explain())
        wide = HEAD + "qreg q[64];\n" + "h q;\nt q;\n" * 6
        self.assertEqual(pathsum.same(wide, wide).limit.what, "variables")

    def test_a_long_sum_is_told_by_its_size(self):
        wide = HEAD + "qreg q[30];\n"
        answer = pathsum.same(wide + "h q;\nt q;\nh q;\n", wide)
        self.assertGreater(len(answer.remaining.text), 160)
        self.assertNotIn(answer.remaining.text, answer.explain())
        self.assertIn(f"{len(answer.remaining.text):,} bytes", answer.explain())
        self.assertIn(answer.remaining.text, answer.explain(full=True))

    def test_frozen(self):
        answer = pathsum.same(ONE, ONE)
        with self.assertRaises(AttributeError):
            answer.line = "no"
        self.assertEqual(answer, pathsum.same(ONE, ONE))

    def test_json(self):
        record = pathsum.same(ONE + "x q[0];\n", ONE).to_json()
        self.assertEqual(record["input"], {"bits": "0", "qubits": [{"register": "q", "index": 0, "value": 0}]})
        self.assertEqual((record["schema"], record["verdict"], record["status"]), (1, "no", 1))
        document = (ROOT / "docs/JSON.md").read_text()
        for answer in (
            pathsum.prove(ONE, ONE),
            pathsum.same(ONE + "x q[0];\n", ONE),
            pathsum.same(ONE + "h q[0];\nt q[0];\nh q[0];\n", ONE),
            pathsum.replay(ONE, ONE, "pathsum 1\n"),
        ):
            for name in answer.to_json():
                self.assertIn(f"`{name}`", document)


class Derivations(unittest.TestCase):
    def test_prove_and_replay(self):
        answer = pathsum.prove(ONE + "h q;\nh q;\n", ONE)
        self.assertTrue(answer.derivation.startswith("pathsum 1\n") and answer.derivation.endswith("\nend\n"))
        for given in (answer, answer.derivation, answer.derivation.encode()):
            accepted = pathsum.replay(ONE + "h q;\nh q;\n", ONE, given)
            self.assertIsInstance(accepted, pathsum.Accepted)
            self.assertTrue(accepted)

    def test_rejected(self):
        answer = pathsum.replay(ONE, ONE, "pathsum 1\nid a\njoin\nend\n")
        self.assertIsInstance(answer, pathsum.Rejected)
        self.assertEqual((answer.number, answer.reason, answer.source, bool(answer)), (3, "Order", "join", False))
        self.assertIn("join", answer.explain())

    def test_left(self):
        answer = pathsum.replay(ONE, ONE, "pathsum 1\nid a\nid b\noverlap\nend\n")
        self.assertIsInstance(answer, pathsum.Left)
        self.assertEqual(answer.remaining.text, "k=2 m=1 P=0 f=-")


class Sources(unittest.TestCase):
    def test_objects(self):
        self.assertTrue(pathsum.same(Written(ONE), Written(ONE + "x q;\nx q;\n")))
        self.assertTrue(pathsum.same(("x",), ("x", "x", "x"), to_qasm=lambda names: ONE + "".join(f"{name} q;\n" for name in names)))
        self.assertTrue(pathsum.same(ONE.encode(), ONE))

    def test_what_is_no_circuit(self):
        for wrong, error in [(3, pathsum.UsageError), ("", pathsum.UsageError), (ROOT, pathsum.UnreadableError),
                             ("no such file", pathsum.UnreadableError), (Written(3), pathsum.UsageError)]:
            with self.subTest(wrong), self.assertRaises(error) as caught:
                pathsum.same(wrong, ONE)
            self.assertNotIn("\n", str(caught.exception))

    def test_encodings(self):
        text = ONE + "x q[0];\n"
        for encoding in ("utf-8-sig", "utf-16", "utf-32"):
            with self.subTest(encoding):
                self.assertTrue(pathsum.same(text.encode(encoding), text))
        latin = ONE.encode() + "// Gr\u00f6\u00dfe\nx q[0];\n".encode("latin-1")
        self.assertTrue(pathsum.same(latin, text))

    def test_a_separator_in_a_circuit(self):
        for mark in ("====\n", "====\r\n", "===="):
            with self.subTest(mark), self.assertRaises(pathsum.CircuitError) as caught:
                pathsum.same(ONE + mark, ONE)
            self.assertEqual((caught.exception.fault.name, caught.exception.fault.line), ("Syntax", 4))

    def test_too_long(self):
        with self.assertRaises(pathsum.TooLongError):
            pathsum.same(ONE + " " * 16_777_216, ONE)


class Asserting(unittest.TestCase):
    def test_same(self):
        pathsum.assert_same(ONE, ONE)

    def test_different(self):
        with self.assertRaises(AssertionError) as caught:
            pathsum.assert_same(ONE + "x q[0];\n", ONE, "after the optimiser")
        said = str(caught.exception)
        self.assertTrue(said.startswith("after the optimiser\nfirst circuit and second circuit are not shown to be the same: no 0\n"))
        self.assertIn("q[0]=0", said)

    def test_unknown(self):
        with self.assertRaises(AssertionError) as caught:
            pathsum.assert_same(ONE + "h q[0];\nt q[0];\nh q[0];\n", ONE)
        self.assertIn("Neither was shown", str(caught.exception))

    def test_faults_are_no_assertion(self):
        with self.assertRaises(pathsum.CircuitError):
            pathsum.assert_same(ONE + "foo q[0];\n", ONE)


class Many(unittest.TestCase):
    def test_in_order(self):
        texts = [ONE + "x q;\n" * count for count in range(8)] + [ONE + "foo q;\n"]
        found = list(pathsum.same_many([(text, ONE) for text in texts], workers=4))
        self.assertEqual([each.verdict for each in found], ["yes", "no"] * 4 + ["refused"])
        self.assertEqual([each.status for each in found], [0, 1] * 4 + [65])


SLOW = "#!/bin/sh\ncat >/dev/null\nsleep 60 &\necho $! >>{pids}\nwait\n"


class Ending(unittest.TestCase):
    """A question that takes too long, or that is cancelled, is ended together with the program."""

    def setUp(self):
        import tempfile

        self.folder = tempfile.TemporaryDirectory()
        self.addCleanup(self.folder.cleanup)
        self.pids = Path(self.folder.name, "pids")
        self.pids.touch()
        path = Path(self.folder.name, "slow")
        path.write_text(SLOW.format(pids=self.pids))
        path.chmod(0o755)
        slow = program.Program(str(path), True, "slow")
        patch = mock.patch("pathsum.program.find_program", lambda: slow)
        patch.start()
        self.addCleanup(patch.stop)

    def started(self):
        end = time.monotonic() + 20
        while time.monotonic() < end and not self.pids.read_text().endswith("\n"):
            time.sleep(0.02)
        return [int(line) for line in self.pids.read_text().split()]

    def assert_ended(self, pid):
        end = time.monotonic() + 20
        while time.monotonic() < end:
            try:
                state = Path(f"/proc/{pid}/stat").read_text().rpartition(")")[2].split()[0]
            except OSError:
                return
            if state == "Z":
                return
            time.sleep(0.02)
        self.fail(f"process {pid} still runs")

    def test_time_limit(self):
        with self.assertRaises(pathsum.TimeLimitError):
            pathsum.same(ONE, ONE, timeout=1.5)
        for pid in self.started():
            self.assert_ended(pid)

    def test_cancelling(self):
        cancel, caught = threading.Event(), []

        def ask():
            try:
                pathsum.same(ONE, ONE, cancel=cancel)
            except pathsum.Cancelled as error:
                caught.append(error)

        asking = threading.Thread(target=ask)
        asking.start()
        pids = self.started()
        self.assertTrue(pids)
        cancel.set()
        asking.join(20)
        self.assertEqual(len(caught), 1)
        for pid in pids:
            self.assert_ended(pid)

    def test_many_that_are_given_up(self):
        cancel = threading.Event()
        threading.Timer(1.0, cancel.set).start()
        found = list(pathsum.same_many([(ONE, ONE)] * 4, workers=2, cancel=cancel))
        self.assertEqual([each.verdict for each in found], ["error"] * 4)
        for pid in self.started():
            self.assert_ended(pid)


if __name__ == "__main__":
    unittest.main()
