"""Scripts: what is read, written, asked and told of them. Expected replies are worked by hand."""
import os
import tempfile
import threading
import time
import unittest
from fractions import Fraction
from pathlib import Path

import pathsum
from pathsum import Place, commands_of, run

from .stand_in import StandIns, knows

KNOWN = knows("run", "0")
NEWER = "the program does not know these words yet"
KNOWS_PHASE = knows("run", "0", given="0 ask phase a 1 a 1\n", beside=(64, 65))


def head(qubits):
    return f'OPENQASM 2.0;\ninclude "qelib1.inc";\nqreg q[{qubits}];\n'


def opened(name, qubits, gates=""):
    """The command that opens a circuit, as a script has it."""
    return f"0 open {name}\n{head(qubits)}{gates}.\n"


HADAMARDS = "h q[0];\nh q[0];\n"
DERIVATION = "pathsum 1\nleaf a 0\nomega 0\nleaf a 1\nomega 0\njoin\nhh 0 1\nid b\noverlap\nelim 0\nend\n"
"""That of two Hadamards against nothing."""


def raw(script):
    return [response.raw for response in run(script)]


@unittest.skipUnless(KNOWN, NEWER)
class Sessions(unittest.TestCase):
    def test_each_reply_of_an_edit(self):
        script = opened("g", 2)
        wanted = [("opened 1 missing 0", "opened", {"version": 1, "missing": 0})]
        for text, reply, kind, fields in [
            ("0 splice g 1 0 0\ncx q[0],q[1];\n.\n", "committed 2 missing 1", "committed", {"version": 2, "missing": 1}),
            ("0 show g 2\n", "shown 1\nCX 0 1", "shown", {"items": (("CX 0 1",),)}),
            ("0 splice g 2 0 0\n.\n", "nothing", "nothing", {}),
            ("0 splice g 2 2 1\nx q[0];\n.\n", "span 1", "span", {"length": 1}),
            ("0 retire g 2\n", "latest", "latest", {}),
            ("0 retire g 1\n", "retired", "retired", {}),
            ("0 retire g 1\n", "was retired 6", "was retired", {"entry": 6}),
            ("0 splice g 1 0 0\nx q[0];\n.\n", "stale 2", "stale", {"latest": 2}),
            ("0 show g 1\n", "was retired 6", "was retired", {"entry": 6}),
            ("0 show h 1\n", "no circuit", "no circuit", {}),
            ("0 show g 9\n", "no version 2", "no version", {"latest": 2}),
            ("0 splice g 2 0 1\nrx(pi/3) q[0];\n.\n", "bad NotDyadic 1:4", "bad", {}),
            (opened("g", 2), "name taken 0", "name taken", {"entry": 0}),
        ]:
            script += text
            wanted.append((reply, kind, fields))
        found = run(script)
        self.assertEqual([(each.raw, each.kind) for each in found], [each[:2] for each in wanted])
        numbers = ("version", "missing", "items", "length", "entry", "latest")
        for response, (_, _, fields) in zip(found, wanted):
            self.assertEqual({name: getattr(response, name) for name in numbers if getattr(response, name) is not None}, fields)
        done = [each.verdict == "done" for each in found]
        self.assertEqual(done, [True, True, True] + [False] * 3 + [True] + [False] * 7)
        self.assertEqual([each.earlier.line if each.earlier else None for each in found][7:], [16, None, 16] + [None] * 3 + [1])
        for response in found[3:6]:
            self.assertEqual((response.verdict, response.status), ("refused", 65))
            self.assertRaises(pathsum.UndecidedError, bool, response)
        fault = found[12].fault
        self.assertEqual((fault.name, fault.line, fault.column, fault.source), ("NotDyadic", 25, 4, "rx(pi/3) q[0];"))

    def test_questions(self):
        script = opened("a", 1, HADAMARDS) + opened("b", 1)
        script += "0 ask a 1 b 1\n0 sum a 1\n0 prove a 1 b 1\n" + opened("c", 2) + "0 ask a 1 c 1\n"
        found = run(script)
        self.assertEqual(
            [each.raw for each in found],
            ["opened 1 missing 1", "opened 1 missing 0", "yes", "sum k=0 m=0 P=0 f=x0", "proof 11\n" + DERIVATION[:-1],
             "opened 1 missing 0", "widths 1 2"],
        )
        self.assertEqual([each.verdict for each in found], ["done", "done", "yes", "done", "yes", "done", "refused"])
        self.assertEqual((found[3].sum.scale, found[3].sum.variables, found[3].sum.terms), (0, 0, 0))
        self.assertEqual((found[4].kind, found[4].answer.derivation), ("yes", DERIVATION))
        self.assertEqual((found[4].answer.first, found[4].answer.second), ("a 1", "b 1"))
        self.assertEqual((found[6].first_qubits, found[6].second_qubits), (1, 2))
        replayed = pathsum.replay(head(1) + HADAMARDS, head(1), found[4].answer)
        self.assertTrue(replayed)

    def test_a_derivation_of_several_parts(self):
        """Nine items, of which the last has no gates, are leaves of 8 and 1: two leaves and a branch."""
        gates = "gate nop a { }\n" + "id q[0];\n" * 8 + "nop q[0];\n"
        first, proof = run(opened("a", 1, gates) + "0 prove a 1 a 1\n")
        lines = proof.answer.derivation.split("\n")[:-1]
        self.assertEqual((first.missing, proof.raw.split("\n")[0], len(lines)), (3, "proof 38", 38))
        self.assertEqual((lines[16:18], lines[-1]), (["id a", "join"], "end"))
        self.assertTrue(pathsum.replay(head(1) + gates, head(1) + gates, proof.answer))

    def test_what_an_edit_leaves_is_kept(self):
        """Leaves of 8, 8 and 1 items with two branches; then leaves of 5, 3, 8 and 1, of which the last two are kept."""
        found = run(opened("a", 1, "t q[0];\n" * 17) + "0 ask a 1 a 1\n0 splice a 1 4 5\ns q[0];\n.\n0 ask a 1 a 2\n")
        self.assertEqual([each.raw for each in found], ["opened 1 missing 5", "yes", "committed 2 missing 5", "no 1"])
        self.assertEqual(str(found[3].where), "q=1")
        self.assertEqual([bool(each) for each in found], [True, True, True, False])

    @unittest.skipUnless(KNOWS_PHASE, NEWER)
    def test_up_to_a_phase(self):
        script = opened("a", 1, "rx(pi) q[0];\n") + opened("b", 1, "x q[0];\n") + opened("phase", 1)
        script += "0 ask a 1 b 1\n0 ask phase a 1 b 1\n0 ask phase 1 a 1\n"
        self.assertEqual(raw(script)[3:], ["no 0", "yes phase 1/4", "no 0"])

    def test_unknown(self):
        response = run(opened("a", 1, "h q[0];\nt q[0];\nh q[0];\n") + opened("b", 1) + "0 ask a 1 b 1\n")[2]
        self.assertEqual((response.kind, response.verdict, response.status), ("unknown", "unknown", 2))
        self.assertEqual(response.answer.remaining.text, "k=2 m=1 P=7/8*y0 f=-")
        with self.assertRaises(pathsum.UndecidedError):
            bool(response)

    def test_items_of_several_gates_and_of_none(self):
        gates = "gate both a { U(0,0,0) a; U(0,0,pi) a; }\ngate none a { }\nboth q[0];\nnone q[0];\n"
        response = run(opened("a", 1, gates) + "0 show a 1\n")[1]
        self.assertEqual(response.raw, "shown 2\nU 0,0,0 0; U 0,0,1073741824 0\n-")
        self.assertEqual(response.items, (("U 0,0,0 0", "U 0,0,1073741824 0"), ()))

    def test_questions_that_are_refused(self):
        """`no circuit` and `no version` are no answers."""
        script = opened("a", 1) + "0 ask a 1 b 1\n0 prove b 1 a 1\n0 ask a 1 a 2\n0 sum b 1\n0 sum a 0\n"
        script += "0 splice a 1 0 0\nx q[0];\n.\n0 retire a 1\n0 ask a 2 a 1\n"
        found = run(script)
        self.assertEqual([(each.raw, each.kind) for each in found[1:6]], [("no circuit", "no circuit")] * 2
                         + [("no version 1", "no version"), ("no circuit", "no circuit"), ("no version 1", "no version")])
        self.assertEqual({each.verdict for each in found[1:6]}, {"refused"})
        self.assertEqual((found[8].kind, found[8].earlier.line), ("was retired", 14))

    def test_limits(self):
        self.assertEqual(raw("".join(opened(f"c{at}", 1) for at in range(257)))[255:], ["opened 1 missing 0", "circuits full"])
        many = run(opened("g", 64, "x q;\n" * 1025))
        self.assertEqual((many[0].raw, many[0].fault.line, many[0].fault.column), ("bad TooMany 1028:1", 1029, 1))
        found = run(opened("g", 64, "x q;\n" * 1024) + "0 splice g 1 0 0\nx q[0];\n.\n")
        self.assertEqual([each.raw for each in found], ["opened 1 missing 16383", "too long 65537"])
        self.assertEqual(found[1].length, 65537)

    def test_a_full_journal(self):
        with self.assertRaises(pathsum.FullError) as caught:
            run("0 show h 1\n" * 262_145)
        self.assertEqual(caught.exception.status, 69)
        self.assertEqual({each.raw for each in caught.exception.responses}, {"no circuit"})
        self.assertEqual((len(caught.exception.responses), len(caught.exception.left)), (262_144, 1))

    def test_too_long(self):
        with self.assertRaisesRegex(pathsum.TooLongError, "the script has 16,777,217 bytes"):
            run(b"#" * 16_777_217)
        self.assertEqual(run(b"#" * 16_777_216), [])

    def test_sessions_side_by_side(self):
        """Each session has its replies in its own order. Whether session 0 has opened `a` before session 7 asks is open."""
        found = run(opened("a", 1) + "7 show a 2\n0 show a 1\n7 show b 1\n15 show a 1\n")
        first, second = [each.raw for each in found if each.session == 7]
        self.assertIn(first, ["no version 1", "no circuit"])
        self.assertEqual(second, "no circuit")
        self.assertEqual([each.raw for each in found if each.session == 0], ["opened 1 missing 0", "shown 0"])


class Reading(unittest.TestCase):
    def test_commands(self):
        script = "# one\n\n0 open g_1\nOPENQASM 2.0;\n# in the block\n\n.\n15 splice g_1 1 0 4294967295\n.\n0 retire g_1 0\n"
        script += "1 ask a 1 b 2\n1 ask phase a 1 b 2\n1 ask phase 1 b 2\n2 prove a 1 b 2\n3 sum a 4\n4 show a 5"
        found = commands_of(script + "\n")
        self.assertEqual(
            [(each.line, each.session, each.word, each.places, each.span) for each in found],
            [
                (3, 0, "open", (Place("g_1", 1),), None),
                (8, 15, "splice", (Place("g_1", 1),), (0, 4294967295)),
                (10, 0, "retire", (Place("g_1", 0),), None),
                (11, 1, "ask", (Place("a", 1), Place("b", 2)), None),
                (12, 1, "ask phase", (Place("a", 1), Place("b", 2)), None),
                (13, 1, "ask", (Place("phase", 1), Place("b", 2)), None),
                (14, 2, "prove", (Place("a", 1), Place("b", 2)), None),
                (15, 3, "sum", (Place("a", 4),), None),
                (16, 4, "show", (Place("a", 5),), None),
            ],
        )
        self.assertEqual([each.block and each.block.data for each in found[:3]], [b"OPENQASM 2.0;\n# in the block\n\n", b"", None])
        self.assertEqual([each.block_line for each in found[:2]], [4, 9])
        lines = script.split("\n")
        self.assertEqual([str(each) for each in found], [lines[each.line - 1] for each in found])
        self.assertEqual(commands_of(script.encode()), found)

    def test_line_ends(self):
        found = commands_of(b"0 open g\r\nqreg q[1];\r\n. \r\n.\r\n\r\n0 show g 1")
        self.assertEqual([str(each) for each in found], ["0 open g", "0 show g 1"])
        self.assertEqual(found[0].block.data, b"qreg q[1];\r\n. \r\n")
        self.assertEqual(commands_of(b"0 splice g 1 0 1\n."), commands_of(b"0 splice g 1 0 1\n.\n"))

    def test_a_path(self):
        with tempfile.TemporaryDirectory() as folder:
            path = Path(folder, "a.script")
            path.write_bytes(b"\xef\xbb\xbf0 show g 1\n0 shew g 1\n")
            for given in (path, str(path)):
                with self.assertRaises(pathsum.ScriptError) as caught:
                    commands_of(given)
                self.assertEqual((caught.exception.fault.file, caught.exception.fault.line), (str(path), 2))
            with self.assertRaises(pathsum.UnreadableError):
                commands_of(Path(folder))
        for given in (None, "", 7):
            with self.assertRaises(pathsum.UsageError):
                commands_of(given)


# a script, the name of its fault, the fault's line, and a part of what is said of it
REFUSED = [
    (b"16 show g 1\n", "Session", 1, "0 to 15"),
    (b"0 show g\n", "Form", 1, "`S show NAME VERSION`"),
    (b"0 open g\n", "Block", 1, "a single `.`"),
    (b"0 open g\nx\n. \n", "Block", 1, "a single `.`"),
    (b"16 open g\n", "Session", 1, "0 to 15"),
    (b"4294967296 show g 1\n", "Form", 1, "no session"),
    (b"00 show g 1\n", "Form", 1, "`00` is no session"),
    (b"show g 1\n", "Form", 1, "begins with its session"),
    (b"0\n", "Form", 1, "missing"),
    (b"0 shew g 1\n", "Form", 1, "Is `show` meant?"),
    (b"0 frobnicate\n", "Form", 1, "The commands are open, splice,"),
    (b"0 show g 1\n\n# c\n0  show g 1\n0 shew\n", "Form", 4, "one space"),
    (b"0 show g 1 \n", "Form", 1, "one space"),
    (b"0\tshow g 1\n", "Form", 1, "one space"),
    (b" # c\n", "Form", 1, "one space"),
    (b"0 show G 1\n", "Form", 1, "`G` is no name"),
    (b"0 show " + b"g" * 33 + b" 1\n", "Form", 1, "at most 32"),
    (b"0 show _ 1\n", "Form", 1, "lower-case"),
    (b"0 show g 01\n", "Form", 1, "no 0 in front"),
    (b"0 show g 4294967296\n", "Form", 1, "at most 4,294,967,295"),
    (b"0 show g -1\n", "Form", 1, "no number (VERSION)"),
    (b"0 splice g 1 0 x\n.\n", "Form", 1, "`x` is no number (TO)"),
    (b"0 ask a 1 b\n", "Form", 1, "`ask` has 4 words behind it, and here it has 3"),
    (b"0 ask phase a 1 b\n", "Form", 1, "`a` is no number"),
    (b"0 show g 1\r", "Form", 1, "alone in its line"),
    (b"0 open g\n.\r", "Block", 1, "a single `.`"),
    (b"0 show \xff 1\n", "Form", 1, "is no name"),
    (b"0 open g\n0 show g 1\n.\n.\n", "Form", 4, "no session"),
]


class Refused(unittest.TestCase):
    def check(self, ask, case):
        data, name, line, said = case
        with self.assertRaises(pathsum.ScriptError) as caught:
            ask(data)
        fault = caught.exception.fault
        self.assertEqual((fault.name, fault.file, fault.line, fault.column), (name, "script", line, 1))
        self.assertIn(said, f"{fault.message} {fault.advice}")
        self.assertEqual(fault.source, data.split(b"\n")[line - 1].decode("utf-8", "replace"))

    def test_by_the_package(self):
        for case in REFUSED:
            with self.subTest(case[0]):
                self.check(commands_of, case)

    @unittest.skipUnless(KNOWN, NEWER)
    def test_by_the_program(self):
        for case in REFUSED:
            with self.subTest(case[0]):
                self.check(run, case)


class Builder(unittest.TestCase):
    def test_each_command(self):
        script = pathsum.Script()
        script.open("g", head(1))
        script.open("h", head(1), session=1)
        script.splice("g", 1, 0, 0, "h q[0];", session=3)
        script.splice("g", 2, 0, 1)
        script.splice("g", 3, 0, 1, b"")
        script.retire("g", 1, session=4)
        script.show("g", 2, session=5)
        script.sum("g", 2, session=6)
        script.ask("g", 2, "h", 3, session=7)
        script.ask("g", 2, "h", 3, phase=True, session=15)
        last = script.prove("g", 2, "h", 3, session=8)
        self.assertEqual(
            script.data.decode(),
            f"0 open g\n{head(1)}.\n1 open h\n{head(1)}.\n3 splice g 1 0 0\nh q[0];\n.\n0 splice g 2 0 1\n.\n"
            "0 splice g 3 0 1\n.\n4 retire g 1\n5 show g 2\n6 sum g 2\n7 ask g 2 h 3\n15 ask phase g 2 h 3\n8 prove g 2 h 3\n",
        )
        script = pathsum.Script()
        for add in (script.retire, script.show, script.sum):
            add("g", 1)
        script.ask("g", 1, "h", 2)
        script.prove("g", 1, "h", 2)
        self.assertEqual({command.session for command in script.commands}, {0})

    def test_a_script_that_is_read_again(self):
        script = pathsum.Script()
        script.open("g", head(1))
        script.splice("g", 1, 0, 0, "h q[0];")
        last = script.ask("g", 1, "g", 2)
        again = commands_of(script.data)
        self.assertEqual([(str(each), each.line) for each in again], [(str(each), each.line) for each in script.commands])
        self.assertIs(script.commands[-1], last)

    def test_what_is_no_command(self):
        script = pathsum.Script()
        for wrong in [
            lambda: script.show("G", 1),
            lambda: script.show("a b", 1),
            lambda: script.show("g", -1),
            lambda: script.show("g", 1.0),
            lambda: script.show("g", 1 << 32),
            lambda: script.show("g", 1, session=16),
            lambda: script.show("g\n0", 1),
            lambda: script.ask("phase a", 1, "b", 2),
            lambda: script.open("g", 7),
            lambda: script.open("g", ""),
            lambda: script.splice("g", 1, None, 2),
        ]:
            with self.assertRaises(pathsum.UsageError):
                wrong()
        with self.assertRaises(pathsum.UnreadableError):
            script.open("g", "missing.qasm")
        self.assertEqual((script.commands, script.data), ((), b""))

    def test_sources(self):
        class Written:
            def qasm(self):
                return head(1)

        script = pathsum.Script()
        with tempfile.TemporaryDirectory() as folder:
            path = Path(folder, "a.qasm")
            path.write_text(head(1))
            for source in (head(1), head(1).encode(), path, str(path), Written(), pathsum.Circuit("c", head(1).encode())):
                script.open("g", source)
        script.open("g", 7, to_qasm=lambda number: head(1))
        self.assertEqual(script.data.decode(), f"0 open g\n{head(1)}.\n" * 7)
        self.assertEqual([each.line for each in script.commands], [1, 6, 11, 16, 21, 26, 31])

    def test_blocks_that_would_end_early(self):
        script = pathsum.Script()
        script.splice("g", 1, 0, 0, "h q[0];\n.\r\nx q[0];\n.\n")
        self.assertEqual(script.data, b"0 splice g 1 0 0\nh q[0];\n. .\nx q[0];\n. .\n.\n")

    @unittest.skipUnless(KNOWN, NEWER)
    def test_run(self):
        """A response is told by its command, and a fault by the place in its own source."""
        with tempfile.TemporaryDirectory() as folder:
            path = Path(folder, "gates.qasm")
            path.write_text("x q[0];\nh q[3];\n")
            script = pathsum.Script()
            script.open("g", head(2))
            bad = script.splice("g", 1, 0, 0, path)
            dot = script.splice("g", 1, 0, 0, "x q[0];\n.\n")
            text = script.open("h", head(1) + "foo q[0];\n")
            good = script.splice("g", 1, 0, 0, "x q;")
            found = {response.command: response for response in run(script)}
            self.assertEqual(found[good].raw, "committed 2 missing 1")
            for command, wanted in [
                (bad, (str(path), "Range", 2, 3, "h q[3];")),
                (dot, ("splice of g 1", "BadByte", 2, 1, ".")),
                (text, ("circuit h", "Unknown", 4, 1, "foo q[0];")),
            ]:
                fault = found[command].fault
                self.assertEqual((fault.file, fault.name, fault.line, fault.column, fault.source), wanted)
            self.assertIn("indices are 0 to 1", found[bad].fault.advice)


@unittest.skipUnless(KNOWN, NEWER)
class Blocks(unittest.TestCase):
    """What is said of a fault in the gates of a splice knows the text with which its circuit was opened."""

    def test_faults(self):
        plain = "OPENQASM 2.0;\nqreg q[2];\n"
        own = head(2) + "gate frobnicate a { h a; }\n"
        for text, block, name, line, column, said in [
            (head(2), "h q[0];\nh q[2];\n", "Range", 2, 3, "indices are 0 to 1"),
            (plain, "h q[0];\n", "Unknown", 1, 1, "of the text with which the circuit is opened"),
            (head(2), "sxdg q[0];\n", "Unknown", 1, 1, "gate sxdg a"),
            (own, "frobnicat q[0];\n", "Unknown", 1, 1, "Is `frobnicate` meant?"),
            (head(2), "h q[0]\n", "Syntax", 1, 7, "What could stand here: `,` or `;`."),
            (head(2), ";\n", "Syntax", 1, 1, "the end of the block, `barrier` or a gate's name"),
            (head(2), "qreg r[1];\n", "Syntax", 1, 1, "applications alone"),
            (head(2), head(2), "Syntax", 1, 1, "applications alone"),
            (head(2), "measure q[0] -> c[0];\n", "NotUnitary", 1, 1, "remove_final_measurements"),
            (head(2), "rx(0.7854) q[0];\n", "NotDyadic", 1, 4, "If pi/4 is meant"),
            (head(2), "cx q[0],q[0];\n", "RepeatedQubit", 1, 9, "different"),
        ]:
            with self.subTest(block):
                script = pathsum.Script()
                script.open("g", text)
                script.splice("g", 1, 0, 0, block)
                fault = run(script)[1].fault
                self.assertEqual((fault.name, fault.line, fault.column), (name, line, column))
                self.assertIn(said, f"{fault.message} {fault.advice}")


class StandIn(StandIns):
    """Replies that are rare, newer or wrong."""

    def replies(self, script, text, status=0):
        self.stand_in(run_0=(text, status))
        return run(script)

    def test_phase(self):
        script = opened("a", 2) + "0 ask phase a 1 a 1\n" * 3
        _, yes, pair, no = self.replies(script, "0 opened 1 missing 0\n0 yes phase 3/4\n0 no 01 10\n0 no 11")
        self.assertEqual((yes.verdict, yes.answer.phase, yes.answer.question), ("yes", Fraction(3, 4), "phase"))
        self.assertEqual((pair.where.bits, pair.answer.second_input.bits), ("01", "10"))
        self.assertEqual((no.where.bits, no.answer.second_input), ("11", None))
        self.assertIn("3/4 of a turn", yes.explain())

    def test_a_program_that_knows_no_phase(self):
        with self.assertRaises(pathsum.ScriptError) as caught:
            self.replies("# c\n0 ask phase a 1 a 1\n", "input Form 2:1", 65)
        self.assertIn("script:2:1: Form: the program that answers does not know this command", str(caught.exception))

    def test_limits(self):
        script = opened("a", 1) + "0 sum a 1\n0 sum a 1\n0 ask a 1 a 1\n0 ask a 1 a 1\n0 ask a 1 a 1\n"
        replies = "0 opened 1 missing 1\n0 sum passed terms 70000\n0 sum passed variables 513\n0 unknown passed terms 70000\n"
        found = self.replies(script, replies + "0 no room 8388609\n0 memory")
        self.assertEqual([each.verdict for each in found], ["done", "unknown", "unknown", "unknown", "refused", "refused"])
        self.assertEqual([each.limit and (each.limit.what, each.limit.count) for each in found[1:4]],
                         [("terms", 70000), ("variables", 513), None])
        self.assertEqual((found[3].answer.limit.count, found[4].total, found[5].kind), (70000, 8388609, "memory"))

    def test_sessions_that_interleave(self):
        script = opened("a", 1) + "1 show a 1\n0 show a 2\n1 show b 1\n"
        found = self.replies(script, "1 no circuit\n0 opened 1 missing 0\n1 no circuit\n0 no version 1")
        self.assertEqual([each.command.line for each in found], [6, 1, 8, 7])

    def test_full(self):
        script = "0 show a 1\n1 show a 1\n0 show a 2\n"
        with self.assertRaises(pathsum.FullError) as caught:
            self.replies(script, "1 no circuit\nfull", 69)
        self.assertEqual([str(each.command) for each in caught.exception.responses], ["1 show a 1"])
        self.assertEqual([str(each) for each in caught.exception.left], ["0 show a 1", "0 show a 2"])

    def test_what_is_no_reply(self):
        script = opened("a", 1) + "0 show a 1\n"
        good = "0 opened 1 missing 0\n0 shown 1\nCX 0 1"
        self.assertEqual(len(self.replies(script, good)), 2)
        for text in [
            "",
            "0 opened 1 missing 0",
            "0 opened 2 missing 0\n0 shown 0",
            "1 opened 1 missing 0\n0 shown 0",
            "0 opened 1 missing 0\n0 shown 2\nCX 0 1",
            good + "\n0 shown 0",
            good + "\nfull",
            "0 opened 1 missing 0\n0 yes",
            "0 opened 1 missing 0\n0 proof 1\nend",
            "0 opened 1 missing 0\n0 sum k=0 m=0 P=0 f=x0",
            "0 opened 1 missing 0\n0 bad Syntax 1:1",
            "0 bad Syntax 1\n0 no circuit",
            "0 maybe\n0 no circuit",
            "0 no circuit\n0 opened 1 missing 0",
            "0 retired\n0 no circuit",
            "0 opened 1 missing 0\n0 committed 2 missing 0",
        ]:
            with self.subTest(text), self.assertRaises(pathsum.ProgramError):
                self.replies(script, text)

    def test_no_replies(self):
        for text, status, kind, said in [
            ("words", 64, pathsum.NotKnownError, "does not know"),
            ("too long", 68, pathsum.TooLongError, "the script has more"),
            ("memory", 70, pathsum.ProgramError, "memory"),
            ("0 no circuit", 67, pathsum.ProgramError, "no answer"),
            ("0 no circuit", 1, pathsum.ProgramError, "no answer"),
        ]:
            with self.subTest(text), self.assertRaisesRegex(kind, said):
                self.replies("0 show a 1\n", text, status)

    def test_words(self):
        """Each reply in words, on its first line."""
        script = opened("a", 1) + "0 splice a 1 0 0\n.\n" * 6 + "0 retire a 1\n" * 4 + "0 show a 1\n" * 3 + "0 sum a 1\n0 ask a 1 a 2\n"
        replies = "opened 1 missing 2|committed 2 missing 0|stale 2|span 3|too long 70000|nothing|memory|retired|latest|"
        replies += "was retired 1|no version 1|shown 1\n-|no room 9000000|no circuit|sum k=0 m=0 P=0 f=x0|widths 1 2"
        found = self.replies(script, "\n".join("0 " + each for each in replies.split("|")))
        wanted = [
            "version 1, of which 2 parts have no sum yet",
            "version 2",
            "a 1 is not the latest version, which is 2: splice that",
            "the version has 3 items: FROM is at most TO, and TO at most 3",
            "it would have 70,000 items, and a circuit has at most 65,536",
            "nothing is taken out and nothing put in",
            "memory ran out; no circuit was changed",
            "nothing can be asked about it any more",
            "the latest version can't be retired",
            "the version a 1 was retired before, at line 18",
            "there is no version a 1: the latest is 1",
            "1 item\n-",
            "9,000,000 terms would be kept in this run, and at most 8,388,608 are: split the script",
            "there is no circuit `a`",
            "k=0 m=0 P=0 f=x0",
            "a 1 has 1 qubit, and a 2 has 2 qubits: only on as many can they be compared",
        ]
        self.assertEqual([each.explain() for each in found], wanted)

    def test_words_of_answers(self):
        script = opened("a", 1) + "0 prove a 1 a 1\n0 ask a 1 a 1\n0 ask a 1 a 1\n" + opened("a", 1)
        replies = "0 opened 1 missing 0\n0 proof 2\npathsum 1\nend\n0 no 1\n0 unknown stuck k=2 m=1 P=7/8*y0 f=-\n0 name taken 0"
        _, proof, no, unknown, taken = self.replies(script, replies)
        self.assertIn("\nA derivation of 2 lines shows it; --full prints it.", proof.explain())
        self.assertTrue(proof.explain(full=True).endswith("\npathsum 1\nend"))
        self.assertEqual(no.explain(), "At the basis input q[0]=1 the two circuits give different states.")
        self.assertTrue(unknown.explain().startswith("stuck k=2 m=1 P=7/8*y0 f=-\nNeither was shown: "))
        self.assertEqual(taken.explain(), "a circuit `a` was opened before, at line 1")


class Ending(StandIns):
    """A run ends early, and the program with it."""

    def setUp(self):
        folder = tempfile.TemporaryDirectory()
        self.addCleanup(folder.cleanup)
        self.told = Path(folder.name, "pid")
        self.take(f"#!/bin/sh\necho $$ >{self.told}\nexec sleep 60\n")

    def check_ended(self):
        with self.assertRaises(ProcessLookupError):
            os.kill(int(self.told.read_text()), 0)

    def test_timeout(self):
        with self.assertRaises(pathsum.TimeLimitError):
            run("0 show a 1\n", timeout=1)
        self.check_ended()

    def test_cancel(self):
        cancel = threading.Event()

        def when_started():
            end = time.monotonic() + 20
            while time.monotonic() < end and not (self.told.exists() and self.told.read_text()):
                time.sleep(0.02)
            cancel.set()

        threading.Thread(target=when_started, daemon=True).start()
        with self.assertRaises(pathsum.Cancelled):
            run("0 show a 1\n", cancel=cancel, timeout=30)
        self.check_ended()


if __name__ == "__main__":
    unittest.main()
