"""Each fault once: where it is told in its file, and what is said of it."""
import re
import unittest

import pathsum
from pathsum.faults import MEANINGS, REASONS

from .gates import ROOT

HEAD = 'OPENQASM 2.0;\ninclude "qelib1.inc";\nqreg q[3];\n'
GOOD = HEAD

# name, the text, line and column of the fault, and a part of the advice (None: none is wanted)
CASES = [
    ("BadByte", HEAD + "x q[0]; $\n", 4, 9, None),
    ("BadByte", "OPENQASM 2.0;\nqreg _q[3];\n", 2, 6, "begin with a letter"),
    ("BadByte", HEAD + "x \u03b8[0];\n", 4, 3, "ASCII"),
    ("BadNumber", HEAD + "qreg r[3q];\n", 4, 8, None),
    ("OpenString", 'OPENQASM 2.0;\ninclude "qelib1.inc;\nqreg q[3];\n', 2, 9, None),
    ("Version", "OPENQASM 3.0;\nqubit[3] q;\n", 1, 10, "OpenQASM 3"),
    ("Version", "qreg q[3];\n", 1, 1, "first line"),
    ("Syntax", HEAD + "h q[0]\nh q[1];\n", 5, 1, "`;`"),
    ("Syntax", HEAD + "rx(pi/) q[0];\n", 4, 7, "a number, `pi` or a parameter"),
    ("Syntax", HEAD + "h q[x];\n", 4, 5, "a whole number"),
    ("Syntax", HEAD + "h q[0]", 4, 7, "`;`"),
    ("Syntax", HEAD + "====\n", 4, 1, "a file has one circuit"),
    ("NotUnitary", HEAD + "creg c[3];\nh q[0];\n  measure q -> c;\n", 6, 3, "remove_final_measurements"),
    ("Include", 'OPENQASM 2.0;\ninclude "my.inc";\n', 2, 9, "Paste"),
    ("Opaque", HEAD + "opaque f a;\n", 4, 1, "gate"),
    ("Deep", HEAD + "u1(" + "(" * 129 + "pi" + ")" * 129 + ") q[0];\n", 4, 132, None),
    ("NotDyadic", HEAD + "rz(0.1) q[0];\n", 4, 4, "nearest that can be written is 4272283*pi/134217728"),
    ("NotDyadic", HEAD + "rz(pi/3) q[0];\n", 4, 4, "357913941*pi/1073741824"),
    ("NotDyadic", HEAD + "rz(1.5707963267948966) q[0];\n", 4, 4, "If pi/2 is meant"),
    ("NotDyadic", HEAD + "rz(-0.7854) q[0];\n", 4, 4, "If -pi/4 is meant"),
    ("NotDyadic", HEAD + "gate f(a) b { rz(a/3) b; }\nf(pi) q[0];\n", 5, 1, "One of the gate's angles"),
    ("AngleRange", HEAD + "U(0,0,pi/2^31) q[0];\n", 4, 7, "pi/2^30"),
    ("AngleRange", HEAD + "rz(pi/2^31) q[0];\n", 4, 1, "pi/2^30"),
    ("NoParameter", HEAD + "rz(a) q[0];\n", 4, 4, "Outside of a gate's body"),
    ("NotDyadic", HEAD + "u3(pi,1.5,0) q[0];\n", 4, 1, "512673957*pi/1073741824"),
    ("Function", HEAD + "rz(sin(pi)) q[0];\n", 4, 4, "If 0 is meant"),
    ("Function", HEAD + "rz(sin(1)) q[0];\n", 4, 4, "multiple of pi"),
    ("ByZero", HEAD + "rz(pi/0) q[0];\n", 4, 4, None),
    ("Unknown", "OPENQASM 2.0;\nqreg q[3];\nh q[0];\n", 3, 1, 'include "qelib1.inc";'),
    ("Unknown", HEAD + "sxdg q[0];\n", 4, 1, "gate sxdg a { s a; h a; s a; }"),
    ("Unknown", HEAD + "cxx q[0],q[1];\n", 4, 1, "Is `cx` meant?"),
    ("Unknown", HEAD + "gate frobnicate a { h a; }\nfrobnicat q[0];\n", 5, 1, "Is `frobnicate` meant?"),
    ("Unknown", HEAD + "h r[0];\n", 4, 3, None),
    ("Arity", HEAD + "cx q[0];\n", 4, 1, None),
    ("Arity", HEAD + "U(0,0) q[0];\n", 4, 1, "three angles"),
    ("Redeclared", HEAD + "creg q[1];\n", 4, 6, "once"),
    ("Range", HEAD + "h q[3];\n", 4, 3, "indices are 0 to 2"),
    ("Range", HEAD + "qreg r[0];\n", 4, 8, "1 to"),
    ("RepeatedQubit", HEAD + "cx q[0],q[0];\n", 4, 9, "different"),
    ("Sizes", HEAD + "qreg r[2];\ncx q,r;\n", 5, 6, "`q` has 3, `r` has 2"),
    ("TooMany", HEAD + "qreg r[62];\n", 4, 8, "64 qubits"),
    ("NoQubits", "OPENQASM 2.0;\n// nothing\n", 1, 14, "qreg"),
    ("Widths", "OPENQASM 2.0;\nqreg a[1];\nqreg b[1];\n", 1, 1, "2 qubits (a[1], b[1])"),
]


def fault_of(first, second):
    try:
        pathsum.same(first, second)
    except pathsum.CircuitError as error:
        return error.fault
    raise AssertionError("no fault")


class Faults(unittest.TestCase):
    def check(self, fault, case):
        name, text, line, column, advice = case
        self.assertEqual((fault.name, fault.line, fault.column), (name, line, column), text)
        self.assertTrue(fault.message)
        if name != "Widths":
            self.assertEqual(fault.source, text.split("\n")[line - 1])
        if advice:
            self.assertIn(advice, fault.advice or "")

    def test_in_the_first_circuit(self):
        for case in CASES:
            if case[0] != "Widths":
                with self.subTest(case[1][-40:]):
                    fault = fault_of(case[1], GOOD)
                    self.assertEqual(fault.file, "first circuit")
                    self.check(fault, case)

    def test_in_the_second_circuit(self):
        for case in CASES:
            with self.subTest(case[1][-40:]):
                fault = fault_of(GOOD + "\n\n\n", case[1])
                self.assertEqual(fault.file, "second circuit")
                self.check(fault, case)

    def test_all_are_met(self):
        of_scripts = {"Form", "Session", "Block"}
        self.assertEqual({case[0] for case in CASES} | {"Separator"} | of_scripts, set(MEANINGS))

    def test_shown(self):
        self.assertEqual(
            str(fault_of(GOOD, HEAD + "\tfoo q[0];\n")),
            "second circuit:4:2: Unknown: no gate, register or argument has this name\n"
            "    \tfoo q[0];\n"
            "    \t^\n"
            "A gate that is not in the library is defined with `gate`; docs/VERDICTS.md has bodies to paste for common ones.",
        )

    def test_windows_lines(self):
        fault = fault_of(GOOD, (HEAD + "h q[3];\n").replace("\n", "\r\n"))
        self.assertEqual((fault.line, fault.column, fault.source), (4, 3, "h q[3];"))


class Documents(unittest.TestCase):
    def test_each_name_is_explained(self):
        """Each name that the program can print stands in docs/FAULTS.md and has a sentence."""
        sources = [(ROOT / f"crates/{crate}/specs/Names.antt").read_text() for crate in ("ps_reply", "pathsum")]
        names = re.findall(r'codes "(\w+)"', "".join(sources))
        self.assertGreaterEqual(len(names), 24)
        document = (ROOT / "docs/FAULTS.md").read_text()
        for name in names:
            self.assertIn(f"| `{name}` |", document)
            self.assertIn(name, MEANINGS)

    def test_each_reason_is_explained(self):
        source = (ROOT / "crates/pathsum/specs/Answers.antt").read_text()
        reasons = re.findall(r"why_words [\w.]+ = codes \"(\w+)\"", source)
        self.assertEqual(set(reasons), set(REASONS))
        document = (ROOT / "docs/FAULTS.md").read_text()
        for reason in reasons:
            self.assertIn(f"| `{reason}` |", document)


if __name__ == "__main__":
    unittest.main()
