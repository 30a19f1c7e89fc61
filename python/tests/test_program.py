"""The built program hands on every word, and ends with the status of its answer."""
import os
import subprocess
import unittest

import pathsum

HEAD = b"OPENQASM 2.0;\nqreg q[1];\n"
SAME = HEAD + b"====\n" + HEAD
DERIVATION = b"pathsum 1\nid a\nid b\noverlap\nelim 0\nend\n"


def run(words, given=b"", **how):
    how = {"stdout": subprocess.PIPE, "stderr": subprocess.PIPE, **how}
    child = subprocess.Popen([pathsum.find_program().path, *words], stdin=subprocess.PIPE, **how)
    output, _ = child.communicate(given)
    return child.returncode, output


class Program(unittest.TestCase):
    def test_words(self):
        """One word that is a command is one; none, two, and others are `words`: so all of them are handed on."""
        for words in ([], ["same", "same"], ["same", "x"], ["", "same"], ["same", ""], ["saem"], ["Same"], [""], ["same", "prove"],
                      [b"\xff"], [b"same\xff"], ["same", b"\xff"], [b"\xff", "same"]):
            with self.subTest(words):
                self.assertEqual(run(words, SAME), (64, b"words\n"))
        self.assertEqual(run(["same"], SAME), (0, b"yes\n"))
        self.assertEqual(run(["prove"], SAME), (0, DERIVATION))
        self.assertEqual(run(["replay"], SAME + b"====\n" + DERIVATION), (0, b"accepted\n"))

    def test_statuses(self):
        x = HEAD + b"U(pi,0,pi) q[0];\n"
        hth = HEAD + b"U(pi/2,0,pi) q[0];\nU(0,0,pi/4) q[0];\nU(pi/2,0,pi) q[0];\n"
        for words, given, status, output in [
            (["same"], x + b"====\n" + HEAD, 1, b"no 0\n"),
            (["replay"], SAME + b"====\npathsum 1\n", 1, b"rejected 2 Cut\n"),
            (["same"], hth + b"====\n" + HEAD, 2, b"unknown stuck k=2 m=1 P=7/8*y0 f=-\n"),
            (["same"], HEAD, 65, b"input Separator 3:1\n"),
            (["prove"], b"", 65, b"input Separator 1:1\n"),
            (["same"], HEAD + b"y q[0];\n====\n" + HEAD, 65, b"input Unknown 3:1\n"),
            (["same"], b" " * 16_777_217, 68, b"too long\n"),
        ]:
            with self.subTest(given[:80]):
                self.assertEqual(run(words, given), (status, output))

    def test_input_that_cannot_be_read(self):
        child = subprocess.Popen(
            [pathsum.find_program().path, "same"], stdin=os.open("/", os.O_RDONLY), stdout=subprocess.PIPE
        )
        self.assertEqual((child.communicate()[0], child.returncode), (b"read\n", 66))

    def test_output_that_nobody_reads(self):
        reading, writing = os.pipe()
        os.close(reading)
        try:
            # (a signal is what Python, and most shells, leave as it is)
            self.assertEqual(run(["same"], SAME, stdout=writing, restore_signals=False)[0], 67)
        finally:
            os.close(writing)

    def test_output_that_is_full(self):
        with open("/dev/full", "wb") as full:
            self.assertEqual(run(["same"], SAME, stdout=full)[0], 67)


if __name__ == "__main__":
    unittest.main()
