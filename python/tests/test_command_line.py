"""The command line: each verdict, each wrong use with one sentence and its status, records, and odd places to stand."""
import json
import os
import pty
import re
import signal
import subprocess
import sys
import tempfile
import time
import unittest
from pathlib import Path

from pathsum.scripts import PATTERNS

from .gates import ROOT
from .stand_in import StandIns, knows

TOOL = ROOT / "tools/pathsum"
EXAMPLES = ROOT / "examples"
ONE = 'OPENQASM 2.0;\ninclude "qelib1.inc";\nqreg q[1];\n'
X = ONE + "x q[0];\n"
HTH = ONE + "h q[0];\nt q[0];\nh q[0];\n"


def run(*words, given="", tool=TOOL, cwd=None):
    child = subprocess.run(
        [sys.executable, str(tool), *map(str, words)], input=given, capture_output=True, text=True, cwd=cwd, timeout=300
    )
    return child.returncode, child.stdout, child.stderr


class CommandLine(unittest.TestCase):
    def setUp(self):
        made = tempfile.TemporaryDirectory()
        self.addCleanup(made.cleanup)
        self.folder = Path(made.name)

    def file(self, name, text):
        path = self.folder / name
        path.parent.mkdir(parents=True, exist_ok=True)
        path.write_text(text)
        return path

    def files(self):
        return self.file("one.qasm", ONE), self.file("x.qasm", X), self.file("hth.qasm", HTH)

    def test_compare(self):
        one, x, hth = self.files()
        self.assertEqual(run("compare", EXAMPLES / "toffoli_by_hand.qasm", EXAMPLES / "toffoli.qasm")[::2], (0, ""))
        for second, status, head in [(one, 0, "yes\n"), (x, 1, "no 0\n"), (hth, 2, "unknown stuck k=2 m=1 P=")]:
            found = run("compare", one, second)
            self.assertEqual((found[0], found[2]), (status, ""))
            self.assertTrue(found[1].startswith(head))
            self.assertGreater(found[1].count("\n"), 1)
            self.assertNotIn("\x1b", found[1])

    def test_prove_and_replay(self):
        one, x, hth = self.files()
        status, derivation, _ = run("prove", one, one)
        self.assertEqual((status, derivation[:10], derivation[-5:]), (0, "pathsum 1\n", "\nend\n"))
        proof = self.file("one.proof", derivation)
        self.assertEqual(run("replay", one, one, proof)[0], 0)
        self.assertEqual(run("replay", one, one, "-", given=derivation)[1].split("\n")[0], "accepted")
        self.assertEqual(run("replay", one, one, one)[:1] + (run("replay", one, one, one)[1].split("\n")[0],), (1, "rejected 1 Form"))
        self.assertEqual(run("prove", one, x)[0], 1)
        self.assertEqual(run("prove", one, hth)[0], 2)

    def test_json(self):
        one, x, _ = self.files()
        status, output, _ = run("compare", "--json", one, x)
        record = json.loads(output)
        self.assertEqual((status, record["status"], record["verdict"], record["input"]["bits"]), (1, 1, "no", "0"))
        bad = self.file("bad.qasm", ONE + "foo q[0];\n")
        status, output, complaint = run("compare", one, bad, "--json")
        record = json.loads(output)
        self.assertEqual((status, record["verdict"], complaint), (65, "refused", ""))
        fault = record["fault"]
        self.assertEqual((fault["name"], fault["file"], fault["line"], fault["column"]), ("Unknown", str(bad), 4, 1))
        status, output, _ = run("compare", "--json", one)
        self.assertEqual((status, json.loads(output)["verdict"]), (64, "error"))
        self.assertEqual(json.loads(run("replay", "--json", one, one, one)[1])["reason"], "Form")

    def test_a_fault_is_told_in_its_file(self):
        one, *_ = self.files()
        bad = self.file("bad.qasm", ONE + "\nfoo q[0];\n")
        for words in ((one, bad), (bad, one)):
            status, output, complaint = run("compare", *words)
            self.assertEqual((status, output), (65, ""))
            self.assertTrue(complaint.startswith(f"{bad}:5:1: Unknown: "), complaint)
            self.assertIn("\n    foo q[0];\n    ^\n", complaint)

    def test_wrong_uses(self):
        one, *_ = self.files()
        secret = self.file("secret.qasm", ONE)
        secret.chmod(0)
        unreadable = [] if os.access(secret, os.R_OK) else [(66, ("compare", one, secret))]
        self.file("three.txt", "one.qasm x.qasm hth.qasm\n")
        for status, words in [
            (64, ()),
            (64, ("frobnicate",)),
            (64, ("compare", one)),
            (64, ("compare", one, one, one)),
            (64, ("compare", "--frobnicate", one, one)),
            (64, ("compare", "--timeout", "soon", one, one)),
            (64, ("compare", "--timeout", "-1", one, one)),
            (64, ("compare", "-", "-")),
            (64, ("replay", one, "-", "-")),
            (64, ("batch", one, one)),
            (64, ("batch", self.folder)),
            (64, ("batch", self.folder / "three.txt")),
            (64, ("batch", "--workers", "0", self.folder, self.folder)),
            (66, ("compare", one, self.folder)),
            (66, ("compare", one, self.folder / "missing.qasm")),
            (66, ("compare", one, "a\nb")),
            (66, ("replay", one, one, self.folder)),
            (66, ("batch", self.folder / "missing.txt")),
            *unreadable,
        ]:
            with self.subTest(words):
                found = run(*words)
                self.assertEqual((found[0], found[1]), (status, ""), found[2])
                self.assertRegex(found[2], r"\Apathsum: [^\n]+\n\Z" if words[-1:] != ("a\nb",) else r"\Apathsum: ")

    def test_standard_input(self):
        one, x, _ = self.files()
        self.assertEqual(run("compare", "-", one, given=X)[0], 1)
        self.assertEqual(run("compare", x, "-", given=X)[0], 0)
        complaint = run("compare", x, "-", given=ONE + "foo q;\n")[2]
        self.assertTrue(complaint.startswith("standard input:4:1: Unknown: "))

    def test_batch(self):
        one, x, hth = self.files()
        listed = self.file("pairs.txt", "# pairs\none.qasm one.qasm\n\none.qasm x.qasm  # differ\n'one.qasm' hth.qasm\n")
        status, output, complaint = run("batch", listed, "--workers", "2")
        lines = output.split("\n")
        self.assertEqual((status, complaint), (1, ""))
        self.assertEqual([line.split()[0] for line in lines[:3]], ["yes", "no", "unknown"])
        self.assertEqual(lines[3:], ["3 pairs: 1 yes, 1 no, 1 unknown", ""])
        self.file("before/a.qasm", ONE)
        self.file("after/a.qasm", ONE)
        self.assertEqual(run("batch", self.folder / "before", self.folder / "after")[0], 0)
        self.file("before/deep/b.qasm", X)
        status, output, _ = run("batch", "--json", self.folder / "before", self.folder / "after")
        record = json.loads(output)
        self.assertEqual((status, record["status"], record["counts"]["yes"], record["counts"]["error"]), (65, 65, 1, 1))
        self.assertTrue(record["pairs"][1]["second"].endswith("after/deep/b.qasm"))

    def test_batch_statuses(self):
        self.files()
        for lines, status in [("one one", 0), ("one one\none hth", 2), ("one hth\none x", 1), ("one x\none missing", 65)]:
            listed = self.file("pairs.txt", re.sub(r"(\w+)", r"\1.qasm", lines))
            self.assertEqual(run("batch", listed)[0], status)

    def test_help_and_version(self):
        for words in (("--help",), ("compare", "--help"), ("batch", "--help")):
            status, output, complaint = run(*words)
            self.assertEqual((status, complaint), (0, ""))
            self.assertIn("exit status", output)
        self.assertRegex(run("--version")[1], r"\Apathsum [0-9.]+, asking /")

    def test_links_and_places(self):
        one, x, _ = self.files()
        linked = self.folder / "linked"
        linked.symlink_to(TOOL)
        self.assertEqual(run("compare", "one.qasm", "x.qasm", tool=linked, cwd=self.folder)[0], 1)
        self.file("odd place/-name.qasm", ONE)
        self.assertEqual(run("compare", "--", "-name.qasm", "-name.qasm", cwd=self.folder / "odd place")[0], 0)
        self.assertEqual(run("compare", "./-name.qasm", "../one.qasm", cwd=self.folder / "odd place")[0], 0)
        module = [sys.executable, "-m", "pathsum", "compare", str(one), str(one)]
        self.assertEqual(subprocess.run(module, cwd=ROOT / "python", stdout=subprocess.PIPE).returncode, 0)

    def test_output_that_cannot_be_written(self):
        one, *_ = self.files()
        words = [sys.executable, str(TOOL), "compare", str(one), str(one)]
        with open("/dev/full", "w") as full:
            child = subprocess.run(words, stdout=full, stderr=subprocess.PIPE, text=True)
        self.assertEqual(child.returncode, 67)
        self.assertRegex(child.stderr, r"\Apathsum: the output can't be written: [^\n]+\n\Z")
        reading, writing = os.pipe()
        os.close(reading)
        child = subprocess.run(words, stdout=writing, stderr=subprocess.PIPE, text=True)
        os.close(writing)
        self.assertEqual((child.returncode, child.stderr), (67, ""))

    def test_colours_on_a_terminal_alone(self):
        one, x, _ = self.files()
        try:
            main, end = pty.openpty()
        except OSError:
            self.skipTest("no terminal can be made here")
        environment = {**{key: value for key, value in os.environ.items() if key != "NO_COLOR"}, "TERM": "xterm"}
        words = [sys.executable, str(TOOL), "compare", str(one), str(x)]
        child = subprocess.run(words, stdout=end, env=environment)
        os.close(end)
        self.assertEqual(child.returncode, 1)
        self.assertTrue(os.read(main, 65536).startswith(b"\x1b[1;31mno\x1b[0m 0"))
        os.close(main)

    def test_closed_streams(self):
        one, *_ = self.files()
        for closed, status in (("<&-", 66), (">&-", 67)):
            child = subprocess.run(
                ["bash", "-c", f'"$@" {closed}', "", sys.executable, str(TOOL), "compare", "-", str(one)],
                input=ONE,
                capture_output=True,
                text=True,
            )
            self.assertEqual((child.returncode, child.stdout), (status, ""))
            self.assertRegex(child.stderr, r"\Apathsum: [^\n]+ closed\n\Z")

    def test_endless_files(self):
        one, *_ = self.files()
        self.assertEqual(run("compare", "/dev/zero", one)[0], 68)

    def test_faults_of_the_tool_are_no_answers(self):
        one, *_ = self.files()
        broken = "import pathsum.cli as c; c._asked = lambda given: 1 // 0; c.entry()"
        words = [sys.executable, "-c", broken, "compare", str(one), str(one)]
        child = subprocess.run(words, cwd=ROOT / "python", capture_output=True, text=True)
        self.assertEqual((child.returncode, child.stdout), (70, ""))
        self.assertRegex(child.stderr, r"\Apathsum: a fault of this tool [^\n]+\n\Z")

    def test_an_interrupt_ends_the_program(self):
        self.check_ending(signal.SIGINT, 130, b"\npathsum: interrupted\n")

    def test_a_request_to_end_ends_the_program(self):
        self.check_ending(signal.SIGTERM, 143, b"")

    def check_ending(self, number, status, said):
        one, *_ = self.files()
        slow = self.file("slow", "#!/bin/sh\necho $$ >" + str(self.folder / "pid") + "\nexec sleep 60\n")
        slow.chmod(0o755)
        words = [sys.executable, str(TOOL), "compare", str(one), str(one)]
        child = subprocess.Popen(
            words,
            env={**os.environ, "PATHSUM_PROGRAM": str(slow)},
            stdout=subprocess.PIPE,
            stderr=subprocess.PIPE,
            # (a shell that runs these tests in the background has its children ignore interrupts)
            preexec_fn=lambda: signal.signal(signal.SIGINT, signal.SIG_DFL),
        )
        end = time.monotonic() + 20
        while time.monotonic() < end and not (self.folder / "pid").exists():
            time.sleep(0.05)
        time.sleep(0.2)
        child.send_signal(number)
        complaint = child.communicate(timeout=20)[1]
        self.assertEqual((child.returncode, complaint), (status, said))
        pid = int((self.folder / "pid").read_text())
        with self.assertRaises(ProcessLookupError):
            os.kill(pid, 0)

    def test_programs_that_fail(self):
        one, *_ = self.files()
        for body, said in [("exit 3", "no answer"), ("echo memory; exit 70", "memory"), ("kill -9 $$", "signal 9"), ("echo maybe", "no answer")]:
            with self.subTest(body):
                bad = self.file("bad", f"#!/bin/sh\ncat >/dev/null\n{body}\n")
                bad.chmod(0o755)
                child = subprocess.run(
                    [sys.executable, str(TOOL), "compare", str(one), str(one)],
                    env={**os.environ, "PATHSUM_PROGRAM": str(bad)},
                    capture_output=True,
                    text=True,
                )
                self.assertEqual((child.returncode, child.stdout), (70, ""))
                self.assertRegex(child.stderr, rf"\Apathsum: [^\n]*{said}[^\n]*\n\Z")


class Edits(StandIns):
    """`edit`: the status is that of the worst that came of a command, and each is told at its line."""

    OPENED = f"0 open a\n{ONE}.\n0 open x\n{X}.\n0 open hth\n{HTH}.\n"
    YES, NO, UNKNOWN, BAD = "0 ask a 1 a 1\n", "0 ask a 1 x 1\n", "0 ask a 1 hth 1\n", "0 splice a 1 0 0\nfoo q[0];\n.\n"

    @unittest.skipUnless(knows("run", "0"), "the program does not know these words yet")
    def test_statuses(self):
        for asked, status, summary in [
            ("", 0, "3 commands: 3 done"),
            (self.YES, 0, "4 commands: 3 done, 1 yes"),
            (self.YES + self.NO + self.UNKNOWN, 1, "6 commands: 3 done, 1 yes, 1 no, 1 unknown"),
            (self.UNKNOWN + self.YES, 2, "5 commands: 3 done, 1 yes, 1 unknown"),
            (self.NO + self.BAD, 65, "5 commands: 3 done, 1 no, 1 refused"),
        ]:
            with self.subTest(asked):
                found = run("edit", "-", given=self.OPENED + asked)
                self.assertEqual((found[0], found[2], found[1].split("\n")[-2]), (status, "", summary))

    @unittest.skipUnless(knows("run", "0"), "the program does not know these words yet")
    def test_lines(self):
        status, output, _ = run("edit", "-", given=self.OPENED + self.BAD + self.NO)
        self.assertEqual(output.split("\n")[0], "done    line 1: 0 open a: version 1")
        self.assertIn("\nrefused line 20: 0 splice a 1 0 0: the block has a fault\n    standard input:21:1: Unknown: ", output)
        self.assertIn("\n        foo q[0];\n        ^\n", output)
        self.assertIn("\nno      line 23: 0 ask a 1 x 1: At the basis input q[0]=0 the two circuits", output)
        proof = "0 prove a 1 a 1\n"
        self.assertNotIn("pathsum 1", run("edit", "-", given=self.OPENED + proof)[1])
        self.assertIn("\n    pathsum 1\n    id a\n", run("edit", "-", "--full", given=self.OPENED + proof)[1])

    @unittest.skipUnless(knows("run", "0"), "the program does not know these words yet")
    def test_json(self):
        given = self.OPENED + self.YES + self.NO + self.BAD + "0 show x 1\n0 sum x 1\n0 show x 2\n0 retire b 1\n0 open a\n.\n"
        status, output, complaint = run("edit", "-", "--json", given=given)
        record = json.loads(output)
        self.assertEqual((status, complaint, record["status"], record["left"]), (65, "", 65, 0))
        self.assertEqual(record["counts"], {"done": 5, "yes": 1, "no": 1, "unknown": 0, "refused": 4})
        opened, _, _, yes, no, bad, shown, summed, version, circuit, taken = record["commands"]
        self.assertEqual(opened, {"schema": 1, "line": 1, "session": 0, "command": "0 open a", "verdict": "done", "status": 0,
                                  "kind": "opened", "raw": "opened 1 missing 0", "version": 1, "missing": 0})
        self.assertEqual((yes["verdict"], yes["answer"]["first"], yes["answer"]["second"]), ("yes", "a 1", "a 1"))
        self.assertEqual((no["status"], no["answer"]["input"]["bits"]), (1, "0"))
        self.assertEqual((bad["kind"], bad["status"], bad["fault"]["line"], bad["fault"]["name"]), ("bad", 65, 23, "Unknown"))
        self.assertEqual(shown["items"], [["U 1073741824,0,1073741824 0"]])
        self.assertEqual((summed["sum"]["text"], summed["limit"]), ("k=0 m=0 P=0 f=1+x0", None))
        self.assertEqual((version["kind"], version["latest"], circuit["kind"]), ("no version", 1, "no circuit"))
        self.assertEqual((taken["kind"], taken["entry"], taken["earlier"]), ("name taken", 0, 1))
        section = (ROOT / "docs/JSON.md").read_text().split("## A script")[1]
        told = set(re.findall(r"`(\w+)`", section))
        self.assertLessEqual({*record, *(field for each in record["commands"] for field in each)}, told)
        self.assertLessEqual({*PATTERNS, *(each["kind"] for each in record["commands"])}, set(re.findall(r"`([\w ]+)`", section)))

    def test_wrong_uses(self):
        for status, words, said in [
            (64, ("edit",), r"pathsum: [^\n]+"),
            (64, ("edit", "a", "b"), r"pathsum: [^\n]+"),
            (66, ("edit", "missing.script"), r"pathsum: missing.script: there is no such file"),
            (66, ("edit", ROOT), r"pathsum: [^\n]+ is a directory, and a script is a file"),
        ]:
            with self.subTest(words):
                found = run(*words)
                self.assertEqual(found[:2], (status, ""))
                self.assertRegex(found[2], rf"\A{said}\n\Z")

    def test_a_script_that_is_refused(self):
        self.stand_in(run_0=("input Form 2:1", 65))
        status, output, complaint = run("edit", "-", given="# c\n0 shew a 1\n")
        self.assertEqual((status, output), (65, ""))
        self.assertTrue(complaint.startswith("standard input:2:1: Form: `shew` is no command\n    0 shew a 1\n    ^\nIs `show` meant?"))
        record = json.loads(run("edit", "-", "--json", given="# c\n0 shew a 1\n")[1])
        self.assertEqual((record["verdict"], record["status"], record["fault"]["line"]), ("refused", 65, 2))

    def test_a_full_journal(self):
        self.stand_in(run_0=("0 no circuit\nfull", 69))
        given = "0 show a 1\n0 show a 1\n0 show a 1\n"
        status, output, complaint = run("edit", "-", given=given)
        self.assertEqual((status, output), (69, "refused line 1: 0 show a 1: there is no circuit `a`\n1 command: 1 refused\n"))
        self.assertRegex(complaint, r"\Apathsum: [^\n]+ 2 commands have no reply[^\n]+\n\Z")
        record = json.loads(run("edit", "-", "--json", given=given)[1])
        self.assertEqual((record["status"], record["left"], len(record["commands"])), (69, 2, 1))

    def test_a_time_limit(self):
        self.take("#!/bin/sh\nexec sleep 60\n")
        status, output, complaint = run("edit", "-", "--timeout", "0.5", given="0 show a 1\n")
        self.assertEqual((status, output), (75, ""))
        self.assertRegex(complaint, r"\Apathsum: [^\n]+\n\Z")


if __name__ == "__main__":
    unittest.main()
