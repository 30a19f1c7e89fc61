"""Which program ./pathsum takes, and what it says where none fits, in a small copy of the repository with a stand-in for the
toolchain."""
import os
import shutil
import subprocess
import tempfile
import time
import unittest
from pathlib import Path

from .gates import ROOT

PROGRAM = """#!/bin/sh
# {name}
[ $# -gt 0 ] || {{ echo words; exit 64; }}
echo "{name} got $* and $(cat)"
exit 2
"""
TOOLCHAIN = """#!/bin/sh
if [ "$1" = version ]; then echo "toolchain {number}"; exit 0; fi
[ "$1 $2" = "try --" ] || exit 9
shift 2
echo "unproved got $* and $(cat)"
echo "some words" >&2
echo "{last}" >&2
exit {status}
"""


class Launcher(unittest.TestCase):
    def setUp(self):
        made = tempfile.TemporaryDirectory()
        self.addCleanup(made.cleanup)
        self.top = Path(made.name) / "a copy"
        self.kit = Path(made.name) / "bin"
        for path in ("pathsum", "tools/program.sh", "tools/find-program"):
            (self.top / path).parent.mkdir(parents=True, exist_ok=True)
            shutil.copy(ROOT / path, self.top / path)
        self.write("crates/low/src/lib.rt", "pub fn f() {}\n")
        self.write("crates/low/specs/Lib.antt", "pub mod A\n")
        self.write("crates/pathsum/src/main.rt", "fn main() {}\n")
        self.write("crates.txt", "low:\n")
        self.write("HANDLES", "Handles allowed: none.\n")
        self.kit.mkdir()
        self.toolchain(1, "", 2)

    def write(self, path, text, mode=0o644):
        file = self.top / path
        file.parent.mkdir(parents=True, exist_ok=True)
        file.write_text(text)
        file.chmod(mode)

    def toolchain(self, number, last, status):
        (self.kit / "rt").write_text(TOOLCHAIN.format(number=number, last=last, status=status))
        (self.kit / "rt").chmod(0o755)

    def program(self, path, name):
        self.write(path, PROGRAM.format(name=name), 0o755)
        note = f'root={str(self.top)!r}; . "$root/tools/program.sh"; note_built "$root/{path}" "$(toolchain_line)"'
        subprocess.run(["bash", "-c", note], env=self.environment(), check=True)

    def environment(self, with_toolchain=True):
        # (without: the system's folders, where no toolchain of this name is)
        rest = "/usr/bin:/bin"
        return {"PATH": f"{self.kit}:{rest}" if with_toolchain else rest, "TMPDIR": str(self.top.parent)}

    def run_it(self, *words, with_toolchain=True, path=None):
        child = subprocess.run(
            [str(path or self.top / "pathsum"), *words],
            input="input",
            capture_output=True,
            text=True,
            env=self.environment(with_toolchain),
        )
        return child.returncode, child.stdout, child.stderr

    def test_the_carried_program(self):
        self.program("dist/pathsum", "carried")
        self.program("crates/pathsum/out/pathsum", "built")
        for with_toolchain in (True, False):
            found = self.run_it("same", "a b", with_toolchain=with_toolchain)
            self.assertEqual(found, (2, "carried got same a b and input\n", ""))
        linked = self.top.parent / "linked"
        linked.symlink_to(self.top / "pathsum")
        self.assertEqual(self.run_it("same", path=linked)[1], "carried got same and input\n")

    def test_the_one_that_was_built_here(self):
        """Where the carried one was changed, belongs to other sources or doesn't run here."""
        self.program("crates/pathsum/out/pathsum", "built")
        for spoil in (
            lambda: self.write("dist/pathsum", PROGRAM.format(name="changed"), 0o755),
            lambda: self.write("dist/pathsum.built", "program 0\n"),
            lambda: self.write("dist/pathsum", "#!/bin/sh\nexit 127\n", 0o755),
            lambda: (self.top / "dist/pathsum").chmod(0o644),
            lambda: (self.top / "dist/pathsum").unlink(),
        ):
            self.program("dist/pathsum", "carried")
            spoil()
            self.assertEqual(self.run_it("same")[:2], (2, "built got same and input\n"))

    def test_edits(self):
        """After an edit of a source, a specification or a list no program fits, whatever the times of the files."""
        for path in ("crates/low/src/lib.rt", "crates/low/specs/Lib.antt", "crates.txt", "HANDLES"):
            self.program("dist/pathsum", "carried")
            text, times = (self.top / path).read_text(), os.stat(self.top / path)
            self.write(path, text + "\n")
            os.utime(self.top / path, ns=(times.st_atime_ns, times.st_mtime_ns))
            self.toolchain(1, "run=ended status=0 runners=1 proved=no", 0)
            self.assertEqual(self.run_it("same")[:2], (0, "unproved got same and input\n"))
            self.write(path, text)
            self.assertEqual(self.run_it("same")[:2], (2, "carried got same and input\n"))
        self.program("dist/pathsum", "carried")
        self.write("crates/low/specs/More.antt", "")
        self.assertEqual(self.run_it("same")[0], 0)

    def test_another_toolchain(self):
        self.program("dist/pathsum", "carried")
        self.toolchain(2, "run=ended status=1 runners=1 proved=no", 1)
        self.assertEqual(self.run_it("same")[:2], (1, "unproved got same and input\n"))

    def test_unproved(self):
        """The status is the program's, and said to be that of an unproved build."""
        for status in (0, 1, 2, 65):
            self.toolchain(1, f"run=ended status={status} runners=1 races=unchecked proved=no", status)
            found = self.run_it("same", "x")
            self.assertEqual(found[:2], (status, "unproved got same x and input\n"))
            self.assertIn("without its proof", found[2])
            self.assertIn("60 seconds", found[2])

    def test_unproved_builds_that_fail(self):
        """A build that fails is 70 and a sentence, whatever status the toolchain ends with."""
        for last, status in [("run=none proved=no", 1), ("run=none proved=no", 2), ("", 1), ("", 0), ("run=fault proved=no", 4)]:
            self.toolchain(1, last, status)
            status, output, complaint = self.run_it("same")
            self.assertEqual((status, output), (70, ""))
            self.assertRegex(complaint.split("\n")[-2], "^pathsum: the unproved build gave no answer: ")

    def test_a_request_to_end(self):
        """It ends the build too."""
        (self.kit / "rt").write_text(f"#!/bin/sh\n[ $1 = try ] || exit 1\necho $$ >{str(self.top.parent)!r}/pid\nexec sleep 60\n")
        child = subprocess.Popen(
            [str(self.top / "pathsum"), "same"], stdin=subprocess.DEVNULL, stderr=subprocess.DEVNULL, env=self.environment()
        )
        end = time.monotonic() + 20
        while time.monotonic() < end and not (self.top.parent / "pid").exists():
            time.sleep(0.05)
        time.sleep(0.2)
        child.terminate()
        self.assertEqual(child.wait(20), 143)
        with self.assertRaises(ProcessLookupError):
            os.kill(int((self.top.parent / "pid").read_text()), 0)

    def test_nothing_to_take(self):
        status, output, complaint = self.run_it("same", with_toolchain=False)
        self.assertEqual((status, output, complaint.count("\n")), (70, "", 1))
        self.assertIn("isn't installed", complaint)


if __name__ == "__main__":
    unittest.main()
