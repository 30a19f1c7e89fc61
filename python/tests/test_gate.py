"""The merge gate's script counts what it runs and fails where any of it does, in a small copy of the repository with stand-ins for
the toolchain and the tests."""
import shutil
import subprocess
import tempfile
import unittest
from pathlib import Path

from .gates import ROOT

TOOLCHAIN = """#!/bin/sh
case "$1" in
    version) echo "toolchain 1" ;;
    ci) mkdir -p crates/pathsum/out; cp built crates/pathsum/out/pathsum; echo "rt: said"; echo "{counts}"; exit {status} ;;
    *) exit 9 ;;
esac
"""
# --strip-all --keep-section=.comment -o TO FROM
STRIP = """#!/bin/sh
grep -v debug "$5" >"$4"; chmod 755 "$4"
"""
PROGRAM = "#!/bin/sh\n# debug\n[ $# -gt 0 ] || { echo words; exit 64; }\nexit 0\n"


class Gate(unittest.TestCase):
    def setUp(self):
        made = tempfile.TemporaryDirectory()
        self.addCleanup(made.cleanup)
        self.top = Path(made.name) / "copy"
        self.kit = Path(made.name) / "kit"
        for path in (".ci/run", "tools/program.sh", "tools/renew-dist"):
            (self.top / path).parent.mkdir(parents=True, exist_ok=True)
            shutil.copy(ROOT / path, self.top / path)
        self.write(self.top / "crates/low/src/lib.rt", "pub fn f() {}\n")
        self.write(self.top / "crates.txt", "low:\n")
        self.write(self.top / "HANDLES", "Handles allowed: none.\n")
        self.write(self.top / "built", PROGRAM)
        self.write(self.kit / "toolchain/bin/clang", STRIP)
        self.toolchain("5 passed, 0 failed", 0)
        self.stand_in_tests("7 passed, 0 failed", 0)

    def write(self, path, text):
        path.parent.mkdir(parents=True, exist_ok=True)
        path.write_text(text)
        path.chmod(0o755)

    def toolchain(self, counts, status):
        self.write(self.kit / "bin/rt", TOOLCHAIN.format(counts=counts, status=status))

    def stand_in_tests(self, counts, status):
        self.write(self.top / "tools/run-tests", f'#!/bin/sh\necho "asks $PATHSUM_PROGRAM"\necho "{counts}"\nexit {status}\n')

    def run_it(self, script):
        environment = {"PATH": f"{self.kit}/bin:/usr/bin:/bin", "TMPDIR": str(self.top.parent)}
        child = subprocess.run([str(self.top / script)], capture_output=True, text=True, env=environment)
        return child.returncode, child.stdout.split("\n")[-2], child.stdout

    def test_all_is_well(self):
        self.assertEqual(self.run_it("tools/renew-dist")[0], 0)
        self.assertNotIn("debug", (self.top / "dist/pathsum").read_text())
        status, last, output = self.run_it(".ci/run")
        self.assertEqual((status, last), (0, "13 passed, 0 failed"))
        self.assertIn(f"asks {self.top}/crates/pathsum/out/pathsum\n", output)

    def test_proofs_that_fail(self):
        self.run_it("tools/renew-dist")
        for counts, last in [("4 passed, 1 failed", "4 passed, 1 failed"), ("nothing", "0 passed, 1 failed")]:
            self.toolchain(counts, 3)
            found = self.run_it(".ci/run")
            self.assertEqual(found[:2], (3, last))
            self.assertNotIn("asks", found[2])

    def test_a_carried_program_that_does_not_fit(self):
        self.assertEqual(self.run_it(".ci/run")[:2], (1, "12 passed, 1 failed"))
        for spoil in (
            lambda: self.write(self.top / "built", PROGRAM + "# other\n"),
            lambda: self.write(self.top / "dist/pathsum", "#!/bin/sh\nexit 0\n"),
            lambda: self.write(self.top / "crates/low/specs/Lib.antt", ""),
        ):
            self.assertEqual(self.run_it("tools/renew-dist")[0], 0)
            self.assertEqual(self.run_it(".ci/run")[:2], (0, "13 passed, 0 failed"))
            spoil()
            status, last, output = self.run_it(".ci/run")
            self.assertEqual((status, last), (1, "12 passed, 1 failed"))
            self.assertIn("run tools/renew-dist", output)

    def test_tests_that_fail(self):
        self.run_it("tools/renew-dist")
        for counts, status, last in [("6 passed, 1 failed", 1, "12 passed, 1 failed"), ("a fault", 1, "6 passed, 1 failed"),
                                     ("7 passed, 0 failed", 1, "13 passed, 1 failed")]:
            self.stand_in_tests(counts, status)
            self.assertEqual(self.run_it(".ci/run")[:2], (1, last))


if __name__ == "__main__":
    unittest.main()
