"""What the README tells a newcomer to do works as it stands."""
import importlib.util
import re
import shutil
import subprocess
import sys
import tempfile
import unittest
from pathlib import Path

import pathsum
from pathsum.program import ask

from .gates import ROOT
from .stand_in import knows


def blocks(document, language):
    return re.findall(rf"^```{language}\n(.*?)^```", (ROOT / document).read_text(), re.MULTILINE | re.DOTALL)


class Readme(unittest.TestCase):
    def setUp(self):
        made = tempfile.TemporaryDirectory()
        self.addCleanup(made.cleanup)
        self.folder = Path(made.name) / "checkout"
        self.folder.mkdir()
        for name in ("tools", "python", "examples"):
            shutil.copytree(ROOT / name, self.folder / name, ignore=shutil.ignore_patterns("__pycache__"))
        program = self.folder / "pathsum"
        program.write_text(f'#!/bin/sh\nexec "{pathsum.find_program().path}" "$@"\n')
        program.chmod(0o755)
        for folder in ("before", "after"):
            (self.folder / folder).mkdir()
            shutil.copy(ROOT / "examples/toffoli.qasm", self.folder / folder)
        shutil.copy(ROOT / "examples/toffoli_by_hand.qasm", self.folder / "A.qasm")
        shutil.copy(ROOT / "examples/toffoli.qasm", self.folder / "B.qasm")

    def run_block(self, block):
        child = subprocess.run(
            ["bash", "-ec", block],
            cwd=self.folder,
            env={
                "PATH": f"{Path(sys.executable).parent}:/usr/local/bin:/usr/bin:/bin",
                "PATHSUM_PROGRAM": pathsum.find_program().path,
                "HOME": str(self.folder),
                # nothing is fetched
                "PIP_NO_INDEX": "1",
                "PIP_DISABLE_PIP_VERSION_CHECK": "1",
            },
            capture_output=True,
            text=True,
        )
        self.assertEqual(child.returncode, 0, child.stdout + child.stderr)
        return child.stdout

    def test_shell(self):
        first, shell, pipeline = blocks("README.md", "sh")
        self.assertIn("no 100\n", self.run_block(first))
        self.assertIn("accepted\n", self.run_block(shell))
        if importlib.util.find_spec("ensurepip") is None:
            self.skipTest("this Python makes no environments with pip")
        self.assertIn("1 pair: 1 yes\n", self.run_block(pipeline))

    def run_python(self, *found):
        child = subprocess.run([sys.executable, "-c", "".join(found)], cwd=ROOT / "python", capture_output=True, text=True)
        self.assertEqual((child.returncode, child.stderr), (0, ""))
        return child.stdout

    def test_python(self):
        asking, editing = blocks("README.md", "python")
        self.assertTrue(self.run_python(asking).startswith("yes\n"))
        if knows("run", "0"):
            self.assertTrue(self.run_python(asking, editing).endswith("\nyes\n"))

    @unittest.skipUnless(knows("run", "0"), "the program does not know these words yet")
    def test_edits(self):
        """The replies are those that README.md shows, and each script of the examples is one."""
        (block,) = blocks("README.md", "text")
        asked, _, replies = block.partition("\n")
        self.assertEqual(self.run_block(f"{asked[len('$ '):]} || test $? = 1"), replies)
        names = re.findall(r"^\| (\w+\.script) \|", (ROOT / "examples/README.md").read_text(), re.MULTILINE)
        self.assertIn("editing.script", names)
        for path in ROOT.glob("examples/*.script"):
            self.assertEqual(len(pathsum.run(path)), len(pathsum.commands_of(path)))

    def test_the_program_document(self):
        lines = re.findall(r"^    (.*)$", (ROOT / "docs/PROGRAM.md").read_text(), re.MULTILINE)
        printed = self.run_block("\n".join(lines))
        answers, generated = printed.split("gen 1 16 4096\n")
        self.assertTrue(answers.startswith("yes\npathsum 1\n") and answers.endswith("\nend\naccepted\n"))
        wanted = ["0 opened 1 missing 0", "0 committed 2 missing 1023", "0 committed 3 missing 2047", "0 yes", "entries 4100"]
        self.assertEqual(generated.splitlines(), wanted)

    def test_the_examples(self):
        """Each example has the answer that its table tells."""
        rows = re.findall(r"^\| (\w+) \| .* \| `([^`]*)` \|$", (ROOT / "examples/README.md").read_text(), re.MULTILINE)
        self.assertEqual({name for name, _ in rows}, {path.stem for path in (ROOT / "examples").glob("*.pair")})
        for name, answer in rows:
            with self.subTest(name):
                given = (ROOT / f"examples/{name}.pair").read_bytes()
                self.assertEqual(ask(["same"], given).output.decode(), answer + "\n")
        rows = re.findall(r"^\| (\w+), (\w+) \| .* \| `([^`]*)` \|$", (ROOT / "examples/README.md").read_text(), re.MULTILINE)
        self.assertGreaterEqual(len(rows), 4)
        for first, second, answer in rows:
            with self.subTest(first):
                files = [ROOT / f"examples/{name}.qasm" for name in (first, second)]
                self.assertEqual(pathsum.same(*files).line, answer)

    def test_documents_that_are_named_are_there(self):
        for document in [ROOT / "README.md", *ROOT.glob("docs/*.md"), *ROOT.glob("*/README.md")]:
            for name in re.findall(r"\b((?:docs|tools|bench|python|examples|crates|dist|\.ci)/[\w./-]*\w)", document.read_text()):
                if not re.match(r"crates/pathsum/out|crates/NAME", name):
                    self.assertTrue((ROOT / name).exists() or name.startswith("dist/"), f"{document}: {name}")


if __name__ == "__main__":
    unittest.main()
