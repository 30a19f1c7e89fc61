"""Programs that stand in for the real one, with replies that a test hands over."""
import os
import sys
import tempfile
import unittest
from pathlib import Path
from unittest import mock

import pathsum
from pathsum import program

STAND_IN = """#!{python}
import subprocess, sys
given = sys.stdin.buffer.read()
replies = {replies!r}
words = " ".join(sys.argv[1:])
if words in replies:
    line, status = replies[words]
    print(line)
    sys.exit(status)
sys.exit(subprocess.run([{program!r}, *sys.argv[1:]], input=given).returncode)
"""


def knows(*words, given="", beside=(64,)):
    """Whether the program knows these words, and this input: it ends with another status than these."""
    try:
        return program.ask(words, given.encode()).status not in beside
    except pathsum.PathsumError:
        return False


class StandIns(unittest.TestCase):
    def stand_in(self, **replies):
        """A program that prints for some words (with `_` for a space) a reply and ends with its status; for others it is the
        real one, which knows no newer words."""
        known = {"same local": ("words", 64), "same phase": ("words", 64)}
        known.update({words.replace("_", " "): reply for words, reply in replies.items()})
        self.take(STAND_IN.format(python=sys.executable, replies=known, program=program.find_program().path))

    def take(self, source):
        """The program of this source answers."""
        folder = tempfile.TemporaryDirectory()
        self.addCleanup(folder.cleanup)
        path = Path(folder.name, "stand_in")
        path.write_text(source)
        path.chmod(0o755)
        patch = mock.patch.dict(os.environ, {program.VARIABLE: str(path)})
        patch.start()
        self.addCleanup(patch.stop)
