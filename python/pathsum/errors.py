"""What goes wrong besides a verdict. Each error has one sentence, and the exit status of the command line."""
from __future__ import annotations

from dataclasses import dataclass
from typing import Any, Optional, Sequence


@dataclass(frozen=True)
class Fault:
    """The first fault of a text, where it stands, and what it means."""

    name: str
    """The program's name for it, such as `Unknown`; docs/FAULTS.md has all."""
    file: str
    """The file's name, or what stands for it where the text is no file."""
    line: int
    """The line in that file, counted from 1."""
    column: int
    """The column in bytes, counted from 1."""
    source: str
    """The whole line; empty where the fault is at the end of the text."""
    message: str
    """What the fault is, in a sentence without its place."""
    advice: Optional[str] = None
    """The usual way out, where there is one."""

    def __str__(self) -> str:
        lines = [f"{self.file}:{self.line}:{self.column}: {self.name}: {self.message}"]
        if self.source:
            lines += ["    " + self.source, "    " + self._caret()]
        if self.advice:
            lines.append(self.advice)
        return "\n".join(lines)

    def _caret(self) -> str:
        before = self.source.encode("utf-8", "surrogateescape")[: self.column - 1]
        width = len(before.decode("utf-8", "replace"))
        return "".join("\t" if letter == "\t" else " " for letter in self.source[:width]) + "^"


class PathsumError(Exception):
    """Why a question got no verdict."""

    status = 70
    """The exit status with which the command line ends."""


class UsageError(PathsumError):
    """What was asked for isn't anything that can be asked."""

    status = 64


class RefusedError(PathsumError):
    """A text is refused for a fault that it has."""

    status = 65

    def __init__(self, fault: Fault) -> None:
        super().__init__(str(fault))
        self.fault = fault


class CircuitError(RefusedError):
    """A circuit is refused: its text has a fault, or the two have different numbers of qubits."""


class ScriptError(RefusedError):
    """A script is refused, and none of its commands was done: one of its lines is no command."""


class UnreadableError(PathsumError):
    """A file can't be read."""

    status = 66


class TooLongError(PathsumError):
    """The circuits are longer than the program reads."""

    status = 68


class FullError(PathsumError):
    """The journal of a run is full, so some commands of the script were not done."""

    status = 69

    def __init__(self, responses: Sequence[Any], left: Sequence[Any]) -> None:
        super().__init__(f"the journal of this run is full, and {len(left):,} commands have no reply: split the script")
        self.responses = list(responses)
        """What came of the commands that were done; a list of Response."""
        self.left = list(left)
        """The commands that have no reply; a list of Command."""


class ProgramError(PathsumError):
    """There is no program to ask, or it gave no answer: memory was wanting, say."""

    status = 70


class TimeLimitError(PathsumError):
    """The time limit ended the question."""

    status = 75


class Cancelled(PathsumError):
    """The question was cancelled."""

    status = 75


class UndecidedError(PathsumError):
    """A yes or a no was asked of an answer that is neither."""

    status = 2
