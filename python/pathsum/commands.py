"""The commands of a script: how each is written, and what is wrong with a line that is none."""
from __future__ import annotations

import dataclasses
import difflib
import re
from dataclasses import dataclass, field
from typing import Dict, List, Optional, Tuple

from .circuits import END, Circuit
from .errors import Fault, ScriptError
from .faults import MEANINGS

SESSIONS = 16
LARGEST = (1 << 32) - 1
NUMBER = re.compile(r"0|[1-9][0-9]{0,9}")
NAME = re.compile(r"[a-z][a-z0-9_]{0,31}")
VERSION = ("NAME", "VERSION")
FORMS: Dict[str, Tuple[str, ...]] = {
    "open": ("NAME",),
    "splice": ("NAME", "BASE", "FROM", "TO"),
    "retire": VERSION,
    "ask": VERSION + VERSION,
    "ask phase": VERSION + VERSION,
    "prove": VERSION + VERSION,
    "sum": VERSION,
    "show": VERSION,
}
"""What stands behind each command's word."""
WITH_BLOCK = ("open", "splice")
QUESTIONS = {"ask": "same", "ask phase": "phase", "prove": "prove"}
"""The commands that ask about two versions, with what the same question about two files is called."""


@dataclass(frozen=True)
class Place:
    """A version of a circuit."""

    name: str
    version: int

    def __str__(self) -> str:
        return f"{self.name} {self.version}"


@dataclass(frozen=True)
class Command:
    """A command of a script."""

    session: int
    """The number of its session, 0 to 15."""
    word: str
    """`open`, `splice`, `retire`, `ask`, `ask phase`, `prove`, `sum` or `show`."""
    places: Tuple[Place, ...]
    """The versions that it names: of `open` the one that it makes, of `splice` the one that it starts from."""
    span: Optional[Tuple[int, int]] = None
    """Of `splice`: the items from the first number on, and before the second, go."""
    block: Optional[Circuit] = field(default=None, repr=False)
    """The text of `open`, the gates of `splice`."""
    line: int = 1
    """The line at which the command stands in its script, counted from 1."""
    block_line: int = 1
    """The line of its file with which the block begins."""

    @property
    def name(self) -> str:
        """The first circuit that it names."""
        return self.places[0].name

    def __str__(self) -> str:
        """The command's line in a script."""
        named = [self.name] if self.word == "open" else [str(place) for place in self.places]
        return " ".join([str(self.session), self.word, *named, *map(str, self.span or ())])

    @property
    def data(self) -> bytes:
        """The command as it stands in a script, with its block."""
        line = f"{self}\n".encode()
        return line if self.block is None else line + self.block.block + END + b"\n"


class NoCommand(Exception):
    """Why a line is no command."""

    def __init__(self, name: str, message: str, advice: Optional[str] = None) -> None:
        super().__init__(message)
        self.name, self.message, self.advice = name, message, advice


def command_of(text: str, line: int = 1, block: Optional[Circuit] = None) -> Command:
    """The command that a line says. Raises NoCommand where it says none."""
    words = text.split(" ")
    word = "ask phase" if words[1:3] == ["ask", "phase"] and len(words) == 7 else (words + [""])[1]
    values = words[2 + word.count(" ") :]
    _check(text, words, word, values)
    numbers = [int(value) for value, form in zip(values, FORMS[word]) if form != "NAME"]
    names = [value for value, form in zip(values, FORMS[word]) if form == "NAME"]
    places = tuple(Place(name, version) for name, version in zip(names, numbers or [1]))
    span = (numbers[1], numbers[2]) if word == "splice" else None
    return Command(int(words[0]), word, places, span, block, line)


def _check(text: str, words: List[str], word: str, values: List[str]) -> None:
    if not all(words) or text.split() != words:
        raise NoCommand("Form", "the words of a command stand alone in its line, with one space between each two")
    if not _is_number(words[0]):
        said = "A command begins with its session, 0 to 15, as in `0 show g 1`."
        raise NoCommand("Form", f"`{words[0]}` is no session", said)
    if word not in FORMS:
        raise NoCommand("Form", f"`{word}` is no command" if word else "the command is missing", _commands(word))
    form = FORMS[word]
    if len(values) != len(form):
        said = f"`{word}` has {len(form)} words behind it, and here it has {len(values)}"
        raise NoCommand("Form", said, _form(word))
    for value, what in zip(values, form):
        _check_value(value, what)
    if int(words[0]) >= SESSIONS:
        said = f"Session {words[0]} can be another of these, or stand in a script of its own."
        raise NoCommand("Session", MEANINGS["Session"], said)


def _check_value(value: str, what: str) -> None:
    if what == "NAME" and not NAME.fullmatch(value):
        said = "A name is a lower-case letter and then lower-case letters, digits and `_`, at most 32 in all."
        raise NoCommand("Form", f"`{value}` is no name of a circuit", said)
    if what != "NAME" and not _is_number(value):
        said = f"A number has digits alone, no 0 in front, and is at most {LARGEST:,}."
        raise NoCommand("Form", f"`{value}` is no number ({what})", said)


def _is_number(word: str) -> bool:
    return NUMBER.fullmatch(word) is not None and int(word) <= LARGEST


def _form(word: str) -> str:
    return f"It is written `S {' '.join((word, *FORMS[word]))}`."


def _commands(word: str) -> str:
    close = difflib.get_close_matches(word, FORMS, 1, 0.6)
    return f"Is `{close[0]}` meant? {_form(close[0])}" if close else f"The commands are {', '.join(FORMS)}."


def read_commands(name: str, data: bytes) -> List[Command]:
    """The commands of a script of this name, in order. Raises ScriptError at the first line that is none."""
    pieces, lines = data.split(b"\n"), _lines(data)
    found: List[Command] = []
    at = 0
    while at < len(lines):
        line, at = at + 1, at + 1
        if not lines[line - 1] or lines[line - 1].startswith(b"#"):
            continue
        try:
            command = command_of(_told(lines[line - 1]), line)
            if command.word in WITH_BLOCK:
                end = _block_end(lines, line)
                block = Circuit(name, b"".join(piece + b"\n" for piece in pieces[line:end]))
                command, at = dataclasses.replace(command, block=block, block_line=line + 1), end + 1
        except NoCommand as error:
            raise ScriptError(script_fault(error.name, name, data, line)) from None
        found.append(command)
    return found


def _block_end(lines: List[bytes], start: int) -> int:
    try:
        return lines.index(END, start)
    except ValueError:
        raise NoCommand("Block", MEANINGS["Block"]) from None


def script_fault(name: str, file: str, data: bytes, line: int) -> Fault:
    """The fault of a script at a line, with what is wrong there as far as that is known."""
    source = _told(b"".join(_lines(data)[line - 1 : line]))
    message, advice = MEANINGS.get(name, "the program refuses this"), None
    try:
        command_of(source)
        if name == "Block":
            advice = "Behind a text, and behind the gates of a splice, stands a line that is a single `.`."
        else:
            message = "the program that answers does not know this command"
    except NoCommand as error:
        message, advice = error.message, error.advice
    return Fault(name, file, line, 1, source, message, advice)


def _lines(data: bytes) -> List[bytes]:
    """The lines of a script without their ends, LF or CR LF. What stands behind the last end is a line too, and its CR
    is no end."""
    pieces = data.split(b"\n")
    return [piece[:-1] if piece.endswith(b"\r") else piece for piece in pieces[:-1]] + pieces[-1:]


def _told(line: bytes) -> str:
    return line.decode("utf-8", "replace")
