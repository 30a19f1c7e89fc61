"""Circuits under edit: scripts of sessions that open circuits, splice them and ask about their versions."""
from __future__ import annotations

import dataclasses
import os
import re
import threading
from collections import deque
from dataclasses import dataclass
from typing import Any, Deque, Dict, List, NamedTuple, Optional, Sequence, Tuple

from .answers import LIMITS, Answer, Input, Limit, No, RemainingSum
from .circuits import LONGEST, Circuit, circuit_of, decoded, read_file
from .commands import QUESTIONS, WITH_BLOCK, Command, NoCommand, Place, command_of, read_commands, script_fault
from .errors import Fault, FullError, ProgramError, ScriptError, TooLongError, UndecidedError, UsageError
from .faults import fault_of
from .program import Reply, ask
from .questions import REFUSED, Asking, Source, ToQasm, no_answer


class Script:
    """A script: commands of at most 16 sessions. Each method adds one, and gives it, so that a Response can be told by
    its command. A version is named by its circuit and its number: `open` makes version 1, and each `splice` the next."""

    def __init__(self, name: str = "script") -> None:
        self.name = name
        self._commands: List[Command] = []
        self._lines = 0

    @property
    def commands(self) -> Tuple[Command, ...]:
        """The commands so far, in order."""
        return tuple(self._commands)

    @property
    def data(self) -> bytes:
        """The script as the program reads it, for a file say."""
        return b"".join(command.data for command in self._commands)

    def open(self, name: str, source: Source, *, session: int = 0, to_qasm: ToQasm = None) -> Command:
        """Opens a circuit under a name. Its source is what `same` takes."""
        return self._add(session, "open", name, block=circuit_of(source, f"circuit {name}", to_qasm))

    def splice(
        self, name: str, base: int, start: int, stop: int, block: Source = None, *, session: int = 0
    ) -> Command:
        """Puts the gates of a block in place of the items from `start` on and before `stop`, as in a Python slice, and
        makes the next version. An item is a gate applied to one place of its registers. `base` is the latest version:
        where another session made one meanwhile, the splice is refused as `stale`. A block is a text of applications
        (`h q[0];`), or a path; without one the items go."""
        is_empty = block is None or isinstance(block, (str, bytes)) and not block
        name_of_block = f"splice of {name} {base}"
        gates = Circuit(name_of_block, b"") if is_empty else circuit_of(block, name_of_block)
        return self._add(session, "splice", name, base, start, stop, block=gates)

    def retire(self, name: str, version: int, *, session: int = 0) -> Command:
        """Retires a version that is not the latest: nothing can be asked about it any more."""
        return self._add(session, "retire", name, version)

    def show(self, name: str, version: int, *, session: int = 0) -> Command:
        """Asks for the primitive gates of a version, item by item."""
        return self._add(session, "show", name, version)

    def sum(self, name: str, version: int, *, session: int = 0) -> Command:
        """Asks for the reduced path sum of a version."""
        return self._add(session, "sum", name, version)

    def ask(
        self, first: str, version: int, second: str, second_version: int, *, phase: bool = False, session: int = 0
    ) -> Command:
        """Asks whether two versions are one linear map: exactly, or with `phase` up to a global phase."""
        return self._add(session, "ask phase" if phase else "ask", first, version, second, second_version)

    def prove(self, first: str, version: int, second: str, second_version: int, *, session: int = 0) -> Command:
        """As `ask`; a yes has the derivation that shows it."""
        return self._add(session, "prove", first, version, second, second_version)

    def _add(self, session: int, word: str, *values: Any, block: Optional[Circuit] = None) -> Command:
        text = " ".join(map(str, (session, word, *values)))
        try:
            command = command_of(text, self._lines + 1, block)
        except NoCommand as error:
            raise UsageError(f"{error.message}: {text!r}") from None
        if command.word != word:
            raise UsageError(f"a name of a circuit has no space: {text!r}")
        self._commands.append(command)
        self._lines += command.data.count(b"\n")
        return command


class _Text(NamedTuple):
    name: str
    data: bytes


def _text_of(script: Any) -> _Text:
    if isinstance(script, Script):
        return _Text(script.name, script.data)
    if isinstance(script, (bytes, bytearray)):
        return _Text("script", decoded(bytes(script)))
    if isinstance(script, str) and "\n" in script:
        return _Text("script", script.encode("utf-8", "surrogateescape"))
    if isinstance(script, (str, os.PathLike)) and os.fspath(script):
        return _Text(os.fsdecode(os.fspath(script)), decoded(read_file(script, "a script")))
    if isinstance(script, Circuit):
        return _Text(script.name, script.data)
    raise UsageError(f"a script is a Script, a text with a line end, or a path, and not {script!r:.80}")


def commands_of(script: Any) -> List[Command]:
    """The commands of a script: of a text (which has a line end), the bytes of one, or a path. Raises ScriptError at
    the first line that is no command."""
    return list(script.commands) if isinstance(script, Script) else read_commands(*_text_of(script))


NUMBERS = {
    "opened": r"opened (?P<version>1) missing (?P<missing>N)",
    "committed": r"committed (?P<version>N) missing (?P<missing>N)",
    "retired": r"retired",
    "name taken": r"name taken (?P<entry>N)",
    "circuits full": r"circuits full",
    "no circuit": r"no circuit",
    "no version": r"no version (?P<latest>N)",
    "was retired": r"was retired (?P<entry>N)",
    "latest": r"latest",
    "stale": r"stale (?P<latest>N)",
    "span": r"span (?P<length>N)",
    "too long": r"too long (?P<length>N)",
    "nothing": r"nothing",
    "widths": r"widths (?P<first_qubits>N) (?P<second_qubits>N)",
    "no room": r"no room (?P<total>N)",
    "memory": r"memory",
}
"""The replies of one line that have numbers alone."""
MADE_BY = {"opened": "open", "committed": "splice", "retired": "retire"}
"""What is done comes of one command alone."""
PATTERNS = {kind: re.compile(pattern.replace("N", "[0-9]+")) for kind, pattern in NUMBERS.items()}
BAD = re.compile(r"bad ([A-Za-z]+) ([0-9]+):([0-9]+)")
SUM = re.compile(r"sum (k=-?[0-9]+ m=[0-9]+ P=[^ ]+ f=[^ ]+)")
SUM_PASSED = re.compile(r"sum passed (terms|variables) ([0-9]+)")
COUNTED = re.compile(r"(?:shown|proof) ([0-9]+)")
STATUSES = {"yes": 0, "proof": 0, "no": 1, "unknown": 2}
"""The first words of the replies that are answers, and the status of the same answer about two files."""
DONE = ("opened", "committed", "retired", "shown", "sum")


@dataclass(frozen=True)
class Response:
    """What came of a command."""

    command: Command
    raw: str
    """As the program printed it, without the session's number in front and the line end behind."""
    kind: str
    """`opened`, `committed`, `retired`, `shown`, `sum`; `yes`, `no`, `unknown`; or why the command was refused, and
    changed nothing: `bad`, `stale`, `span`, `nothing`, `too long`, `latest`, `name taken`, `circuits full`,
    `no circuit`, `no version`, `was retired`, `widths`, `no room`, `memory`."""
    version: Optional[int] = None
    """The version that was made."""
    missing: Optional[int] = None
    """So many parts of that version have no sum yet; the first question about it makes them."""
    items: Optional[Tuple[Tuple[str, ...], ...]] = None
    """Of `shown`: for each item its primitive gates: `CX 0 1`, or `U 0,0,1073741824 0` in units of pi/2^30."""
    sum: Optional[RemainingSum] = None
    """Of `sum`: the reduced path sum of the version."""
    limit: Optional[Limit] = None
    """Of `sum`: the limit that was passed, so that there is no sum."""
    answer: Optional[Answer] = None
    """Of a question: the Yes, No or Unknown. Its seconds are those of the whole run."""
    fault: Optional[Fault] = None
    """Of `bad`: the first fault of the block, and where it is."""
    latest: Optional[int] = None
    """Of `stale` and `no version`: the latest version."""
    length: Optional[int] = None
    """Of `span`: how many items the version has; of `too long`: how many the result would have."""
    entry: Optional[int] = None
    """Of `name taken` and `was retired`: the number of the entry, in the journal of the run, that did that."""
    earlier: Optional[Command] = None
    """And the command that did."""
    first_qubits: Optional[int] = None
    """Of `widths`: how many qubits the first circuit has."""
    second_qubits: Optional[int] = None
    """And the second."""
    total: Optional[int] = None
    """Of `no room`: how many terms would be kept in all."""

    @property
    def session(self) -> int:
        return self.command.session

    @property
    def verdict(self) -> str:
        """`yes`, `no` or `unknown` of a question; `unknown` too where a sum passed a limit; else `done`, `refused`."""
        if self.answer is not None:
            return self.answer.verdict
        if self.limit is not None:
            return "unknown"
        return "done" if self.kind in DONE else "refused"

    @property
    def status(self) -> int:
        """0, or 1 of a no, 2 of an unknown, 65 where the command was refused."""
        return {"done": 0, "yes": 0, "no": 1, "unknown": 2, "refused": 65}[self.verdict]

    @property
    def where(self) -> Optional[Input]:
        """Of a no: the input at which the two versions differ."""
        return self.answer.input if isinstance(self.answer, No) else None

    def __bool__(self) -> bool:
        """True where the command was done or the answer is yes, False of a no. What is neither says so."""
        if self.status > 1:
            raise UndecidedError(f"the reply is neither yes nor no: {self.raw[:200]}")
        return self.status == 0

    def explain(self, full: bool = False) -> str:
        """What came of it in words: a sentence on the first line, and behind it what more there is to say."""
        from .explain import response_in_words

        return response_in_words(self, full)

    def to_json(self) -> Dict[str, Any]:
        """The response as docs/JSON.md has it."""
        from .records import response_record

        return response_record(self)


def run(script: Any, *, timeout: Optional[float] = None, cancel: Optional[threading.Event] = None) -> List[Response]:
    """Has the program do the commands of a script, and gives what came of each, in the order in which they were done:
    that of the script for each session, and any between sessions.

    A script is a `Script`, a text with a line end, or a path. After `timeout` seconds, or once the event `cancel` is
    set, the program is ended. Raises ScriptError where the script is refused as a whole, FullError where some commands
    were not done, and another PathsumError where there are no replies. A command that is refused by itself is no error
    here."""
    text = _text_of(script)
    if len(text.data) > LONGEST:
        raise TooLongError(f"the script has {len(text.data):,} bytes, and at most {LONGEST:,} are read")
    reply = ask(("run", "0"), text.data, timeout, cancel)
    lines = reply.output.decode("ascii", "replace").split("\n")
    refused = REFUSED.fullmatch(lines[0])
    if reply.status == 65 and refused:
        raise ScriptError(script_fault(refused[1], text.name, text.data, int(refused[2])))
    if reply.status not in (0, 69):
        raise no_answer("run", "the script has", reply, lines[0])
    commands = list(script.commands) if isinstance(script, Script) else read_commands(*text)
    return _Replies(commands, reply).read(lines)


class _Unreadable(Exception):
    """What stands here is no reply to the command."""


class _Replies:
    """The replies of a run, read one after another."""

    def __init__(self, commands: Sequence[Command], reply: Reply) -> None:
        self.reply = reply
        self.waiting: Dict[str, Deque[Command]] = {}
        for command in commands:
            self.waiting.setdefault(str(command.session), deque()).append(command)
        self.opened: Dict[str, Command] = {}
        self.retired: Dict[Place, Command] = {}

    def read(self, lines: List[str]) -> List[Response]:
        """The responses, where there is a reply to each command, or to some and then the line `full`."""
        is_full = self.reply.status == 69
        end = ["full", ""] if is_full else [""]
        found: List[Response] = []
        at = 0
        try:
            if lines[-len(end) :] != end:
                raise _Unreadable
            lines = lines[: -len(end)]
            while at < len(lines):
                response, behind = self.response_at(lines, at)
                found.append(response)
                at = behind
        except (_Unreadable, KeyError, ValueError):
            said = f"the program's replies can't be read from line {at + 1} on: {lines[at][:200]}"
            raise ProgramError(said) from None
        left = [command for commands in self.waiting.values() for command in commands]
        if is_full:
            raise FullError(found, left)
        if left:
            raise ProgramError(f"the program gave no reply to `{left[0]}` of line {left[0].line}")
        return found

    def response_at(self, lines: List[str], at: int) -> Tuple[Response, int]:
        """The reply at a line, and where the next one is."""
        session, _, said = lines[at].partition(" ")
        counted = COUNTED.fullmatch(said)
        behind = at + 1 + (int(counted[1]) if counted else 0)
        if not self.waiting.get(session) or behind > len(lines):
            raise _Unreadable
        return self.response(self.waiting[session].popleft(), said, lines[at + 1 : behind]), behind

    def response(self, command: Command, said: str, more: List[str]) -> Response:
        """The reply to a command, with the lines that stand behind its first one."""
        raw = "\n".join([said, *more])
        # (these first: `no circuit` is no `no`)
        for kind, pattern in PATTERNS.items():
            found = pattern.fullmatch(raw)
            if found and MADE_BY.get(kind, command.word) == command.word:
                return self.plain(command, kind, found)
        word = said.split(" ")[0]
        if word in STATUSES and command.word in QUESTIONS:
            answer = self.answer(command, said, more)
            return Response(command, raw, answer.verdict, answer=answer)
        if word == "shown" and command.word == "show":
            items = tuple(() if line == "-" else tuple(line.split("; ")) for line in more)
            return Response(command, raw, word, items=items)
        if word == "sum" and command.word == "sum":
            return self.sum(command, raw)
        if word == "bad" and command.word in WITH_BLOCK:
            return Response(command, raw, word, fault=self.fault(command, said))
        raise _Unreadable

    def answer(self, command: Command, said: str, more: List[str]) -> Answer:
        """As that to the same question about two files."""
        circuits = tuple(Circuit(str(place), self.text(place.name).data) for place in command.places)
        text = "\n".join(more or [said]) + "\n"
        reply = dataclasses.replace(self.reply, status=STATUSES[said.split(" ")[0]], output=text.encode())
        return Asking(QUESTIONS[command.word], circuits, None, None).read(reply)

    def sum(self, command: Command, raw: str) -> Response:
        found, passed = SUM.fullmatch(raw), SUM_PASSED.fullmatch(raw)
        if passed:
            return Response(command, raw, "sum", limit=Limit(passed[1], int(passed[2]), LIMITS[passed[1]]))
        if not found:
            raise _Unreadable
        return Response(command, raw, "sum", sum=RemainingSum.of(found[1]))

    def fault(self, command: Command, said: str) -> Fault:
        """The fault of a block, in the file in which it stands."""
        found = BAD.fullmatch(said)
        if not found or command.block is None:
            raise _Unreadable
        opened = self.text(command.name) if command.word == "splice" else None
        fault = fault_of(found[1], int(found[2]), int(found[3]), [command.block], opened)
        return dataclasses.replace(fault, line=fault.line + command.block_line - 1)

    def text(self, name: str) -> Circuit:
        """The text with which a circuit was opened."""
        if name not in self.opened:
            raise _Unreadable
        block = self.opened[name].block
        assert block is not None
        return block

    def plain(self, command: Command, kind: str, found: "re.Match[str]") -> Response:
        earlier = None
        if kind == "opened":
            self.opened[command.name] = command
        elif kind == "retired":
            self.retired[command.places[0]] = command
        elif kind == "name taken":
            earlier = self.opened.get(command.name)
        elif kind == "was retired":
            earlier = next((self.retired[place] for place in command.places if place in self.retired), None)
        numbers: Dict[str, Any] = {name: int(number) for name, number in found.groupdict().items()}
        return Response(command, found[0], kind, earlier=earlier, **numbers)
