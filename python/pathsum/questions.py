"""The questions that the program answers, asked from Python."""
from __future__ import annotations

import dataclasses
import os
import re
import threading
import time
from concurrent.futures import ThreadPoolExecutor
from dataclasses import dataclass
from fractions import Fraction
from typing import Any, Callable, Iterable, Iterator, List, Optional, Tuple, Type, TypeVar, Union, cast

from .answers import (
    LIMITS,
    Accepted,
    Answer,
    Input,
    Left,
    Limit,
    No,
    Rejected,
    RemainingSum,
    Unknown,
    Yes,
)
from .circuits import LONGEST, MARK, Circuit, circuit_of, is_text, read_file
from .errors import CircuitError, PathsumError, ProgramError, TimeLimitError, TooLongError
from .faults import fault_of
from .program import Reply, ask, find_program
from .sharing import shared_of

Source = Any
"""A circuit: a text, a path, a file's bytes, a `Circuit`, or an object with `qasm()`; see `circuit_of`."""
ToQasm = Optional[Callable[[Any], str]]

Verdict = Union[Yes, No, Unknown]
Replayed = Union[Accepted, Rejected, Left]
Found = TypeVar("Found", bound=Answer)

REFUSED = re.compile(r"input ([A-Za-z]+) ([0-9]+):([0-9]+)")
NO = re.compile(r"no ([01]+)(?: ([01]+))?(?: behind ([0-9]+))?")
PASSED = re.compile(r"unknown passed (terms|variables) ([0-9]+)")
REJECTED = re.compile(r"rejected ([0-9]+) ([A-Za-z]+)")
PHASE = re.compile(r"yes phase ([0-9]+(?:/[0-9]+)?)")


class NotKnownError(ProgramError):
    """The program doesn't know the words of this question."""


@dataclass(frozen=True)
class Asking:
    """A question and how it is asked."""

    question: str
    circuits: Tuple[Circuit, ...]
    timeout: Optional[float]
    cancel: Optional[threading.Event]

    def ask(self, words: Tuple[str, ...], derivation: bytes = b"") -> Reply:
        pieces = [circuit.joined for circuit in self.circuits] + ([derivation] if words == ("replay",) else [])
        given = (MARK + b"\n").join(pieces)
        if len(given) > LONGEST:
            raise TooLongError(f"the circuits together have {len(given):,} bytes, and at most {LONGEST:,} are read")
        return ask(words, given, self.timeout, self.cancel)

    def answer(self, kind: Type[Found], reply: Reply, line: str, **fields: Any) -> Found:
        first, second = (circuit.name for circuit in self.circuits)
        return kind(self.question, first, second, line, find_program().proved, reply.seconds, **fields)

    def read(self, reply: Reply, derivation: bytes = b"") -> Answer:
        """The answer that a reply is."""
        text = reply.output.decode("ascii", "replace")
        line = text.split("\n", 1)[0]
        if reply.status == 0:
            return self._agreed(reply, text, line)
        if reply.status == 1 and NO.fullmatch(line):
            return self._differ(reply, line)
        if reply.status == 1 and REJECTED.fullmatch(line):
            return self._rejected(reply, line, derivation)
        if reply.status == 2 and line.startswith("left "):
            return self.answer(Left, reply, line, remaining=RemainingSum.of(line[len("left ") :]))
        if reply.status == 2 and line.startswith("unknown stuck "):
            remaining = RemainingSum.of(line[len("unknown stuck ") :])
            return self.answer(Unknown, reply, line, remaining=remaining)
        passed = PASSED.fullmatch(line)
        if reply.status == 2 and passed:
            limit = Limit(passed[1], int(passed[2]), LIMITS[passed[1]])
            return self.answer(Unknown, reply, line, limit=limit)
        raise self._no_answer(reply, line)

    def _agreed(self, reply: Reply, text: str, line: str) -> Answer:
        if line == "accepted":
            return self.answer(Accepted, reply, line)
        phase = PHASE.fullmatch(line)
        if phase:
            return self.answer(Yes, reply, line, phase=Fraction(phase[1]))
        if self.question == "prove" and line.startswith("pathsum "):
            return self.answer(Yes, reply, line, derivation=text)
        if line == "yes":
            return self.answer(Yes, reply, line)
        raise self._no_answer(reply, line)

    def _differ(self, reply: Reply, line: str) -> Answer:
        found = NO.fullmatch(line)
        assert found
        qubits = self.circuits[0].qubits
        second = Input(found[2], qubits) if found[2] else None
        behind = int(found[3] or 0)
        return self.answer(No, reply, line, input=Input(found[1], qubits), second_input=second, behind=behind)

    def _rejected(self, reply: Reply, line: str, derivation: bytes) -> Answer:
        found = REJECTED.fullmatch(line)
        assert found
        number, lines = int(found[1]), derivation.split(b"\n")
        source = lines[number - 1].decode("utf-8", "replace") if number <= len(lines) else ""
        return self.answer(Rejected, reply, line, number=number, reason=found[2], source=source)

    def _no_answer(self, reply: Reply, line: str) -> PathsumError:
        refused = REFUSED.fullmatch(line)
        if reply.status == 65 and refused:
            return CircuitError(fault_of(refused[1], int(refused[2]), int(refused[3]), self.circuits))
        return no_answer(self.question, "the circuits together have", reply, line)


def no_answer(question: str, too_long: str, reply: Reply, line: str) -> PathsumError:
    """Why a reply, of which this is the first line, is no answer, where no text was refused."""
    if reply.status == 64:
        return NotKnownError(f"the program does not know the words of this question ({question})")
    if reply.status == 68:
        return TooLongError(f"{too_long} more than {LONGEST:,} bytes")
    if reply.status == 70 and line == "memory":
        return ProgramError("the program ran out of memory")
    if reply.status < 0:
        return ProgramError(f"the program was ended by signal {-reply.status}, for want of memory perhaps")
    if find_program().proved is False and reply.status == 70:
        return ProgramError("there is no proved program here, and the unproved build gave no answer, as told above")
    complaint = reply.complaint.decode("utf-8", "replace").strip().split("\n")[-1]
    said = complaint or line[:200] or "nothing"
    return ProgramError(f"the program gave no answer: it ended with status {reply.status} and said: {said}")


def _asking(question: str, first: Source, second: Source, to_qasm: ToQasm, timeout: Any, cancel: Any) -> Asking:
    circuits = (circuit_of(first, "first circuit", to_qasm), circuit_of(second, "second circuit", to_qasm))
    return Asking(question, circuits, timeout, cancel)


def same(
    first: Source,
    second: Source,
    *,
    phase: bool = False,
    to_qasm: ToQasm = None,
    timeout: Optional[float] = None,
    cancel: Optional[threading.Event] = None,
) -> Verdict:
    """Whether two circuits are one linear map: exactly, or with `phase` up to a global phase.

    A circuit is an OpenQASM 2.0 text, a path, or an object with a method `qasm()`; `to_qasm` makes a text of any other
    object. After `timeout` seconds, or once the event `cancel` is set, the program is ended. Raises CircuitError where a
    text is refused, and another PathsumError where there is no answer."""
    asking = _asking("phase" if phase else "same", first, second, to_qasm, timeout, cancel)
    return cast(Verdict, asking.read(asking.ask(("same", "phase") if phase else ("same",))))


def prove(
    first: Source,
    second: Source,
    *,
    to_qasm: ToQasm = None,
    timeout: Optional[float] = None,
    cancel: Optional[threading.Event] = None,
) -> Verdict:
    """As `same`; a yes has the derivation that shows it."""
    asking = _asking("prove", first, second, to_qasm, timeout, cancel)
    return cast(Verdict, asking.read(asking.ask(("prove",))))


def replay(
    first: Source,
    second: Source,
    derivation: Union[str, bytes, "os.PathLike[str]", Yes],
    *,
    to_qasm: ToQasm = None,
    timeout: Optional[float] = None,
    cancel: Optional[threading.Event] = None,
) -> Replayed:
    """Whether a derivation shows that two circuits are one linear map, whoever wrote it. It is a text (which has a line
    end), a path, or a Yes of `prove`."""
    asking = _asking("replay", first, second, to_qasm, timeout, cancel)
    data = _derivation(derivation)
    return cast(Replayed, asking.read(asking.ask(("replay",), data), data))


def _derivation(given: Any) -> bytes:
    if isinstance(given, Yes):
        given = given.derivation or ""
    elif not isinstance(given, (bytes, bytearray)) and not (isinstance(given, str) and ("\n" in given or not given)):
        return read_file(given, "a derivation")
    return given.encode("utf-8", "surrogateescape") if isinstance(given, str) else bytes(given)


def with_phase(
    answer: Answer,
    first: Source,
    second: Source,
    *,
    to_qasm: ToQasm = None,
    timeout: Optional[float] = None,
    cancel: Optional[threading.Event] = None,
) -> Answer:
    """A plain no, with the global phase up to which the circuits are one map after all, where they are and the program can
    tell; each other answer as it is."""
    if not isinstance(answer, No) or answer.question == "phase":
        return answer
    try:
        again = same(first, second, phase=True, to_qasm=to_qasm, timeout=timeout, cancel=cancel)
    except (NotKnownError, TimeLimitError):
        return answer
    return dataclasses.replace(answer, phase=again.phase) if isinstance(again, Yes) else answer


def compare(
    first: Source,
    second: Source,
    *,
    to_qasm: ToQasm = None,
    timeout: Optional[float] = None,
    cancel: Optional[threading.Event] = None,
) -> Verdict:
    """As `same`, in the way that answers most: first what the circuits do not share is asked about, where the program knows
    that question, then the whole where an input is wanted or the rest stayed unknown; and behind a no whether a phase alone
    differs. `timeout` is for all of it."""
    circuits = [circuit_of(first, "first circuit", to_qasm), circuit_of(second, "second circuit", to_qasm)]
    if find_program().proved is False:
        # (each question would build the program once more)
        return same(*circuits, timeout=timeout, cancel=cancel)
    end = None if timeout is None else time.monotonic() + timeout

    def left() -> Optional[float]:
        return None if end is None else max(0.001, end - time.monotonic())

    try:
        answer = _of_the_rest(circuits, left(), cancel)
    except NotKnownError:
        answer = same(*circuits, timeout=timeout, cancel=cancel)
    else:
        if isinstance(answer, Unknown) and _is_part(answer) or isinstance(answer, No) and answer.behind:
            answer = _of_the_whole(answer, circuits, left(), cancel)
    return cast(Verdict, with_phase(answer, *circuits, timeout=left(), cancel=cancel))


def _of_the_rest(circuits: List[Circuit], timeout: Optional[float], cancel: Optional[threading.Event]) -> Verdict:
    """What is found of the parts that the circuits do not share."""
    asking = Asking("local", tuple(circuits), timeout, cancel)
    answer = cast(Verdict, asking.read(asking.ask(("same", "local"))))
    front = answer.behind if isinstance(answer, No) else None
    return dataclasses.replace(answer, shared=shared_of(*circuits, told=front))


def _is_part(answer: Unknown) -> bool:
    return answer.shared is None or answer.shared.front + answer.shared.back > 0


def _of_the_whole(answer: Verdict, circuits: List[Circuit], timeout: Optional[float], cancel: Any) -> Verdict:
    """The answer to the whole where it says more than that to the rest."""
    try:
        whole = same(*circuits, timeout=timeout, cancel=cancel)
    except TimeLimitError:
        return answer
    return answer if isinstance(whole, Unknown) else dataclasses.replace(whole, shared=answer.shared)


def assert_same(
    first: Source,
    second: Source,
    message: Optional[str] = None,
    *,
    phase: bool = False,
    to_qasm: ToQasm = None,
    timeout: Optional[float] = None,
) -> None:
    """For test suites: fails with what the answer means unless it is a yes. Unknown fails too, and says that it is one."""
    circuits = [circuit_of(first, "first circuit", to_qasm), circuit_of(second, "second circuit", to_qasm)]
    if phase:
        answer: Answer = same(*circuits, phase=True, timeout=timeout)
    else:
        answer = compare(*circuits, timeout=timeout)
    if answer.verdict != "yes":
        said = f"{circuits[0].name} and {circuits[1].name} are not shown to be the same: {answer.explain()}"
        raise AssertionError(f"{message}\n{said}" if message else said)


@dataclass(frozen=True)
class Outcome:
    """What came of one pair of many: an answer, or why there is none."""

    first: str
    second: str
    answer: Optional[Answer]
    error: Optional[PathsumError]

    @property
    def status(self) -> int:
        return self.answer.status if self.answer is not None else self.error.status  # type: ignore[union-attr]

    @property
    def verdict(self) -> str:
        if self.answer is not None:
            return self.answer.verdict
        return "refused" if isinstance(self.error, CircuitError) else "error"


def same_many(
    pairs: Iterable[Tuple[Source, Source]],
    *,
    phase: bool = False,
    to_qasm: ToQasm = None,
    timeout: Optional[float] = None,
    cancel: Optional[threading.Event] = None,
    workers: Optional[int] = None,
) -> Iterator[Outcome]:
    """Compares many pairs, as many side by side as there are processors or as `workers` says, and gives what comes of each
    in the order of the pairs. `timeout` is that of one pair. A pair that has no answer stops no other."""
    given = list(pairs)
    stop = cancel if cancel is not None else threading.Event()
    count = max(1, min(len(given), workers or os.cpu_count() or 1))
    if find_program().proved is False:
        # (each question builds a program first, on all processors)
        count = 1

    def one(pair: Tuple[Source, Source]) -> Outcome:
        names = [_name(source, what) for source, what in zip(pair, ("first circuit", "second circuit"))]
        try:
            if phase:
                answer: Answer = same(*pair, phase=True, to_qasm=to_qasm, timeout=timeout, cancel=stop)
            else:
                answer = compare(*pair, to_qasm=to_qasm, timeout=timeout, cancel=stop)
            return Outcome(names[0], names[1], answer, None)
        except PathsumError as error:
            return Outcome(names[0], names[1], None, error)

    with ThreadPoolExecutor(count) as pool:
        futures = [pool.submit(one, pair) for pair in given]
        try:
            for future in futures:
                yield future.result()
        except BaseException:
            stop.set()
            for future in futures:
                future.cancel()
            raise


def _name(source: Source, what: str) -> str:
    if isinstance(source, Circuit):
        return source.name
    if isinstance(source, os.PathLike) or isinstance(source, str) and not is_text(source):
        return os.fsdecode(os.fspath(source))
    return what

