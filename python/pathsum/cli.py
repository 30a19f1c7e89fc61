"""The command line: tools/pathsum, and `python -m pathsum`."""
from __future__ import annotations

import argparse
import contextlib
import errno
import json
import os
import signal
import sys
import traceback
from typing import Any, Dict, List, NoReturn, Optional, Sequence

from . import batch, questions, scripts
from .answers import Answer, Yes
from .circuits import LONGEST, Circuit, decoded, read_file
from .errors import FullError, PathsumError, RefusedError, UnreadableError, UsageError
from .program import version_line
from .records import SCHEMA, error_record, record_of, script_record

EPILOG = """exit status:
  0  yes: one linear map (replay: accepted; batch: all are; edit: all is done, and each answer is yes)
  1  no: they differ (replay: rejected; batch, edit: some do)
  2  unknown: neither was shown (replay: left; batch, edit: some are, and none is a no)
 64  the words of the command are wrong       65  a circuit or a script is refused (batch: some pair has
 66  a file can't be read                         no verdict; edit: some command is refused)
 67  the output can't be written              68  the circuits are too long
 69  edit: too many commands for one run      70  no program, or it gave no answer
 75  the time limit was reached              130  interrupted
"""
COLOURS = {"yes": "32", "accepted": "32", "done": "32", "no": "31", "rejected": "31", "refused": "31", "error": "31"}


class _Parser(argparse.ArgumentParser):
    """Wrong words are one sentence and status 64."""

    def error(self, message: str) -> NoReturn:
        raise UsageError(f"{message} ({self.prog} --help says more)")


def _parser() -> argparse.ArgumentParser:
    raw = argparse.RawDescriptionHelpFormatter
    parser = _Parser(
        prog="pathsum",
        description="Whether two OpenQASM 2.0 circuits are one linear map.",
        epilog=EPILOG,
        formatter_class=raw,
    )
    parser.add_argument("--version", action="store_true", help="the version, and which program answers")
    commands = parser.add_subparsers(dest="command", metavar="COMMAND")

    def command(name: str, said: str, *files: str) -> argparse.ArgumentParser:
        made = commands.add_parser(name, help=said, description=said, epilog=EPILOG, formatter_class=raw)
        for file in files:
            made.add_argument(file.lower(), metavar=file)
        made.add_argument("--json", action="store_true", help="one JSON document; docs/JSON.md has its fields")
        made.add_argument("--timeout", type=_seconds, metavar="SECONDS", help="end a question after so long")
        return made

    circuits = ("A", "B")
    compare = command("compare", "compares two circuits; - is standard input", *circuits)
    compare.add_argument("--phase", action="store_true", help="up to a global phase")
    prove = command("prove", "as compare; a yes prints the derivation that shows it", *circuits)
    replay = command("replay", "checks a derivation of two circuits", *circuits, "DERIVATION")
    edit = command("edit", "does the commands of a script, which edit circuits and ask about their versions", "SCRIPT")
    for each in (compare, prove, replay):
        each.add_argument("--full", action="store_true", help="print a sum that is left whole, however long")
    edit.add_argument("--full", action="store_true", help="print sums and derivations whole, however long")
    many = command("batch", "compares many pairs: of a manifest, or of two directories")
    many.add_argument("given", nargs="+", metavar="MANIFEST | DIRECTORY DIRECTORY")
    many.add_argument("--phase", action="store_true", help="up to a global phase")
    many.add_argument("--workers", type=_count, metavar="N", help="so many pairs side by side; else one a processor")
    return parser


def _seconds(word: str) -> float:
    value = float(word)
    if not 0 < value < 1e9:
        raise ValueError
    return value


def _count(word: str) -> int:
    value = int(word)
    if value < 1:
        raise ValueError
    return value


_seconds.__name__ = "time"  # (argparse names them in its messages)
_count.__name__ = "number"


def _circuit(path: str, what: str = "a circuit") -> Circuit:
    if path == "-":
        return Circuit("standard input", decoded(_standard_input()))
    return Circuit(path, decoded(read_file(path, what)))


def _standard_input() -> bytes:
    if sys.stdin is None:
        raise UnreadableError("standard input is closed")
    try:
        return sys.stdin.buffer.read(LONGEST + 1)
    except OSError as error:
        raise UnreadableError(f"standard input can't be read: {error.strerror}") from None


def _circuits(given: argparse.Namespace, *others: str) -> List[Circuit]:
    if [given.a, given.b, *others].count("-") > 1:
        raise UsageError("standard input (-) can stand for one file alone")
    return [_circuit(given.a), _circuit(given.b)]


def _asked(given: argparse.Namespace) -> Answer:
    how = {"timeout": given.timeout}
    if given.command == "compare" and given.phase:
        return questions.same(*_circuits(given), phase=True, **how)
    if given.command == "compare":
        return questions.compare(*_circuits(given), **how)
    if given.command == "prove":
        circuits = _circuits(given)
        answer = questions.prove(*circuits, **how)
        return questions.with_phase(answer, *circuits, **how)
    circuits = _circuits(given, given.derivation)
    if given.derivation == "-":
        return questions.replay(*circuits, _standard_input(), **how)
    return questions.replay(*circuits, read_file(given.derivation, "a derivation"), **how)


def _is_coloured() -> bool:
    is_terminal = sys.stdout is not None and sys.stdout.isatty()
    return is_terminal and "NO_COLOR" not in os.environ and os.environ.get("TERM") != "dumb"


def _coloured(verdict: str, text: str) -> str:
    """The text, with its first word in the verdict's colour on a terminal."""
    if not _is_coloured():
        return text
    word, space, rest = text.partition(" ") if " " in text.split("\n", 1)[0] else text.partition("\n")
    return f"\x1b[1;{COLOURS.get(verdict, '33')}m{word}\x1b[0m{space}{rest}"


def _put(text: str) -> None:
    if sys.stdout is None:
        raise OSError(errno.EBADF, "standard output is closed")
    sys.stdout.write(text)
    if not text.endswith("\n"):
        sys.stdout.write("\n")


def _put_record(record: Dict[str, Any]) -> None:
    _put(json.dumps(record, indent=2, ensure_ascii=True))


def _single(given: argparse.Namespace) -> int:
    answer = _asked(given)
    if given.json:
        _put_record(record_of(answer))
    elif isinstance(answer, Yes) and answer.derivation is not None:
        _put(answer.derivation)
    else:
        _put(_coloured(answer.verdict, answer.explain(given.full)))
    return answer.status


def _many(given: argparse.Namespace) -> int:
    if len(given.given) > 2:
        raise UsageError("a batch takes a manifest, or two directories")
    pairs = batch.pairs_of(given.given)
    outcomes = []
    shows = sys.stderr is not None and sys.stderr.isatty()
    found = questions.same_many(pairs, phase=given.phase, timeout=given.timeout, workers=given.workers)
    with contextlib.closing(found):
        for number, outcome in enumerate(found, 1):
            outcomes.append(outcome)
            if shows:
                # (what stands there goes before a line is written over it)
                sys.stderr.write("\r\x1b[K")
                sys.stderr.flush()
            if not given.json:
                _put(_line(outcome))
                sys.stdout.flush()
            if shows and number < len(pairs):
                sys.stderr.write(f"{number} of {len(pairs)} ..")
                sys.stderr.flush()
    status = _common_status(outcomes)
    counts = _counts(outcomes, ("yes", "no", "unknown", "refused", "error"))
    if given.json:
        records = [_outcome_record(outcome) for outcome in outcomes]
        _put_record({"schema": SCHEMA, "pairs": records, "counts": counts, "status": status})
    else:
        _put(_summary(len(pairs), "pair", counts))
    return status


def _counts(found: Sequence[Any], verdicts: Sequence[str]) -> Dict[str, int]:
    return {verdict: sum(each.verdict == verdict for each in found) for verdict in verdicts}


def _summary(count: int, what: str, counts: Dict[str, int]) -> str:
    told = ", ".join(f"{number} {verdict}" for verdict, number in counts.items() if number)
    return f"{count} {what if count == 1 else what + 's'}{': ' + told if told else ''}"


def _line(outcome: questions.Outcome) -> str:
    """A pair's line: verdict, files, and what there is to say in short."""
    files = f"{outcome.first} {outcome.second}"
    if outcome.answer is not None:
        line = outcome.answer.line
        said = "" if line == "yes" else line.partition(" ")[2]
        said = said if len(said) <= 100 else said[:97] + "..."
    else:
        said = str(outcome.error).split("\n", 1)[0]
    return _coloured(outcome.verdict, f"{outcome.verdict:8}{files}{'  ' + said if said else ''}")


def _outcome_record(outcome: questions.Outcome) -> Dict[str, Any]:
    if outcome.answer is not None:
        return record_of(outcome.answer)
    assert outcome.error is not None
    return {**error_record(outcome.error), "first": outcome.first, "second": outcome.second}


def _common_status(found: Sequence[Any]) -> int:
    """The status of many outcomes, or of many responses."""
    statuses = {each.status for each in found}
    if any(status > 2 for status in statuses):
        return 65
    return 1 if 1 in statuses else 2 if 2 in statuses else 0


def _edited(given: argparse.Namespace) -> int:
    script = _circuit(given.script, "a script")
    full: Optional[FullError] = None
    try:
        responses = scripts.run(script, timeout=given.timeout)
    except FullError as error:
        responses, full = error.responses, error
    status = full.status if full else _common_status(responses)
    counts = _counts(responses, ("done", "yes", "no", "unknown", "refused"))
    if given.json:
        _put_record(script_record(responses, counts, len(full.left) if full else 0, status))
        return status
    for response in responses:
        _put(_response_line(response, given.full))
    _put(_summary(len(responses), "command", counts))
    return _failed(full, False) if full else status


def _response_line(response: scripts.Response, full: bool) -> str:
    """What came of a command; what stands behind the first line is indented."""
    said = response.explain(full).replace("\n", "\n    ")
    text = f"{response.verdict:8}line {response.command.line}: {response.command}: {said}"
    return _coloured(response.verdict, text)


def _failed(error: PathsumError, as_json: bool) -> int:
    if as_json:
        _put_record(error_record(error))
    else:
        sys.stdout.flush()
        prefix = "" if isinstance(error, RefusedError) else "pathsum: "
        sys.stderr.write(f"{prefix}{error}\n")
    return error.status


def _run(words: Sequence[str]) -> int:
    as_json = "--json" in words
    try:
        given = _parser().parse_args(words)
        if given.version:
            _put(version_line())
            return 0
        if given.command is None:
            raise UsageError("a command is wanted: compare, prove, replay, batch or edit (pathsum --help says more)")
        return {"batch": _many, "edit": _edited}.get(given.command, _single)(given)
    except PathsumError as error:
        return _failed(error, as_json)


def _complain(text: str) -> None:
    with contextlib.suppress(OSError, AttributeError):
        sys.stderr.write(text)


def main(words: Optional[Sequence[str]] = None) -> int:
    """Does what the words say, and gives the exit status. Whatever goes wrong, that is 64 or more: 1 and 2 are answers."""
    for stream in (sys.stdout, sys.stderr):
        if hasattr(stream, "reconfigure"):
            stream.reconfigure(errors="backslashreplace")
    try:
        status = _run(sys.argv[1:] if words is None else words)
        if sys.stdout is not None:
            sys.stdout.flush()
        return status
    except BrokenPipeError:
        # whoever read the output has enough of it
        _drop_output()
        return 67
    except OSError as error:
        _complain(f"pathsum: the output can't be written: {error.strerror}\n")
        _drop_output()
        return 67
    except KeyboardInterrupt:
        _complain("\npathsum: interrupted\n")
        return 130
    except Exception as error:  # noqa: B902 (a fault of this tool must not end with the status of an answer)
        if os.environ.get("PATHSUM_TRACEBACK"):
            raise SystemExit(_traced()) from None
        said = str(error).replace("\n", " ") or "no more is known"
        _complain(f"pathsum: a fault of this tool ({type(error).__name__}: {said}); PATHSUM_TRACEBACK=1 tells where\n")
        return 70


def _traced() -> int:
    traceback.print_exc()
    return 70


def _drop_output() -> None:
    """What is still to be written goes nowhere, so that the end of Python does not complain again."""
    with contextlib.suppress(OSError):
        os.dup2(os.open(os.devnull, os.O_WRONLY), 1)


def _stopped(number: int, frame: Any) -> NoReturn:
    raise SystemExit(128 + number)


def entry() -> NoReturn:
    """Where a command begins. A request to end it ends the program too."""
    for number in (signal.SIGTERM, signal.SIGHUP):
        signal.signal(number, _stopped)
    sys.exit(main())
