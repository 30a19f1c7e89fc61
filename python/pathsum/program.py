"""Which program answers, and asking it."""
from __future__ import annotations

import contextlib
import functools
import os
import signal
import subprocess
import threading
import time
from dataclasses import dataclass
from pathlib import Path
from typing import Optional, Sequence

from .errors import Cancelled, ProgramError, TimeLimitError

VARIABLE = "PATHSUM_PROGRAM"
"""The environment variable that names a program to ask in place of the one that is found."""

HERE = Path(os.path.realpath(__file__)).parent


@dataclass(frozen=True)
class Program:
    """A program that answers as pathsum does."""

    path: str
    proved: Optional[bool]
    """Whether it is a proved build of the sources beside it; None where that isn't known."""
    origin: str
    """Where it comes from, in a word or two."""


@dataclass(frozen=True)
class Reply:
    """What a program said."""

    status: int
    output: bytes
    complaint: bytes
    seconds: float


def find_program() -> Program:
    """The program that answers: the one that PATHSUM_PROGRAM names; else, in a checkout of the repository, the proved one
    that fits its sources, or `./pathsum`, which builds one without its proof for each question; else the one that was
    installed with this package."""
    return _found(os.environ.get(VARIABLE, ""))


@functools.lru_cache(maxsize=None)
def _found(named: str) -> Program:
    if named:
        path = os.path.abspath(named)
        if not os.path.isfile(path) or not os.access(path, os.X_OK):
            raise ProgramError(f"{VARIABLE} names {named}, which is no program that can be run")
        return Program(path, None, f"named by {VARIABLE}")
    root = HERE.parent.parent
    if (root / "tools" / "find-program").is_file() and (root / "pathsum").is_file():
        found = subprocess.run([str(root / "tools" / "find-program")], stdout=subprocess.PIPE, check=False)
        path = os.fsdecode(found.stdout).strip()
        if found.returncode == 0 and path:
            carried = Path(path).parent.name == "dist"
            return Program(path, True, "carried by the repository" if carried else "built here")
        return Program(str(root / "pathsum"), False, "built without its proof for each question")
    installed = HERE / "program" / "pathsum"
    if installed.is_file():
        return Program(str(installed), True, "installed with this package")
    raise ProgramError(
        f"no pathsum program is installed with this package: set {VARIABLE} to one, or install from a checkout whose "
        "dist/pathsum fits its sources"
    )


def version_line() -> str:
    """The package's version and the program that answers."""
    from . import __version__

    try:
        found = find_program()
    except ProgramError as error:
        return f"pathsum {__version__}, without a program: {error}"
    kind = {True: "proved", False: "not proved", None: "whether proved is not known"}[found.proved]
    return f"pathsum {__version__}, asking {found.path} ({found.origin}; {kind})"


def ask(
    words: Sequence[str],
    given: bytes,
    timeout: Optional[float] = None,
    cancel: Optional[threading.Event] = None,
) -> Reply:
    """Runs the program on words and an input. Whatever ends this early ends the program too."""
    program = find_program()
    start = time.monotonic()
    try:
        child = subprocess.Popen(
            [program.path, *words],
            stdin=subprocess.PIPE,
            stdout=subprocess.PIPE,
            # what the script says of an unproved build goes where this process's errors go
            stderr=None if program.proved is False else subprocess.PIPE,
            start_new_session=True,
        )
    except OSError as error:
        raise ProgramError(f"{program.path} can't be run: {error.strerror}") from None
    try:
        output, complaint = _wait(child, given, start, timeout, cancel)
    finally:
        _end(child, gently=program.proved is False)
    return Reply(child.returncode, output, complaint or b"", time.monotonic() - start)


def _wait(child, given, start, timeout, cancel):  # type: ignore[no-untyped-def]
    input = given
    while True:
        if cancel is not None and cancel.is_set():
            raise Cancelled("the question was cancelled")
        left = None if timeout is None else timeout - (time.monotonic() - start)
        if left is not None and left <= 0:
            raise TimeLimitError(f"no answer within {timeout:g} seconds; the program was ended")
        pause = left if cancel is None else min(0.05, 0.05 if left is None else left)
        with contextlib.suppress(subprocess.TimeoutExpired):
            return child.communicate(input, timeout=pause)
        # (it goes on with what it was handed first)
        input = None


def _end(child: "subprocess.Popen[bytes]", gently: bool) -> None:
    """Ends the program and all that it started, where it still runs."""
    if child.poll() is not None:
        return
    for number in ([signal.SIGTERM] if gently else []) + [signal.SIGKILL]:
        with contextlib.suppress(ProcessLookupError, PermissionError):
            os.killpg(child.pid, number)
        with contextlib.suppress(subprocess.TimeoutExpired):
            child.wait(timeout=5)
            break
    for pipe in (child.stdin, child.stdout, child.stderr):
        if pipe is not None:
            with contextlib.suppress(OSError):
                pipe.close()
