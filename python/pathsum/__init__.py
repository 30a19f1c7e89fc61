"""Whether two quantum circuits are one linear map, decided exactly and with a proof behind each answer.

    import pathsum

    answer = pathsum.same("before.qasm", "after.qasm")
    if answer:                          # yes; a no is False, and unknown raises UndecidedError
        ...
    print(answer.verdict, answer.explain())

    pathsum.assert_same(before, after)  # in a test suite: fails with what differs, where

    script = pathsum.Script()           # circuits under edit: open, splice, ask about versions
    for response in pathsum.run(script):
        print(response.command, response.explain())
"""
from __future__ import annotations

from .answers import (
    Accepted,
    Answer,
    Input,
    Left,
    Limit,
    No,
    Qubit,
    Rejected,
    RemainingSum,
    Shared,
    Unknown,
    Yes,
)
from .circuits import Circuit
from .commands import Command, Place
from .errors import (
    Cancelled,
    CircuitError,
    Fault,
    FullError,
    PathsumError,
    ProgramError,
    RefusedError,
    ScriptError,
    TimeLimitError,
    TooLongError,
    UndecidedError,
    UnreadableError,
    UsageError,
)
from .program import Program, find_program
from .questions import NotKnownError, Outcome, assert_same, compare, prove, replay, same, same_many
from .scripts import Response, Script, commands_of, run

__version__ = "0.1.0"

__all__ = [
    "Accepted",
    "Answer",
    "Cancelled",
    "Circuit",
    "CircuitError",
    "Command",
    "Fault",
    "FullError",
    "Input",
    "Left",
    "Limit",
    "No",
    "NotKnownError",
    "Outcome",
    "PathsumError",
    "Place",
    "Program",
    "ProgramError",
    "Qubit",
    "RefusedError",
    "Rejected",
    "RemainingSum",
    "Response",
    "Script",
    "ScriptError",
    "Shared",
    "TimeLimitError",
    "TooLongError",
    "UndecidedError",
    "Unknown",
    "UnreadableError",
    "UsageError",
    "Yes",
    "assert_same",
    "commands_of",
    "compare",
    "find_program",
    "prove",
    "replay",
    "run",
    "same",
    "same_many",
]
