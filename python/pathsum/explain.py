"""Answers in words."""
from __future__ import annotations

from fractions import Fraction
from typing import List, Tuple

from .answers import Accepted, Answer, Input, Left, Limit, No, Rejected, RemainingSum, Shared, Unknown, Yes
from .faults import REASONS
from .scripts import Response

SHORT = 160
"""A sum with a longer text is told by its size alone."""
MANY = 12
"""So many qubits are told one by one; of more, those that are 1."""


def in_words(answer: Answer, full: bool = False) -> str:
    """The verdict on a line of its own, and behind it what it means and what can be done."""
    lines = _lines(answer, full)
    shared = getattr(answer, "shared", None)
    if shared is not None:
        lines.append(_of_shared(answer, shared))
    if answer.proved is False:
        lines.append("(By an unproved build: this is what the code does, and nothing shows that it is right.)")
    return "\n".join(lines)


def _lines(answer: Answer, full: bool) -> List[str]:
    if isinstance(answer, Yes):
        return _of_yes(answer)
    if isinstance(answer, No):
        return _of_no(answer)
    if isinstance(answer, Unknown):
        return _of_unknown(answer, full)
    if isinstance(answer, Accepted):
        return ["accepted", "Each line of the derivation holds and it ends in 1: the two circuits are one linear map."]
    if isinstance(answer, Rejected):
        shown = f"\n    {answer.source}" if answer.source else ""
        return [f"rejected {answer.number} {answer.reason}", f"Line {answer.number}: {REASONS[answer.reason]}.{shown}"]
    assert isinstance(answer, Left)
    return [
        "left " + _told(answer.remaining, full),
        "Each line of the derivation holds, but its last sum is not 1, so it shows nothing about the circuits.",
        *_of_sum(answer.remaining),
    ]


def _of_yes(answer: Yes) -> List[str]:
    if answer.phase is None:
        return ["yes", "The two circuits are one linear map, exactly, global phase included."]
    if answer.phase == 0:
        return ["yes phase 0", "The two circuits are one linear map, exactly; they differ by no phase."]
    return [
        f"yes phase {answer.phase}",
        "The two circuits are one linear map up to a global phase: the second is the first with "
        f"{turned(answer.phase)} more.",
    ]


def turned(phase: Fraction) -> str:
    """A phase in words: 1/4 of a turn, that is pi/2."""
    half_turns = phase * 2
    number = "" if half_turns.numerator == 1 else f"{half_turns.numerator}*"
    under = "" if half_turns.denominator == 1 else f"/{half_turns.denominator}"
    return f"{phase} of a turn ({number}pi{under})"


def _of_no(answer: No) -> List[str]:
    if answer.second_input is not None:
        return [
            f"no {answer.input.bits} {answer.second_input.bits}",
            f"At each of the inputs {answer.input} and {answer.second_input} the two circuits differ by a phase, and these "
            "two phases are different: no one phase makes the circuits alike.",
        ]
    if answer.behind:
        return [
            f"no {answer.input.bits} behind {answer.behind}",
            f"The two circuits differ: behind the first {answer.behind} items of both, at the basis state {_each(answer.input)}. "
            "There is an input of the whole at which they differ, and it was not found.",
            *([] if answer.phase is None else [_up_to(answer.phase)]),
        ]
    head = f"no {answer.input.bits}"
    if answer.question == "phase":
        return [
            head,
            f"At the basis input {_each(answer.input)} the two circuits give states that differ by more than a phase (a "
            "multiple of 2^-32 of a turn).",
        ]
    means = f"At the basis input {_each(answer.input)} the two circuits give different states."
    return [head, means, EXACT if answer.phase is None else _up_to(answer.phase)]


def _each(given: Input) -> str:
    if len(given.bits) <= MANY:
        return ", ".join(f"{qubit}={bit}" for qubit, bit in given)
    ones = [str(qubit) for qubit in given.ones]
    if not ones:
        return "with all qubits 0"
    if len(ones) <= MANY:
        return f"with {', '.join(ones)} 1 and all others 0"
    return str(given)


EXACT = (
    "This is about exact maps: a global phase counts, though no measurement shows it. rx(pi) is x only up to one, for "
    "example; see docs/VERDICTS.md."
)
"""What is told behind a no where it isn't known that a phase alone differs."""


def _up_to(phase: Fraction) -> str:
    return (
        f"But that is all: they are one map up to a global phase of {turned(phase)}, which no measurement of the whole "
        "circuit shows. With --phase such circuits are a yes."
    )


def _of_unknown(answer: Unknown, full: bool) -> List[str]:
    if answer.limit is not None:
        return _of_limit(answer.limit)
    assert answer.remaining is not None
    return [
        "unknown stuck " + _told(answer.remaining, full),
        "Neither was shown: the comparison came to a sum that none of the three rules reduces. The circuits may be equal or "
        "not.",
        *_of_sum(answer.remaining),
        "What to try: compare the part that was rewritten instead of the whole, or rewrite in smaller steps and compare each.",
    ]


def _count(limit: Limit) -> str:
    return "10^12 or more" if limit.count >= 10**12 else f"{limit.count:,}"


def _of_limit(limit: Limit) -> List[str]:
    count = _count(limit)
    head = f"unknown passed {limit.what} {limit.count}"
    if limit.what == "terms":
        return [
            head,
            f"Neither was shown: a sum on the way would have {count} terms, and at most {limit.allowed:,} are allowed. The "
            "circuits may be equal or not.",
            "What to try: compare the part that was rewritten instead of the whole, or circuits on fewer bits. Sums grow "
            "where angles finer than pi/4 meet sums of many qubits, and where many carries wait for their undoing.",
        ]
    return [
        head,
        f"Neither was shown: comparing would take {count} variables, and at most {limit.allowed} are allowed (two for each "
        "qubit, and what Hadamards and rotations leave). The circuits may be equal or not.",
        "What to try: compare the part that was rewritten instead of the whole, or circuits on fewer bits.",
    ]


def _told(remaining: RemainingSum, full: bool) -> str:
    if full or len(remaining.text) <= SHORT:
        return remaining.text
    return f"k={remaining.scale} m={remaining.variables}, of {remaining.terms:,} terms"


def _of_sum(remaining: RemainingSum) -> List[str]:
    terms = f"{remaining.terms:,} {'term' if remaining.terms == 1 else 'terms'}"
    if remaining.variables:
        what = (
            f"What is left is a sum over m={remaining.variables} path variables y0, y1, .. that are 0 or 1, divided by the root "
            f"of 2 to the k={remaining.scale}; P is the phase of each summand in turns, in {terms} of inputs x and path "
            "variables y; f=- says that no output is left."
        )
    else:
        what = (
            f"What is left is a phase P in turns, in {terms} of inputs x, divided by the root of 2 to the k={remaining.scale}, "
            "with no path variable (m=0) and no output (f=-)."
        )
    if len(remaining.text) > SHORT:
        return [what, f"It is {len(remaining.text):,} bytes long; --full prints it whole."]
    return [what]


def _span(lines: Tuple[int, int]) -> str:
    first, last = lines
    if last < first:
        return "nothing"
    return f"line {first}" if first == last else f"lines {first} to {last}"


def _of_shared(answer: Answer, shared: Shared) -> str:
    how = ", once gates on different qubits are exchanged" if shared.exchanged else ""
    return (
        f"Alike are {shared.front} items in front and {shared.back} behind{how}; what is left is {_span(shared.first_lines)} of "
        f"{answer.first}, and {_span(shared.second_lines)} of {answer.second}."
    )


def response_in_words(response: Response, full: bool = False) -> str:
    """What came of a command of a script: a sentence, and on lines behind it what more there is to say."""
    answer = response.answer
    if isinstance(answer, Unknown):
        return in_words(answer, full).partition(" ")[2]
    if answer is not None:
        return "\n".join([_lines(answer, full)[1], *_of_derivation(answer, full)])
    if response.kind == "shown":
        items = response.items or ()
        return "\n".join([_many(len(items), "item"), *("; ".join(item) or "-" for item in items)])
    if response.limit is not None:
        would = f"{_count(response.limit)} {response.limit.what}"
        return f"it has no sum: a part of it would have {would}, and at most {response.limit.allowed:,} are allowed"
    if response.sum is not None:
        return _told(response.sum, full)
    if response.fault is not None:
        return f"the {'text' if response.command.word == 'open' else 'block'} has a fault\n{response.fault}"
    return _of_command(response) if response.kind in ("opened", "committed", "retired") else _of_refusal(response)


def _many(count: int, what: str) -> str:
    return f"{count:,} {what if count == 1 else what + 's'}"


def _of_derivation(answer: Answer, full: bool) -> List[str]:
    derivation = getattr(answer, "derivation", None)
    if derivation is None:
        return []
    lines = derivation.rstrip("\n").split("\n")
    return lines if full else [f"A derivation of {_many(len(lines), 'line')} shows it; --full prints it."]


def _of_command(response: Response) -> str:
    if response.kind == "retired":
        return "nothing can be asked about it any more"
    if not response.missing:
        return f"version {response.version}"
    parts = f"{_many(response.missing, 'part')} {'has' if response.missing == 1 else 'have'}"
    return f"version {response.version}, of which {parts} no sum yet"


def _of_refusal(response: Response) -> str:
    command, earlier = response.command, response.earlier
    at = f", at line {earlier.line}" if earlier else ""
    names = " or ".join(dict.fromkeys(f"`{place.name}`" for place in command.places))
    versions = " or ".join(dict.fromkeys(str(place) for place in command.places))
    items = _many(response.length or 0, "item")
    said = {
        "name taken": f"a circuit {names} was opened before{at}",
        "circuits full": "256 circuits were opened, and no more can be",
        "no circuit": f"there is no circuit {names}",
        "no version": f"there is no version {versions}: the latest is {response.latest}",
        "was retired": f"the version {versions} was retired before{at}",
        "latest": "the latest version can't be retired",
        "stale": f"{command.places[0]} is not the latest version, which is {response.latest}: splice that",
        "span": f"the version has {items}: FROM is at most TO, and TO at most {response.length}",
        "too long": f"it would have {items}, and a circuit has at most 65,536",
        "nothing": "nothing is taken out and nothing put in",
        "no room": f"{response.total or 0:,} terms would be kept in this run, and at most 8,388,608 are: split the script",
        "memory": "memory ran out; no circuit was changed",
    }
    if response.kind == "widths":
        counts = [_many(count or 0, "qubit") for count in (response.first_qubits, response.second_qubits)]
        first, second = (f"{place} has {count}" for place, count in zip(command.places, counts))
        return f"{first}, and {second}: only on as many can they be compared"
    return said[response.kind]
