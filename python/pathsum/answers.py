"""The answers, as frozen dataclasses."""
from __future__ import annotations

from dataclasses import dataclass, field
from fractions import Fraction
from typing import Any, ClassVar, Dict, Iterator, Optional, Tuple

from .errors import UndecidedError


@dataclass(frozen=True)
class Qubit:
    """A qubit by its register and its index in that."""

    register: str
    index: int

    def __str__(self) -> str:
        return f"{self.register}[{self.index}]"


@dataclass(frozen=True)
class Input:
    """A basis input: a bit for each qubit."""

    bits: str
    """A digit for each qubit, in the order in which the circuit declares them."""
    qubits: Tuple[Qubit, ...]
    """The qubits in that order, by the registers of the first circuit."""

    def __iter__(self) -> Iterator[Tuple[Qubit, int]]:
        return iter((qubit, int(bit)) for qubit, bit in zip(self.qubits, self.bits))

    @property
    def ones(self) -> Tuple[Qubit, ...]:
        """The qubits that are 1."""
        return tuple(qubit for qubit, bit in self if bit)

    def __str__(self) -> str:
        """The input by registers: `q=101, c=0`, each register's index 0 first."""
        registers: Dict[str, str] = {}
        for qubit, bit in self:
            registers[qubit.register] = registers.get(qubit.register, "") + str(bit)
        return ", ".join(f"{name}={bits}" for name, bits in registers.items())


@dataclass(frozen=True)
class RemainingSum:
    """A path sum that no rule reduces: the one to which a comparison came, or a version's own."""

    text: str
    """As the program prints it: `k=2 m=1 P=7/8*y0 f=-`."""
    scale: int
    """k: the sum is divided by the root of 2 to this power."""
    variables: int
    """m: over so many path variables, each 0 or 1, the sum is taken."""
    terms: int
    """How many terms the phase P has."""

    @classmethod
    def of(cls, text: str) -> "RemainingSum":
        parts = dict(part.split("=", 1) for part in text.split(" "))
        phase = parts["P"]
        terms = 0 if phase == "0" else phase.count("+") + 1
        return cls(text, int(parts["k"]), int(parts["m"]), terms)


@dataclass(frozen=True)
class Limit:
    """A limit that was passed."""

    what: str
    """`terms` or `variables`."""
    count: int
    """What it would have come to; 10^12 stands for all above it."""
    allowed: int
    """The limit."""


LIMITS = {"terms": 65_536, "variables": 512}


@dataclass(frozen=True)
class Answer:
    """An answer to a question about two circuits."""

    question: str
    """What was asked: `same`, `phase` (up to a global phase), `local`, `prove` or `replay`."""
    first: str
    """The first circuit's name."""
    second: str
    """The second circuit's name."""
    line: str
    """The first line that the program printed."""
    proved: Optional[bool]
    """Whether a proved program answered; None where that isn't known, as for one named by PATHSUM_PROGRAM."""
    seconds: float = field(compare=False)
    """How long it took, by the clock."""

    verdict: ClassVar[str]
    """`yes`, `no`, `unknown`; of a replay `accepted`, `rejected`, `left`."""
    status: ClassVar[int]
    """The program's exit status: 0, 1 or 2."""

    def __bool__(self) -> bool:
        """True for 0, False for 1. An answer that is neither says so: `unknown` is no `no`."""
        if self.status == 2:
            raise UndecidedError(f"the answer is neither yes nor no: {self.line[:200]}")
        return self.status == 0

    def explain(self, full: bool = False) -> str:
        """The answer in words."""
        from .explain import in_words

        return in_words(self, full)

    def to_json(self) -> Dict[str, Any]:
        """The answer as docs/JSON.md has it."""
        from .records import record_of

        return record_of(self)


@dataclass(frozen=True)
class Yes(Answer):
    """Both circuits are one linear map; where that was asked, up to a global phase."""

    derivation: Optional[str] = field(default=None, repr=False)
    """What `prove` printed: lines that show it, for anybody to replay."""
    phase: Optional[Fraction] = None
    """Where that was asked: by which part of a turn the second differs from the first, at all inputs alike."""
    shared: Optional["Shared"] = None
    """What both have alike in front and behind, where the question was asked of the rest alone."""

    verdict: ClassVar[str] = "yes"
    status: ClassVar[int] = 0


@dataclass(frozen=True)
class No(Answer):
    """The circuits differ: at this input they do not give the same state."""

    input: Input
    """An input at which they differ. Where `behind` is above 0: the state, of all qubits, behind so many items."""
    second_input: Optional[Input] = None
    """Where a phase was allowed: both inputs come out alike up to phases, and these two phases differ."""
    behind: int = 0
    """So many items of both stand in front of the part that differs at `input`."""
    phase: Optional[Fraction] = None
    """Where that was asked too and is so: up to this part of a turn, a global phase, the circuits are one map."""
    shared: Optional["Shared"] = None
    """What both have alike in front and behind, where the question was asked of the rest alone."""

    verdict: ClassVar[str] = "no"
    status: ClassVar[int] = 1


@dataclass(frozen=True)
class Unknown(Answer):
    """Neither was shown: a sum is left that no rule reduces, or a limit was passed."""

    remaining: Optional[RemainingSum] = None
    limit: Optional[Limit] = None
    shared: Optional["Shared"] = None
    """What both have alike in front and behind, where the question was asked of the rest alone."""

    verdict: ClassVar[str] = "unknown"
    status: ClassVar[int] = 2


@dataclass(frozen=True)
class Accepted(Answer):
    """Each line of the derivation holds, and it ends in 1: the two circuits are one linear map."""

    verdict: ClassVar[str] = "accepted"
    status: ClassVar[int] = 0


@dataclass(frozen=True)
class Rejected(Answer):
    """A line of the derivation fails."""

    number: int
    """The first line that fails, counted from 1."""
    reason: str
    """`Form`, `Cut`, `Order`, `Redex` or `Limit`; docs/FAULTS.md has what each means."""
    source: str
    """That line; empty behind the last one."""

    verdict: ClassVar[str] = "rejected"
    status: ClassVar[int] = 1


@dataclass(frozen=True)
class Left(Answer):
    """Each line of the derivation holds, and its last sum is not 1: it shows nothing."""

    remaining: RemainingSum

    verdict: ClassVar[str] = "left"
    status: ClassVar[int] = 2


@dataclass(frozen=True)
class Shared:
    """What two circuits have alike, and between which lines they do not."""

    front: int
    """So many items in front."""
    back: int
    """So many items behind."""
    first_lines: Tuple[int, int]
    """The first and last line of the first file that has an item of the rest; (0, -1) where none has."""
    second_lines: Tuple[int, int]
    """The same of the second file."""
    exchanged: bool = False
    """Whether gates on different qubits are exchanged for that; without, the front and the back are as they stand."""
