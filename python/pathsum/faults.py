"""What each fault means, and the usual way out."""
from __future__ import annotations

import difflib
from typing import Callable, Dict, List, Optional, Sequence

from .angles import nearest_multiple, simple_multiple, value_of
from .circuits import Circuit, has_mark
from .errors import Fault
from .library import BODIES, LIBRARY
from .reading import Text, Token, expression_at, token_at, wanted_at

MEANINGS: Dict[str, str] = {
    "BadByte": "no token begins with this byte",
    "BadNumber": "a letter, a digit, `_` or `.` stands right behind a number, or its exponent has no digit",
    "OpenString": "this text has no closing `\"` on its line",
    "Version": "a text begins with `OPENQASM 2.0;`",
    "Syntax": "the text can't go on with this",
    "NotUnitary": "`measure`, `reset` and `if` are no part of a unitary circuit",
    "Include": 'the one file that can be included is "qelib1.inc"',
    "Opaque": "an `opaque` gate has no meaning that could be compared",
    "Deep": "more than 128 parentheses, functions, unary minuses and `^` are open at once",
    "NotDyadic": "this angle is no dyadic multiple of pi, that is no whole number times pi over a power of 2",
    "AngleRange": "this angle, or a number on the way to it, is outside of what is computed exactly",
    "NoParameter": "the gate has no parameter of this name",
    "Function": "`sin`, `cos`, `tan`, `exp`, `ln` and `sqrt` are not evaluated, since their values are not exact",
    "ByZero": "this divides by zero",
    "Unknown": "no gate, register or argument has this name",
    "Arity": "the gate takes another number of parameters or of arguments",
    "Redeclared": "this name is declared already",
    "Range": "this index or size is out of range",
    "RepeatedQubit": "one gate is applied to the same qubit twice",
    "Sizes": "the registers of one application have different sizes",
    "TooMany": "these are too many",
    "NoQubits": "the text declares no qubits",
    "Separator": "a line `====` between the circuits is missing",
    "Widths": "the two circuits have different numbers of qubits",
    "Form": "this is no command of a script",
    "Session": "a script has the sessions 0 to 15",
    "Block": "the line `.` that ends the block of this command is missing",
}
"""The sentence of each fault of a text, of a pair of texts, or of a script."""

REASONS: Dict[str, str] = {
    "Form": "this is no line of a derivation, or it stands behind the line `end`",
    "Cut": "the derivation ends before its line `end`",
    "Order": "the line's entries are not there, or not in the order that it needs",
    "Redex": "the rewrite step does not apply to the last sum",
    "Limit": "the line would pass a limit: 512 variables, or 65,536 terms in one replacement",
}
"""The sentence of each reason for which a line of a derivation is rejected."""

DYADIC = (
    "Sums are exact, so an angle must be a whole number times pi over a power of 2 (down to pi/2^30): pi/4, 3*pi/8 and "
    "0.5*pi are, pi/3, 0.1 and 0.7854 are not."
)


DECLARING = ("OPENQASM", "include", "qreg", "creg", "gate")
"""What stands in a whole text, and in no block of a splice."""


class _Spot:
    """A fault's place in a text."""

    def __init__(self, circuit: Circuit, line: int, column: int, opened: Optional[Circuit]) -> None:
        lines = circuit.data.split(b"\n")
        self.offset = sum(len(each) + 1 for each in lines[: line - 1]) + column - 1
        # (what stands far behind the fault explains nothing)
        self.text = Text(circuit.data[: self.offset + 4096], opened.data if opened else None)
        self.token: Optional[Token] = token_at(self.text, self.offset)
        self.line, self.column = line, column
        self.at_end = self.offset >= len(circuit.data)
        if self.at_end:
            self.offset = len(circuit.data)
            # where the last token ends says more than where the file does
            end = self.text.tokens[-1].end if self.text.tokens else 0
            self.line = circuit.data.count(b"\n", 0, end) + 1
            self.column = end - circuit.data.rfind(b"\n", 0, end)
        self.source = lines[self.line - 1].decode("utf-8", "replace").rstrip("\r") if self.line <= len(lines) else ""

    @property
    def word(self) -> str:
        return self.token.text if self.token else ""

    @property
    def before(self) -> List[str]:
        """The tokens of the statement before this place."""
        found: List[str] = []
        for token in self.text.tokens:
            if token.start >= self.offset:
                break
            found = [] if token.text in (";", "{", "}") else found + [token.text]
        return found


def _bad_byte(spot: _Spot) -> Optional[str]:
    letter = spot.text.data[spot.offset : spot.offset + 1]
    if letter >= b"\x80" or letter == b"\0":
        return "Outside of comments a circuit is written in ASCII. Is the file OpenQASM at all, and saved as ASCII or UTF-8?"
    return "Names begin with a letter and have letters, digits and `_`." if letter == b"_" else None


def _version(spot: _Spot) -> Optional[str]:
    head = [token.text for token in spot.text.tokens[:2]]
    if head[:1] == ["OPENQASM"] and head[1:] and head[1].startswith("3"):
        return (
            "This is OpenQASM 3, and pathsum reads OpenQASM 2.0: export the circuit as version 2 "
            "(Qiskit: qiskit.qasm2.dumps(circuit))."
        )
    return "Put it on the first line; only comments may stand before it."


def _syntax(spot: _Spot) -> Optional[str]:
    if has_mark(spot.source):
        return "A line `====` is what separates circuits in pathsum's own input, and is never right in one: a file has one circuit."
    if spot.text.is_block and spot.word in DECLARING:
        return "The gates of a splice are applications alone: what they name is declared where their circuit is opened."
    wanted = wanted_at(spot.text, spot.offset)
    if not wanted:
        return None
    these = wanted[0] if len(wanted) == 1 else ", ".join(wanted[:-1]) + " or " + wanted[-1]
    return f"What could stand here: {these}."


def _not_unitary(spot: _Spot) -> Optional[str]:
    return (
        "Take measurements out before comparing (Qiskit: circuit.remove_final_measurements()); what is compared is the "
        "part before them."
    )


def _include(spot: _Spot) -> Optional[str]:
    return "Paste the definitions of the gates in place of the include."


def _opaque(spot: _Spot) -> Optional[str]:
    return "Define the gate with `gate`, in both circuits alike."


def _not_dyadic(spot: _Spot) -> Optional[str]:
    expression = _angle_at(spot)
    if not expression:
        return "One of the gate's angles comes to such a value. " + DYADIC
    simple = simple_multiple(expression)
    if simple:
        return f"If {simple} is meant, write that. " + DYADIC
    nearest = nearest_multiple(expression)
    if nearest is None or nearest == "0":
        return DYADIC
    return DYADIC + f" The nearest that can be written is {nearest}, which makes another, if close, circuit."


def _angle_at(spot: _Spot) -> List[Token]:
    """The angle at a place; at a gate's name, the first of its angles that has no pi and is not 0."""
    if "(" in spot.before:
        return expression_at(spot.text, spot.offset)
    at = spot.text.tokens.index(spot.token) if spot.token else len(spot.text.tokens)
    if [token.text for token in spot.text.tokens[at + 1 : at + 2]] != ["("]:
        return []
    at += 2
    while at < len(spot.text.tokens):
        expression = expression_at(spot.text, spot.text.tokens[at].start)
        if value_of(expression) and all(token.text != "pi" for token in expression):
            return expression
        at += len(expression) + 1
        if at > len(spot.text.tokens) or spot.text.tokens[at - 1].text != ",":
            break
    return []


def _angle_range(spot: _Spot) -> Optional[str]:
    return (
        "An angle is a whole multiple of pi/2^30. A number has at most 18 digits besides zeros at its end; on the way, "
        "parts are a/2^b with |a| below 2^62 and b at most 62."
    )


def _no_parameter(spot: _Spot) -> Optional[str]:
    return "Outside of a gate's body there are no parameters." if "gate" not in spot.before else None


def _function(spot: _Spot) -> Optional[str]:
    expression = expression_at(spot.text, spot.offset)
    simple = nearest_multiple(expression)
    if simple and len(simple) < 9:
        return f"If {simple} is meant, write that."
    return "Write the value as a multiple of pi over a power of 2, where it is one."


def _unknown(spot: _Spot) -> Optional[str]:
    name = spot.word
    text = " of the text with which the circuit is opened" if spot.text.is_block else ""
    if name in LIBRARY and not spot.text.includes_library:
        return f'`{name}` is a gate of the library: put `include "qelib1.inc";` behind the first line{text}.'
    if name in BODIES:
        return (
            f"`{name}` is not in pathsum's qelib1.inc. This defines it, up to a global phase; put it behind the "
            f"include{text}:\n    {BODIES[name]}"
        )
    known = sorted(spot.text.names() | (set(LIBRARY) if spot.text.includes_library else set()))
    close = difflib.get_close_matches(name, known, 1, 0.6)
    if close:
        return f"Is `{close[0]}` meant?"
    if not spot.before:
        return "A gate that is not in the library is defined with `gate`; docs/VERDICTS.md has bodies to paste for common ones."
    return None


def _arity(spot: _Spot) -> Optional[str]:
    if spot.word == "U":
        return "`U` takes three angles and one qubit."
    return "`CX` takes no angle and two qubits." if spot.word == "CX" else None


def _redeclared(spot: _Spot) -> Optional[str]:
    return "Names are declared once: registers share one set of names, and gates another."


def _range(spot: _Spot) -> Optional[str]:
    if spot.before[:1] in (["qreg"], ["creg"]):
        return "A register has 1 to 4,294,967,295 places, and a circuit at most 64 qubits."
    for register in spot.text.registers:
        if register.name == spot.word:
            if register.size == 1:
                return f"`{register.name}` has one qubit, `{register.name}[0]`."
            return f"`{register.name}` has {register.size} qubits: its indices are 0 to {register.size - 1}."
    return None


def _repeated(spot: _Spot) -> Optional[str]:
    return "The qubits that a gate is applied to are all different."


def _sizes(spot: _Spot) -> Optional[str]:
    used = {register.name: register.size for register in spot.text.registers}
    here = [f"`{name}` has {used[name]}" for name in dict.fromkeys(spot.before + [spot.word]) if name in used]
    return ", ".join(here) + ": a gate is applied to whole registers of one size place by place." if len(here) > 1 else None


def _too_many(spot: _Spot) -> Optional[str]:
    if spot.before[:1] == ["qreg"]:
        return "A circuit has at most 64 qubits in all."
    return (
        "A circuit has at most 65,536 items, one for each gate applied to each place of a register, and a gate comes to at "
        "most 4,096 primitive gates U and CX. Compare the circuit part by part."
    )


def _no_qubits(spot: _Spot) -> Optional[str]:
    return "Declare a register, as in `qreg q[2];`."


ADVICE: Dict[str, Callable[[_Spot], Optional[str]]] = {
    "BadByte": _bad_byte,
    "Version": _version,
    "Syntax": _syntax,
    "NotUnitary": _not_unitary,
    "Include": _include,
    "Opaque": _opaque,
    "NotDyadic": _not_dyadic,
    "AngleRange": _angle_range,
    "NoParameter": _no_parameter,
    "Function": _function,
    "Unknown": _unknown,
    "Arity": _arity,
    "Redeclared": _redeclared,
    "Range": _range,
    "RepeatedQubit": _repeated,
    "Sizes": _sizes,
    "TooMany": _too_many,
    "NoQubits": _no_qubits,
}


def fault_of(
    name: str, line: int, column: int, circuits: Sequence[Circuit], opened: Optional[Circuit] = None
) -> Fault:
    """The fault at a line and column of the joined input, in the file in which it stands. Where a text ends too soon its
    place is behind the last token. For the gates of a splice, `opened` is the text with which their circuit was opened."""
    circuit = circuits[0]
    of_first = circuit.joined.count(b"\n")
    # (the end of the first text is the front of the separator's line)
    if line > of_first + 1 and len(circuits) > 1:
        circuit, line = circuits[1], line - of_first - 1
    message = MEANINGS.get(name, "the program refuses this")
    if name == "Widths":
        return Fault(name, circuit.name, line, column, "", message, _widths(circuits))
    spot = _Spot(circuit, line, column, opened)
    if name in ("Syntax", "Version") and spot.at_end:
        message = "the text ends too soon"
    elif name == "Syntax" and spot.word:
        message = f"`{spot.word}` can't stand here"
    advice = ADVICE[name](spot) if name in ADVICE else None
    return Fault(name, circuit.name, spot.line, spot.column, spot.source, message, advice)


def _widths(circuits: Sequence[Circuit]) -> str:
    counts = []
    for circuit in circuits:
        registers = ", ".join(f"{register.name}[{register.size}]" for register in circuit.registers)
        counts.append(f"{circuit.name} has {len(circuit.qubits)} qubits ({registers})")
    return "; ".join(counts) + ". Two circuits are compared on the same qubits: declare as many in both, ancillas too."
