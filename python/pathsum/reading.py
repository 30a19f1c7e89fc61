"""What the messages need to know of an OpenQASM 2.0 text: tokens, registers, statements, and what could have stood at
a place. The program alone decides whether a text is accepted; nothing here changes an answer."""
from __future__ import annotations

import re
from dataclasses import dataclass
from typing import List, Optional, Sequence, Set, Tuple

TOKEN = re.compile(
    rb"(?P<space>[ \t\r\n]+|//[^\n]*)"
    rb"|(?P<word>[A-Za-z][A-Za-z0-9_]*)"
    rb"|(?P<number>(?:[0-9]+(?:\.[0-9]*)?|\.[0-9]+)(?:[eE][+-]?[0-9]+)?)"
    rb'|(?P<text>"[^"\n]*")'
    rb"|(?P<sign>->|==|[;,()\[\]{}+\-*/^])"
    rb"|(?P<other>.)",
    re.DOTALL,
)
FUNCTIONS = ("sin", "cos", "tan", "exp", "ln", "sqrt")
STATEMENTS = ("include", "qreg", "creg", "gate", "opaque", "barrier", "measure", "reset", "if")
KEYWORDS = frozenset(STATEMENTS + FUNCTIONS + ("pi",))


@dataclass(frozen=True)
class Token:
    """A token, with its place in bytes."""

    kind: str
    text: str
    start: int
    end: int

    def is_name(self) -> bool:
        return self.kind == "word" and self.text[0].islower() and self.text not in KEYWORDS

    def is_whole(self) -> bool:
        return self.kind == "number" and self.text.isdigit()


def tokens(data: bytes) -> List[Token]:
    """The tokens of a text; a byte that begins none is a token of the kind `other`."""
    found = []
    for match in TOKEN.finditer(data):
        if match.lastgroup != "space":
            text = match.group().decode("ascii", "replace")
            found.append(Token(match.lastgroup or "other", text, match.start(), match.end()))
    return found


@dataclass(frozen=True)
class Register:
    """A register of qubits."""

    name: str
    size: int


QREG = re.compile(rb"\bqreg\s+([a-z][A-Za-z0-9_]*)\s*\[\s*([0-9]+)\s*\]")


def registers_of(data: bytes) -> Tuple[Register, ...]:
    """The registers of qubits that an accepted text declares, without reading the rest."""
    plain = re.sub(rb"//[^\n]*", b"", data)
    return tuple(Register(name.decode(), int(size)) for name, size in QREG.findall(plain))


class Text:
    """What an explanation needs of a text; on one that is not accepted, as far as that goes. A block of a script has what it
    names from the text with which its circuit was opened."""

    def __init__(self, data: bytes, opened: Optional[bytes] = None) -> None:
        self.data = data
        self.tokens = tokens(data)
        self.is_block = opened is not None
        self.registers = registers_of(data if opened is None else opened)
        words = [token.text for token in (self.tokens if opened is None else tokens(opened))]
        self.gates = {name for word, name in zip(words, words[1:]) if word == "gate"}
        self.includes_library = "include" in words

    def names(self) -> Set[str]:
        """All names that the text declares."""
        return self.gates | {register.name for register in self.registers}


class _Stopped(Exception):
    """The reading can't go on at a token."""


class _Grammar:
    """Follows the grammar up to the first token with which it can't go on, and keeps what could have stood there."""

    def __init__(self, found: Sequence[Token], end: int) -> None:
        self.tokens = list(found) + [Token("end", "", end, end)]
        self.at = 0
        self.wanted: List[str] = []

    @property
    def now(self) -> Token:
        return self.tokens[self.at]

    def want(self, what: str, fits: bool) -> bool:
        """Takes the token where it fits, and else notes what would have been taken."""
        if fits:
            self.at += 1
            self.wanted = []
            return True
        if what not in self.wanted:
            self.wanted.append(what)
        return False

    def sign(self, text: str) -> bool:
        return self.want(f"`{text}`", self.now.text == text)

    def name(self, what: str = "a name") -> bool:
        return self.want(what, self.now.is_name())

    def need(self, taken: bool) -> None:
        if not taken:
            raise _Stopped

    def text(self) -> None:
        self.need(self.want("`OPENQASM`", self.now.text == "OPENQASM"))
        self.need(self.want("`2.0`", self.now.text in ("2.0", "2")))
        self.need(self.sign(";"))
        while not self.want("the end of the text", self.now.kind == "end"):
            self.statement()

    def statement(self) -> None:
        if self.sign("include"):
            self.need(self.want('`"qelib1.inc"`', self.now.kind == "text"))
        elif self.sign("qreg") or self.sign("creg"):
            self.need(self.name())
            self.need(self.sign("["))
            self.need(self.want("a whole number", self.now.is_whole()))
            self.need(self.sign("]"))
        elif self.sign("gate"):
            return self.definition()
        else:
            return self.applied(self.argument)
        self.need(self.sign(";"))

    def block(self) -> None:
        while not self.want("the end of the block", self.now.kind == "end"):
            self.applied(self.argument)

    def definition(self) -> None:
        self.need(self.name())
        if self.sign("("):
            if not self.sign(")"):
                self.several(lambda: self.need(self.name("a parameter's name")))
                self.need(self.sign(")"))
        self.several(self.bare)
        self.need(self.sign("{"))
        while not self.sign("}"):
            self.applied(self.bare)

    def applied(self, argument) -> None:  # type: ignore[no-untyped-def]
        if self.sign("barrier"):
            self.several(argument)
        else:
            self.application(argument)
        self.need(self.sign(";"))

    def application(self, argument) -> None:  # type: ignore[no-untyped-def]
        self.need(self.want("a gate's name", self.now.text in ("U", "CX") or self.now.is_name()))
        if self.sign("("):
            if not self.sign(")"):
                self.several(self.expression)
                self.need(self.sign(")"))
        self.several(argument)

    def bare(self) -> None:
        self.need(self.name("an argument's name"))

    def argument(self) -> None:
        self.need(self.name("a register"))
        if self.sign("["):
            self.need(self.want("a whole number", self.now.is_whole()))
            self.need(self.sign("]"))

    def several(self, one) -> None:  # type: ignore[no-untyped-def]
        one()
        while self.sign(","):
            one()

    def expression(self) -> None:
        self.operand()
        while any(self.sign(sign) for sign in "+-*/^"):
            self.operand()

    def operand(self) -> None:
        while self.sign("-"):
            pass
        if self.now.text in FUNCTIONS:
            self.at += 1
            self.wanted = []
            self.need(self.sign("("))
            self.expression()
            self.need(self.sign(")"))
        elif self.sign("("):
            self.expression()
            self.need(self.sign(")"))
        else:
            fits = self.now.kind == "number" or self.now.text == "pi" or self.now.is_name()
            self.need(self.want("a number, `pi` or a parameter", fits))


def wanted_at(text: Text, offset: int) -> List[str]:
    """What could have stood at the place where the reading of a text ends; empty where that isn't known."""
    grammar = _Grammar(text.tokens, len(text.data))
    try:
        grammar.block() if text.is_block else grammar.text()
    except (_Stopped, RecursionError):
        if grammar.now.start == offset:
            return grammar.wanted
    return []


def token_at(text: Text, offset: int) -> Optional[Token]:
    return next((token for token in text.tokens if token.start <= offset < token.end), None)


def expression_at(text: Text, offset: int) -> List[Token]:
    """The tokens of the expression that begins at a place, up to the `,` or `)` behind it."""
    found: List[Token] = []
    depth = 0
    for token in text.tokens:
        if token.start < offset:
            continue
        depth += (token.text == "(") - (token.text == ")")
        if depth < 0 or depth == 0 and token.text in (",", ";"):
            break
        found.append(token)
    return found

