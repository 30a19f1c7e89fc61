"""A second reader of accepted texts, for the tests alone: the primitive gates that a text comes to, in order.

Written from docs/DERIVATIONS.md, README.md and the library's text, and from none of the program's code."""
from fractions import Fraction
from pathlib import Path
import re

from pathsum.reading import FUNCTIONS, tokens

ROOT = Path(__file__).resolve().parent.parent.parent
TURNS = 1 << 32
"""The units of an angle are pi/2^30; so many of them are 4 pi."""


def library():
    """The library's text, from the specification of the program."""
    source = (ROOT / "crates/qasm_expand/specs/Library.antt").read_text()
    body = source[source.index("library_text =") :]
    return "".join(re.findall(r'codes "((?:[^"\\]|\\.)*)"', body.split("\n\n")[0])).replace("\\n", "\n")


class Words:
    """The tokens of a text, taken one by one."""

    def __init__(self, data):
        self.found, self.at = tokens(data), 0

    def now(self):
        return self.found[self.at].text if self.at < len(self.found) else None

    def take(self, *wanted):
        word = self.now()
        assert word is not None and (not wanted or word in wanted), (word, wanted)
        self.at += 1
        return word

    def has(self, word):
        if self.now() == word:
            self.at += 1
            return True
        return False

    def several(self, one):
        items = [one()]
        while self.has(","):
            items.append(one())
        return items

    # an expression as a function of the parameters; its value is r + s pi, as the pair (r, s)
    def expression(self):
        left = self.product()
        while self.now() in ("+", "-"):
            left = combined(self.take(), left, self.product())
        return left

    def product(self):
        left = self.signed()
        while self.now() in ("*", "/"):
            left = combined(self.take(), left, self.signed())
        return left

    def signed(self):
        if self.has("-"):
            return combined("-", lambda given: (Fraction(0), Fraction(0)), self.signed())
        base = self.atom()
        return combined("^", base, self.signed()) if self.has("^") else base

    def atom(self):
        if self.has("("):
            inner = self.expression()
            self.take(")")
            return inner
        word = self.take()
        assert word not in FUNCTIONS
        if word == "pi":
            return lambda given: (Fraction(0), Fraction(1))
        if word[0].isalpha():
            return lambda given: given[word]
        return lambda given: (Fraction(word), Fraction(0))


def combined(sign, left, right):
    def value(given):
        (a, b), (c, d) = left(given), right(given)
        if sign in "+-":
            return (a + c, b + d) if sign == "+" else (a - c, b - d)
        if sign == "*":
            assert not (b and d)
            return a * c, a * d + b * c
        assert not d
        return (a / c, b / c) if sign == "/" else (a ** int(c), Fraction(0))

    return value


def units(pair):
    assert pair[0] == 0 and (pair[1] * 2**30).denominator == 1
    return int(pair[1] * 2**30) % TURNS


class Reader:
    """Reads a text; `gates` has its primitive gates, ("U", theta, phi, lambda, qubit) or ("CX", control, target)."""

    def __init__(self, data, of_library=False):
        self.words, self.known, self.registers = Words(data), {}, {}
        self.qubits, self.items, self.own = 0, [], set()
        self.of_library = of_library
        self.words.take("OPENQASM")
        self.words.take("2.0", "2")
        self.words.take(";")
        while self.words.now() is not None:
            self.statement()

    @property
    def gates(self):
        return [gate for item in self.items for gate in item]

    def statement(self):
        words = self.words
        if words.has("include"):
            words.take()
            for name, gate in Reader(library().encode(), True).known.items():
                if name not in self.own:
                    self.known[name] = gate
        elif words.now() in ("qreg", "creg"):
            kind, name = words.take(), words.take()
            words.take("[")
            size = int(words.take())
            words.take("]")
            if kind == "qreg":
                self.registers[name] = range(self.qubits, self.qubits + size)
                self.qubits += size
        elif words.has("gate"):
            return self.definition()
        elif words.has("barrier"):
            words.several(self.argument)
        else:
            name, angles, arguments = self.application(self.argument)
            several = max((len(places) for places, whole in arguments if whole), default=1)
            for at in range(several):
                places = [places[at] if whole else places[0] for places, whole in arguments]
                self.items.append(self.prims(name, [angle({}) for angle in angles], places, self.known))
        words.take(";")

    def argument(self):
        name = self.words.take()
        if self.words.has("["):
            at = int(self.words.take())
            self.words.take("]")
            return [self.registers[name][at]] if name in self.registers else [], False
        return list(self.registers.get(name, [])), True

    def application(self, argument):
        name, angles = self.words.take(), []
        if self.words.has("(") and not self.words.has(")"):
            angles = self.words.several(self.words.expression)
            self.words.take(")")
        return name, angles, self.words.several(argument)

    def definition(self):
        words = self.words
        name, parameters = words.take(), []
        if words.has("(") and not words.has(")"):
            parameters = words.several(words.take)
            words.take(")")
        arguments, body = words.several(words.take), []
        words.take("{")
        while not words.has("}"):
            if words.has("barrier"):
                words.several(words.take)
            else:
                body.append(self.application(words.take))
            words.take(";")
        self.known[name] = (parameters, arguments, body, dict(self.known))
        self.own.add(name)

    def prims(self, name, angles, places, known):
        if name == "U":
            return [("U", *map(units, angles), places[0])]
        if name == "CX":
            return [("CX", *places)]
        parameters, arguments, body, then = known[name]
        given, at = dict(zip(parameters, angles)), dict(zip(arguments, places))
        made = []
        for inner, formulas, names in body:
            made += self.prims(inner, [formula(given) for formula in formulas], [at[each] for each in names], then)
        return made
