"""Angles near a dyadic multiple of pi."""
from __future__ import annotations

import math
import re
from typing import Optional, Sequence

from .reading import FUNCTIONS, Token

FINEST = 1 << 30


def value_of(expression: Sequence[Token]) -> Optional[float]:
    """About which number an expression stands for; None where it has parameters or no value."""
    parts = []
    for token in expression:
        if token.kind == "number":
            parts.append(f"float('{token.text}')")
        elif token.text in FUNCTIONS or token.text == "pi":
            parts.append({"ln": "log"}.get(token.text, token.text))
        elif token.kind == "sign" and token.text in "+-*/()":
            parts.append(token.text)
        elif token.text == "^":
            parts.append("**")
        else:
            return None
    names = {"float": float, "pi": math.pi, "log": math.log}
    names.update({name: getattr(math, name) for name in FUNCTIONS if name != "ln"})
    try:
        value = eval(" ".join(parts), {"__builtins__": {}}, names)  # numbers, pi, operators and functions alone
    except (ArithmeticError, SyntaxError, ValueError, TypeError, RecursionError, MemoryError):
        return None
    return value if isinstance(value, float) and math.isfinite(value) else None


def multiple(numerator: int, denominator: int) -> str:
    """A multiple of pi, as it is written in a text."""
    while numerator % 2 == 0 and denominator > 1:
        numerator, denominator = numerator // 2, denominator // 2
    if numerator == 0:
        return "0"
    sign, numerator = ("-" if numerator < 0 else ""), abs(numerator)
    return sign + ("" if numerator == 1 else f"{numerator}*") + "pi" + ("" if denominator == 1 else f"/{denominator}")


def _written_digits(expression: Sequence[Token]) -> Optional[int]:
    """How many digits stand behind the point of an expression that is one number, or one with a minus before it."""
    numbers = [token for token in expression if token.text != "-"]
    if len(numbers) != 1 or numbers[0].kind != "number":
        return None
    found = re.fullmatch(r"[0-9]*\.([0-9]+)", numbers[0].text)
    return len(found.group(1)) if found else None


def simple_multiple(expression: Sequence[Token]) -> Optional[str]:
    """The multiple of pi/64, or a coarser one, of which a decimal number is a rounded form."""
    value, digits = value_of(expression), _written_digits(expression)
    if value is None or digits is None or digits < 3:
        return None
    numerator = round(value / math.pi * 64)
    if numerator and abs(value - numerator * math.pi / 64) <= 0.6 * 10.0**-digits:
        return multiple(numerator, 64)
    return None


def nearest_multiple(expression: Sequence[Token]) -> Optional[str]:
    """The multiple of pi/2^30 nearest to an expression's value."""
    value = value_of(expression)
    if value is None or abs(value) > 1e8:
        return None
    return multiple(round(value / math.pi * FINEST), FINEST)
