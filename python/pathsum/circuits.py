"""Circuits as texts: from a text, a path, or an object that writes itself in OpenQASM 2.0."""
from __future__ import annotations

import codecs
import os
from dataclasses import dataclass
from functools import cached_property
from typing import Any, Callable, Optional, Tuple

from .answers import Qubit
from .errors import UnreadableError, UsageError
from .reading import Register, registers_of

MARK = b"===="
"""The line between two texts."""
END = b"."
"""The line behind a block of a script."""
LONGEST = 16_777_216
BYTE_ORDER_MARKS = (
    (codecs.BOM_UTF8, "utf-8"),
    (codecs.BOM_UTF32_LE, "utf-32-le"),
    (codecs.BOM_UTF32_BE, "utf-32-be"),
    (codecs.BOM_UTF16_LE, "utf-16-le"),
    (codecs.BOM_UTF16_BE, "utf-16-be"),
)
WRITERS = ("qasm", "to_qasm")
"""The methods by which an object is taken to write itself in OpenQASM 2.0."""


@dataclass(frozen=True)
class Circuit:
    """A circuit's text, and what it is called in messages."""

    name: str
    data: bytes

    @cached_property
    def registers(self) -> Tuple[Register, ...]:
        """The registers of qubits of an accepted text."""
        return registers_of(self.data)

    @cached_property
    def qubits(self) -> Tuple[Qubit, ...]:
        """The qubits of an accepted text, in the order in which the program numbers them."""
        return tuple(Qubit(register.name, at) for register in self.registers for at in range(register.size))

    @property
    def joined(self) -> bytes:
        """The text as the program gets it: its last line ended, and without a line that would separate. Such a line is
        never right in a circuit; `== ==` in its place is refused at the same place for the same reason."""
        return _ended(self.data, MARK, b"== ==")

    @property
    def block(self) -> bytes:
        """The same as a block of a script, which a line `.` would end."""
        return _ended(self.data, END, b". .")


def _ended(data: bytes, mark: bytes, instead: bytes) -> bytes:
    """A text with its last line ended, and with another line in place of each that is a mark."""
    marks = (mark, mark + b"\r")
    lines = data.split(b"\n")
    if any(line in marks for line in lines):
        data = b"\n".join(instead if line in marks else line for line in lines)
    return data if data.endswith(b"\n") or not data else data + b"\n"


def has_mark(line: str) -> bool:
    """Whether a line of a text is the one that separates texts."""
    return line in ("====", "====\r")


def decoded(data: bytes) -> bytes:
    """The bytes without a byte order mark, and in UTF-8 where the mark says that they are in another encoding."""
    for mark, encoding in BYTE_ORDER_MARKS:
        if data.startswith(mark):
            return data[len(mark) :].decode(encoding, "replace").encode("utf-8", "replace")
    return data


def read_file(path: "os.PathLike[str] | str", what: str = "a circuit") -> bytes:
    """The bytes of a file; of one that is longer than the program reads, enough to tell that."""
    name = os.fspath(path)
    try:
        with open(name, "rb") as file:
            return file.read(4 * LONGEST)
    except IsADirectoryError:
        raise UnreadableError(f"{name} is a directory, and {what} is a file") from None
    except FileNotFoundError:
        raise UnreadableError(f"{name}: there is no such file") from None
    except (OSError, ValueError) as error:
        why = getattr(error, "strerror", None) or str(error)
        raise UnreadableError(f"{name} can't be read: {why}") from None


def is_text(source: str) -> bool:
    """Whether a `str` is taken for a text, and not for a path."""
    return "\n" in source or ";" in source or source.startswith(("OPENQASM", "//"))


def circuit_of(source: Any, name: str, to_qasm: Optional[Callable[[Any], str]] = None) -> Circuit:
    """The circuit that a value stands for. A `Circuit` is itself. Else `to_qasm`, where it is given, makes a text of any
    value but a text or a path. A `str` with a line end or a `;`, or that begins with `OPENQASM` or `//`, is a
    text, as bytes are; another `str`, and each `os.PathLike`, is a path. An object with a method `qasm()` or `to_qasm()` is what that writes."""
    if isinstance(source, Circuit):
        return source
    if isinstance(source, (bytes, bytearray)):
        return Circuit(name, decoded(bytes(source)))
    if isinstance(source, str) and is_text(source):
        return Circuit(name, source.encode("utf-8", "surrogateescape"))
    if isinstance(source, (str, os.PathLike)):
        if not os.fspath(source):
            raise UsageError(f"the {name} is an empty text")
        return Circuit(os.fsdecode(os.fspath(source)), decoded(read_file(source)))
    writer = (lambda: to_qasm(source)) if to_qasm is not None else _writer(source)
    if writer is None:
        kind = type(source).__name__
        raise UsageError(
            f"the {name} is a {kind}, which is no text, no path and has no method qasm(): hand over to_qasm, a function "
            "that makes an OpenQASM 2.0 text of it (for Qiskit qiskit.qasm2.dumps)"
        )
    written = writer()
    if isinstance(written, str):
        written = written.encode("utf-8", "surrogateescape")
    if not isinstance(written, bytes):
        raise UsageError(f"what was to write the {name} in OpenQASM 2.0 gave a {type(written).__name__}, and no text")
    return Circuit(name, decoded(written))


def _writer(source: Any) -> Optional[Callable[[], Any]]:
    for method in WRITERS:
        found = getattr(source, method, None)
        if callable(found):
            return found  # type: ignore[no-any-return]
    return None
