"""What two circuits have alike in front and behind, and on which lines the rest stands.

Items are held against each other by how they are written, so what is told alike is alike; the program, which holds them
against each other by what they come to, may find more."""
from __future__ import annotations

import re
from collections import deque
from typing import Deque, Dict, List, NamedTuple, Optional, Set, Tuple

from .answers import Shared
from .circuits import Circuit

LARGEST = 8_000_000
"""Of longer texts nothing is told."""


class _Item(NamedTuple):
    written: Tuple[object, ...]
    qubits: Tuple[int, ...]
    line: int


def shared_of(first: Circuit, second: Circuit, told: Optional[int] = None) -> Optional[Shared]:
    """What both have alike, as they stand or, where that is more, once gates on different qubits are exchanged. Where the
    program told how many items are in front, it is the one of the two that has so many, or nothing."""
    if len(first.data) + len(second.data) > LARGEST:
        return None
    alike = _definitions(first.data) == _definitions(second.data)
    lists = _items(first, b"" if alike else b"first"), _items(second, b"" if alike else b"second")
    stand = _as_they_stand(*lists)
    moved = _exchanged(*lists, stand.front)
    if told is None:
        exchanged = moved.front + moved.back > stand.front + stand.back
    elif told in (stand.front, moved.front):
        exchanged = told != stand.front
    else:
        return None
    parts = moved if exchanged else stand
    lines = [_lines(items, rest) for items, rest in zip(lists, parts.rests)]
    return Shared(parts.front, parts.back, lines[0], lines[1], exchanged)


class _Parts(NamedTuple):
    """How many items are alike in front and behind, and the places of the others in each list."""

    front: int
    back: int
    rests: Tuple[List[int], List[int]]


def _as_they_stand(one: List[_Item], other: List[_Item]) -> _Parts:
    most = min(len(one), len(other))
    front = next((at for at in range(most) if one[at].written != other[at].written), most)
    back = 0
    while back < most - front and one[-1 - back].written == other[-1 - back].written:
        back += 1
    return _Parts(front, back, (list(range(front, len(one) - back)), list(range(front, len(other) - back))))


def _exchanged(one: List[_Item], other: List[_Item], begun: int) -> _Parts:
    """The same where gates on different qubits may be exchanged; so many in front are alike as they stand."""
    rests = list(range(begun, len(one))), list(range(begun, len(other)))
    front, rests = _taken(one, other, rests, False)
    back, rests = _taken(one, other, rests, True)
    return _Parts(begun + front, back, rests)


def _taken(
    one: List[_Item], other: List[_Item], rests: Tuple[List[int], List[int]], backwards: bool
) -> Tuple[int, Tuple[List[int], List[int]]]:
    """Takes items from both lists as long as one is the next on all its qubits in both, and gives how many, and the rest."""
    wires: List[Dict[int, Deque[int]]] = []
    for items, rest in zip((one, other), rests):
        of_list: Dict[int, Deque[int]] = {}
        for at in reversed(rest) if backwards else rest:
            for qubit in items[at].qubits:
                of_list.setdefault(qubit, deque()).append(at)
        wires.append(of_list)
    taken: Tuple[Set[int], Set[int]] = (set(), set())
    waiting = sorted(wires[0])
    while waiting:
        qubit = waiting.pop()
        if not wires[0].get(qubit) or not wires[1].get(qubit):
            continue
        ats = wires[0][qubit][0], wires[1][qubit][0]
        pair = one[ats[0]], other[ats[1]]
        if pair[0].written != pair[1].written or not all(_is_next(wires[k], pair[k], ats[k]) for k in (0, 1)):
            continue
        for k in (0, 1):
            taken[k].add(ats[k])
            for each in pair[k].qubits:
                wires[k][each].popleft()
        waiting += pair[0].qubits
    left = [at for at in rests[0] if at not in taken[0]], [at for at in rests[1] if at not in taken[1]]
    return len(taken[0]), left


def _is_next(wires: Dict[int, Deque[int]], item: _Item, at: int) -> bool:
    return all(wires[qubit][0] == at for qubit in item.qubits)


def _lines(items: List[_Item], rest: List[int]) -> Tuple[int, int]:
    return (items[rest[0]].line, items[rest[-1]].line) if rest else (0, -1)


COMMENT = re.compile(rb"//[^\n]*")
STATEMENT = re.compile(rb"\s*(gate\b[^{]*\{[^}]*\}|[^;]*;)")
APPLICATION = re.compile(rb"([A-Za-z][A-Za-z0-9_]*)\s*(\(.*\))?([^()]*);", re.DOTALL)
ARGUMENT = re.compile(rb"\s*([a-z][A-Za-z0-9_]*)\s*(?:\[\s*([0-9]+)\s*\])?\s*")
NO_ITEMS = (b"OPENQASM", b"include", b"qreg", b"creg", b"barrier")


def _definitions(data: bytes) -> List[bytes]:
    return [b" ".join(each.split()) for each in re.findall(rb"\bgate\b[^}]*\}", COMMENT.sub(b"", data))]


def _items(circuit: Circuit, name: bytes) -> List[_Item]:
    """The items of an accepted text, each written with its angles and its qubits. A gate that the text defines is written
    with a name for the text's definitions too, and with how many of them stand before."""
    firsts: Dict[bytes, Tuple[int, int]] = {}
    qubits = 0
    for register in circuit.registers:
        firsts[register.name.encode()] = (qubits, register.size)
        qubits += register.size
    plain = COMMENT.sub(b"", circuit.data)
    known: Dict[bytes, List[Tuple[Tuple[object, ...], Tuple[int, ...]]]] = {}
    found: List[_Item] = []
    own: Set[bytes] = set()
    defined, line, at = 0, 1, 0
    for match in STATEMENT.finditer(plain):
        start, statement = match.start(1), match.group(1)
        line, at = line + plain.count(b"\n", at, start), start
        if statement.startswith(b"gate") and statement.endswith(b"}"):
            own.add(re.split(rb"[^A-Za-z0-9_]+", statement, maxsplit=2)[1])
            defined, known = defined + 1, {}
            continue
        if statement not in known:
            known[statement] = _applied(statement, firsts, own, (name, defined))
        found += [_Item(written, targets, line) for written, targets in known[statement]]
    return found


def _applied(
    statement: bytes, firsts: Dict[bytes, Tuple[int, int]], own: Set[bytes], mark: Tuple[bytes, int]
) -> List[Tuple[Tuple[object, ...], Tuple[int, ...]]]:
    """How the items of a statement are written, and on which qubits they are."""
    match = APPLICATION.fullmatch(statement)
    if match is None or match.group(1) in NO_ITEMS:
        return []
    angles = b"".join((match.group(2) or b"").split())
    places: List[Tuple[int, bool]] = []
    count = 1
    for argument in ARGUMENT.finditer(match.group(3)):
        qubit, size = firsts[argument.group(1)]
        whole = argument.group(2) is None
        places.append((qubit if whole else qubit + int(argument.group(2)), whole and size > 1))
        count = max(count, size if whole else 1)
    made = []
    for index in range(count):
        targets = tuple(place + index if several else place for place, several in places)
        made.append(((match.group(1), angles, mark if match.group(1) in own else (), targets), targets))
    return made
