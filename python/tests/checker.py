"""A second checker of derivations, for the tests alone, written from docs/DERIVATIONS.md.

A polynomial modulo 2 is a set of monomials, a phase a dictionary of monomials and coefficients in 2^-32 of a turn; a
monomial is a frozenset of variables: the inputs 0 to n - 1, then the path variables."""
import re
from math import comb

TURN, HALF, QUARTER, EIGHTH = 1 << 32, 1 << 31, 1 << 30, 1 << 29
ONE = frozenset()
VARIABLES, TERMS = 512, 65_536
LINE = re.compile(rb"(leaf) ([ab]) (N)|(id) ([ab])|(join)|(elim|omega) (N)|(hh) (N) (N)|(overlap)|(end)".replace(b"N", b"0|[1-9][0-9]*"))


class Fails(Exception):
    """A line fails, for this reason."""


class Sum:
    """A path sum; `outs` is None in a closed one."""

    def __init__(self, n, m, k, phase, outs):
        self.n, self.m, self.k, self.outs = n, m, k, outs
        self.phase = {mono: units % TURN for mono, units in phase.items() if units % TURN}

    def text(self):
        def name(variable):
            return f"x{variable}" if variable < self.n else f"y{variable - self.n}"

        def order(monos):
            return sorted(monos, key=lambda mono: (len(mono), sorted(mono)))

        def term(mono):
            top, under = self.phase[mono], TURN
            while top % 2 == 0:
                top, under = top // 2, under // 2
            return f"{top}/{under}" + ("*" + ".".join(map(name, sorted(mono))) if mono else "")

        phase = "+".join(map(term, order(self.phase))) or "0"
        spelled = [["1" if not mono else ".".join(map(name, sorted(mono))) for mono in order(out)] for out in self.outs or []]
        outs = "-" if self.outs is None else ",".join("+".join(out) or "0" for out in spelled)
        return f"k={self.k} m={self.m} P={phase} f={outs}"


def put(phase, mono, units):
    phase[mono] = (phase.get(mono, 0) + units) % TURN


def lift(poly, units):
    """`units` where the polynomial is 1: of a + b modulo 2 that is a + b - 2 a b."""
    made = {}
    for mono in poly:
        for other, had in list(made.items()):
            put(made, mono | other, -2 * had)
        put(made, mono, units)
    return made


def raw_phase(phase, variable, count):
    total = 0
    for mono, units in phase.items():
        power = (units & -units).bit_length() - 1
        total += sum(comb(count, size) for size in range(1, min(32 - power, count) + 1)) if variable in mono else 1
    return total


def in_phase(phase, variable, poly):
    """The phase with a polynomial in place of a variable."""
    if raw_phase(phase, variable, len(poly)) > TERMS:
        raise Fails("Limit")
    made = {}
    for mono, units in phase.items():
        for other, had in (lift(poly, units) if variable in mono else {ONE: units}).items():
            put(made, mono - {variable} | other, had)
    return {mono: units for mono, units in made.items() if units}


def in_poly(poly, variable, by):
    """A polynomial modulo 2 with another in place of a variable."""
    if sum(len(by) if variable in mono else 1 for mono in poly) > TERMS:
        raise Fails("Limit")
    made = set()
    for mono in poly:
        for other in by if variable in mono else [ONE]:
            made ^= {mono - {variable} | other}
    return made


def leaf(n, gate):
    outs = [{frozenset([q])} for q in range(n)]
    if gate[0] == "CX":
        outs[gate[2]] = outs[gate[2]] ^ outs[gate[1]]
        return Sum(n, 0, 0, {}, outs)
    # a turn is 2 pi: an angle of u units, pi/2^30 each, is 2 u of 2^-32 of a turn, and its half is u
    half, f, l, q = gate[1], 2 * gate[2], 2 * gate[3], gate[4]
    x, y0, y1 = q, n, n + 1
    if half == 0:
        return Sum(n, 0, 0, {frozenset([x]): f + l}, outs)
    outs[q] = {frozenset([y1])}
    phase = {ONE: -half, frozenset([x]): l - QUARTER, frozenset([y0]): 2 * half, frozenset([y1]): f + QUARTER}
    return Sum(n, 2, 2, {**phase, frozenset([x, y0]): HALF, frozenset([y0, y1]): HALF}, outs)


def moved(monos, names):
    return [frozenset(names(variable) for variable in mono) for mono in monos]


def join(first, second):
    n, m = first.n, first.m
    if 2 * n + m + second.m > VARIABLES:
        raise Fails("Limit")
    away = n + m + second.m
    names = lambda variable: away + variable if variable < n else variable + m
    phase = dict(zip(moved(second.phase, names), second.phase.values()))
    for at, by in enumerate(first.outs):
        phase = in_phase(phase, away + at, by)
    outs = []
    for out in second.outs:
        out = set(moved(out, names))
        for at, by in enumerate(first.outs):
            out = in_poly(out, away + at, by)
        outs.append(out)
    for mono, units in first.phase.items():
        put(phase, mono, units)
    return Sum(n, m + second.m, first.k + second.k, phase, outs)


def overlap(first, second):
    n, m1, m2 = first.n, first.m, second.m
    if 2 * n + m1 + m2 > VARIABLES:
        raise Fails("Limit")
    names = lambda variable: variable if variable < n else variable + m1
    phase = {mono: -units for mono, units in first.phase.items()}
    for mono, units in zip(moved(second.phase, names), second.phase.values()):
        put(phase, mono, units)
    for at, (one, other) in enumerate(zip(first.outs, second.outs)):
        for mono in one ^ set(moved(other, names)):
            put(phase, mono | {n + m1 + m2 + at}, HALF)
    return Sum(n, m1 + m2 + n, first.k + second.k + 2 * n, phase, None)


def closed_up(whole, gone, m, k):
    names = lambda variable: variable - sum(each < variable for each in gone)
    phase = dict(zip(moved(whole.phase, names), whole.phase.values()))
    outs = whole.outs and [set(moved(out, names)) for out in whole.outs]
    return Sum(whole.n, whole.m - m, whole.k - k, phase, outs)


def step(whole, kind, y, z):
    v = whole.n + y
    with_v = {mono: units for mono, units in whole.phase.items() if v in mono}
    without = {mono: units for mono, units in whole.phase.items() if v not in mono}
    if y >= whole.m or any(v in mono for out in whole.outs or [] for mono in out):
        raise Fails("Redex")
    if kind == "elim":
        if with_v:
            raise Fails("Redex")
        return closed_up(whole, [v], 1, 2)
    key = frozenset([v, whole.n + z]) if kind == "hh" else frozenset([v])
    own, rest = with_v.pop(key, 0), with_v
    if any(units != HALF for units in rest.values()):
        raise Fails("Redex")
    poly = {mono - {v} for mono in rest}
    if kind == "hh":
        w = whole.n + z
        if z >= whole.m or z == y or own != HALF or any(w in mono for mono in rest):
            raise Fails("Redex")
        outs = whole.outs and [in_poly(out, w, poly) for out in whole.outs]
        return closed_up(Sum(whole.n, whole.m, whole.k, in_phase(without, w, poly), outs), [v, w], 2, 2)
    if own not in (QUARTER, 3 * QUARTER):
        raise Fails("Redex")
    poly = poly ^ {ONE} if own == 3 * QUARTER else poly
    if len(without) + 1 + len(poly) + comb(len(poly), 2) > TERMS:
        raise Fails("Limit")
    for mono, units in [(ONE, EIGHTH), *lift(poly, -QUARTER).items()]:
        put(without, mono, units)
    return closed_up(Sum(whole.n, whole.m, whole.k, without, whole.outs), [v], 1, 1)


def parsed(data):
    """The lines of a derivation as lists of words. Raises the number and reason of the first that is none."""
    *lines, rest = data.split(b"\n")
    found, ended = [], False
    for number, line in enumerate(lines, 1):
        match = LINE.fullmatch(line)
        words = [group.decode() for group in match.groups() if group] if match else []
        numbers = [int(word) for word in words if word.isdigit()]
        most = 1 << 32 if words[:1] == ["leaf"] else 1 << 16
        is_head = line == b"pathsum 1"
        if ended or is_head != (number == 1) or not (is_head or match) or any(each >= most for each in numbers):
            raise Fails(f"{number} Form")
        ended = words == ["end"]
        found.append(words)
    if not ended or rest:
        raise Fails(f"{len(lines) + 1} {'Form' if ended else 'Cut'}")
    return found[1:]


def apply(entries, words, n, sides):
    """What a line makes of the entries, each of a side (0, 1, or None for the overlap), a run and a sum."""
    kind, closed = words[0], any(entry[0] is None for entry in entries)
    if kind == "leaf":
        side, at = "ab".index(words[1]), int(words[2])
        if closed or at >= len(sides[side]):
            raise Fails("Order")
        return entries + [(side, (at, at + 1), leaf(n, sides[side][at]))]
    if kind == "id":
        return entries + [("ab".index(words[1]), None, Sum(n, 0, 0, {}, [{frozenset([q])} for q in range(n)]))]
    if kind == "join":
        if closed or len(entries) < 2 or entries[-2][0] != entries[-1][0]:
            raise Fails("Order")
        (side, one, first), (_, other, second) = entries[-2:]
        if one and other and one[1] != other[0]:
            raise Fails("Order")
        run = (one[0], other[1]) if one and other else one or other
        return entries[:-2] + [(side, run, join(first, second))]
    if kind in ("elim", "hh", "omega"):
        if not entries:
            raise Fails("Order")
        side, run, whole = entries[-1]
        return entries[:-1] + [(side, run, step(whole, kind, int(words[1]), int(words[-1])))]
    if kind == "overlap":
        whole_runs = [(0, len(side)) if side else None for side in sides]
        if [entry[:2] for entry in entries] != [(0, whole_runs[0]), (1, whole_runs[1])]:
            raise Fails("Order")
        return [(None, None, overlap(entries[0][2], entries[1][2]))]
    if len(entries) != 1 or not closed:
        raise Fails("Order")
    return entries


def check(data, n, sides):
    """What `replay` is to answer for a derivation and the primitive gates of both sides."""
    try:
        lines = parsed(data)
    except Fails as why:
        return f"rejected {why}"
    entries = []
    for number, words in enumerate(lines, 2):
        try:
            entries = apply(entries, words, n, sides)
        except Fails as why:
            return f"rejected {number} {why}"
    last = entries[0][2]
    return "accepted" if (last.m, last.k, last.phase) == (0, 0, {}) else "left " + last.text()
