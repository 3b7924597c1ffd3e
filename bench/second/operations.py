"""What each operation gives at a cell, by docs/OPERATIONS.md, by the plainest way that there is."""

from collections import Counter
from fractions import Fraction

from .texts import RANGES, UNIT, rounded


def _cut(fraction):
    """Cut toward zero."""
    return int(fraction)


def _floor(a):
    return a // UNIT * UNIT


def _div(a, b):
    return None if b == 0 else rounded(Fraction(a, b) * UNIT)


def _idiv(a, b):
    return None if b == 0 else _cut(Fraction(a, b)) * UNIT


def _mod(a, b):
    return None if b == 0 else a - b * _cut(Fraction(a, b))


# Operations at one place of which a missing operand makes a missing result.
AT_A_PLACE = {
    "+": lambda a, b: a + b, "-": lambda a, b: a - b, "*": lambda a, b: rounded(Fraction(a * b, UNIT)),
    "/": _div, "idiv": _idiv, "mod": _mod, "unary -": lambda a: -a, "abs": abs,
    "rounddown": _floor, "roundup": lambda a: -_floor(-a),
    "roundoff": lambda a: rounded(Fraction(a, UNIT)) * UNIT,
    "min": min, "max": max,
    "==": lambda a, b: int(a == b), "!=": lambda a, b: int(a != b), "<": lambda a, b: int(a < b),
    "<=": lambda a, b: int(a <= b), ">": lambda a, b: int(a > b), ">=": lambda a, b: int(a >= b),
    "and": lambda a, b: a & b, "or": lambda a, b: a | b, "xor": lambda a, b: a ^ b, "not": lambda a: 1 - a,
}


def convert(kind, source, a):
    if a is None or kind == source:
        return a
    if kind == "B":
        return int(a != 0)
    if kind in "NO":
        return _cut(Fraction(a, UNIT)) if source == "S" else a
    if kind == "S":
        return a if source == "D" else a * UNIT
    return a % (360 * UNIT)


def choose(c, a, b=None):
    return None if c is None else a if c else b


# ---- values over several cells: each takes those that are not missing, of which there is one at least

def _average(values):
    return rounded(Fraction(sum(values), len(values)))


def _majority(values):
    counts = Counter(values)
    return min(counts, key=lambda value: (-counts[value], value))


OVER_CELLS = {"total": sum, "average": _average, "minimum": min, "maximum": max,
              "diversity": lambda values: len(set(values)) * UNIT, "majority": _majority}


def _over(word, values):
    values = [value for value in values if value is not None]
    return OVER_CELLS[word](values) if values else None


def window(word, size, length, cells):
    rows, cols = size
    reach = (length - 1) // 2
    for place in range(rows * cols):
        row, col = divmod(place, cols)
        near = (cells[r * cols + c]
                for r in range(max(0, row - reach), min(rows, row + reach + 1))
                for c in range(max(0, col - reach), min(cols, col + reach + 1)))
        yield _over(word, near)


def mean(cells):
    return _over("average", cells)


def areas(word, classes, cells):
    members = {}
    for one, value in zip(classes, cells):
        members.setdefault(one, []).append(value)
    results = {one: _over(word, values) for one, values in members.items() if one is not None}
    return [results.get(one) for one in classes]


def area_sizes(classes):
    counts = Counter(classes)
    return [None if one is None else counts[one] * UNIT for one in classes]


def whole_map(word, cells):
    return [_over(word, cells)] * len(cells)


# ---- along drain directions

def next_place(size, place, code):
    """The place that a cell drains into: itself for a pit, None outside the map."""
    rows, cols = size
    row, col = divmod(place, cols)
    row, col = row + (1 if code <= 3 else 0 if code <= 6 else -1), col + (code - 1) % 3 - 1
    return row * cols + col if 0 <= row < rows and 0 <= col < cols else None


def first_unsound(size, codes):
    """The first place whose path leaves the map, meets a cell without a direction or never ends; None without one."""
    ends = {}
    for start in range(len(codes)):
        path, here = [], start
        while codes[start] is not None and here not in ends:
            if here is None or codes[here] is None or here in path[-1:] and codes[here] != 5:
                good = False
                break
            if codes[here] == 5:
                good = True
                path.append(here)
                break
            path.append(here)
            if len(path) > len(codes):
                good = False
                break
            here = next_place(size, here, codes[here])
        else:
            good = ends.get(here, True)
        for one in path:
            ends[one] = good
        if not good:
            return start
    return None


def mask(size, codes, keep):
    """The directions that are kept, with a pit where the cell drained into is not."""
    def code(place):
        if codes[place] is None or keep[place] != 1:
            return None
        return codes[place] if keep[next_place(size, place, codes[place])] == 1 else 5
    return [code(place) for place in range(len(codes))]


def _feeders(size, codes):
    """For each place the places that drain directly into it."""
    feeders = [[] for _ in codes]
    for place, code in enumerate(codes):
        if code not in (None, 5):
            feeders[next_place(size, place, code)].append(place)
    return feeders


def upstream(size, codes, cells):
    def total(values):
        return None if None in values else sum(values)
    return [None if code is None else total([cells[one] for one in feeding])
            for code, feeding in zip(codes, _feeders(size, codes))]


def downstream(size, codes, cells):
    return [None if code is None else cells[next_place(size, place, code)] for place, code in enumerate(codes)]


def transport(size, codes, material, split):
    """The state that stays and the flow that goes on, of each cell, from what comes together in it."""
    feeders = _feeders(size, codes)
    waiting = [len(feeding) for feeding in feeders]
    ready = [place for place, code in enumerate(codes) if code is not None and not waiting[place]]
    flows, states = [None] * len(codes), [None] * len(codes)
    for place in ready:
        parts = [material[place], *(flows[one] for one in feeders[place])]
        if None not in parts:
            flows[place], states[place] = split(place, sum(parts))
        below = next_place(size, place, codes[place])
        if below != place:
            waiting[below] -= 1
            if not waiting[below]:
                ready.append(below)
    return flows, states


def accuflux(size, codes, material):
    return transport(size, codes, material, lambda place, total: (total, 0))[0]


def over_threshold(size, codes, material, threshold):
    def split(place, total):
        if threshold[place] is None:
            return None, None
        flow = max(0, total - threshold[place])
        return flow, total - flow
    return transport(size, codes, material, split)


def catchment(size, codes, points):
    """The point farthest down the path that is not 0."""
    def of(place):
        met = []
        while True:
            met.append(points[place])
            below = next_place(size, place, codes[place])
            if below == place:
                break
            place = below
        return None if None in met else next((point for point in reversed(met) if point), 0)
    return [None if code is None else of(place) for place, code in enumerate(codes)]


def out_of_range(kind, cell):
    return cell is not None and not RANGES[kind][0] <= cell <= RANGES[kind][1]
