"""Decimals, cells, grids, lookup tables and time series as texts, by docs/FORMATS.md.

A cell is None where it is missing. A cell of kind S or D is a whole number of millionths, any other a whole number.
"""

import re
from decimal import Decimal
from fractions import Fraction

UNIT = 1_000_000
MOST_CELLS = 4_194_304
WORDS = {"boolean": "B", "nominal": "N", "ordinal": "O", "scalar": "S", "directional": "D", "ldd": "L"}
SPELLED = {letter: word for word, letter in WORDS.items()}
RANGES = {
    "B": (0, 1), "N": (-2_147_483_647, 2_147_483_647), "O": (-2_147_483_647, 2_147_483_647),
    "S": (-9 * 10**18, 9 * 10**18), "D": (0, 359_999_999), "L": (1, 9),
}
DECIMAL = re.compile(rb"[+-]?(?:\d+\.?\d*|\.\d+)(?:[eE][+-]?\d{1,6})?\Z")
TOKEN = re.compile(rb"[^ \t\r\n]+")


class Fault(Exception):
    """The first fault of a text: what the line says of it."""


class Over(Exception):
    """A result that is out of the range of its kind, with its place."""


def rounded(number):
    """The nearest whole number, the one farther from zero where two are as near."""
    number = Fraction(number)
    size = (2 * abs(number.numerator) + number.denominator) // (2 * number.denominator)
    return size if number >= 0 else -size


def fits(kind, value):
    low, high = RANGES[kind]
    return low <= value <= high


def decimal(text):
    """The exact value of a decimal, or None where the text is none."""
    if len(text) > 128 or not DECIMAL.match(text):
        return None
    return Decimal(text.decode("ascii"))


def cell_of(kind, exact):
    """The value of a kind that a decimal has, or None where it has none."""
    if exact and exact.adjusted() > 40:
        return None
    if exact and exact.adjusted() < -40:
        return 0 if kind in "SD" else None
    value = Fraction(exact)
    if kind in "SD":
        value = rounded(value * UNIT)
    elif value.denominator != 1:
        return None
    return int(value) if fits(kind, value) else None


def printed(kind, cell):
    if cell is None:
        return "1e31"
    if kind not in "SD":
        return str(cell)
    whole, rest = divmod(abs(cell), UNIT)
    tail = f".{rest:06}".rstrip("0") if rest else ""
    return f"{'-' if cell < 0 else ''}{whole}{tail}"


# ---- grids

class Grid:
    def __init__(self, head, rows, cols, cells):
        self.head, self.rows, self.cols, self.cells = head, rows, cols, cells


def _head(tokens, end):
    """The pairs of the head by their first spelling, how many tokens they are, and the first fault in them."""
    forms = {"ncols": "ncols", "nrows": "nrows", "xllcorner": "x", "xllcenter": "x", "yllcorner": "y",
             "yllcenter": "y", "cellsize": "cellsize", "nodata_value": "nodata"}
    head, i = {}, 0
    while i < len(tokens):
        at, token = tokens[i]
        key = token.decode("latin-1").lower()
        if key not in forms:
            break
        if forms[key] in head:
            raise Fault(f"head {at}")
        if i + 1 == len(tokens):
            raise Fault(f"head {end}")
        at, value = tokens[i + 1]
        if not _good_value(forms[key], value, head):
            raise Fault(f"head {at}")
        head[forms[key]] = (key, value)
        i += 2
    if {"ncols", "nrows", "x", "y", "cellsize"} - set(head):
        raise Fault(f"head {tokens[i][0] if i < len(tokens) else end}")
    return head, i


def _good_value(form, value, head):
    if form in ("ncols", "nrows"):
        other = head.get("nrows" if form == "ncols" else "ncols", (None, b"1"))[1]
        return re.fullmatch(rb"\d{1,7}", value) and 1 <= int(value) and int(value) * int(other) <= MOST_CELLS
    if form == "nodata":
        return value.lower() == b"nan" or decimal(value) is not None
    exact = decimal(value) if len(value) <= 64 else None
    return exact is not None and (form != "cellsize" or exact > 0)


def read_grid(kind, text):
    tokens = [(one.start(), one.group()) for one in TOKEN.finditer(text)]
    head, first = _head(tokens, len(text))
    cols, rows = int(head["ncols"][1]), int(head["nrows"][1])
    missing = head.get("nodata", (None, b"-9999"))[1]
    lowered, exact = missing.lower(), decimal(missing)
    cells = []
    for at, token in tokens[first:]:
        if len(cells) == rows * cols:
            raise Fault(f"count {at}")
        value = decimal(token)
        if value is not None and exact is not None and value == exact or token.lower() == b"nan" == lowered:
            cells.append(None)
        elif value is None:
            raise Fault(f"bad-number {at}")
        else:
            cells.append(cell_of(kind, value))
            if cells[-1] is None:
                raise Fault(f"range {at}")
    if len(cells) < rows * cols:
        raise Fault(f"count {len(text)}")
    return Grid({key: head[key] for key in ("x", "y", "cellsize")}, rows, cols, cells)


def write_grid(kind, like, cells):
    """The text of a map that lies where the grid `like` lies."""
    lines = [f"ncols {like.cols}", f"nrows {like.rows}"]
    lines += [f"{like.head[key][0]} {like.head[key][1].decode('ascii')}" for key in ("x", "y", "cellsize")]
    lines.append("NODATA_value 1e31")
    for row in range(like.rows):
        lines.append(" ".join(printed(kind, cell) for cell in cells[row * like.cols:(row + 1) * like.cols]))
    return ("\n".join(lines) + "\n").encode("ascii")


# ---- lines

def _lines(text):
    """The lines that have more than blanks, with their numbers over all lines."""
    for number, line in enumerate(text.split(b"\n"), 1):
        if line.strip(b" \t\r"):
            yield number, line


# ---- lookup tables

COLUMN = re.compile(rb"[\[<][^\]>]*[\]>]|[\[<].*\Z|[^ \t\r\[<]+", re.S)


def _interval(column):
    """The range of millionths that an interval takes in, as two ends of which either may be None."""
    bounds = column[1:-1].split(b",")
    if len(bounds) != 2:
        raise Fault("bad-interval")
    exact = [decimal(bound.strip(b" \t\r")) if bound.strip(b" \t\r") else "none" for bound in bounds]
    if None in exact:
        raise Fault("bad-interval")
    values = [None if one == "none" else cell_of("S", one) for one in exact]
    if any(value is None and one != "none" for value, one in zip(values, exact)):
        raise Fault("range")
    low, high = values
    if low is not None and column[:1] == b"<":
        low += 1
    if high is not None and column[-1:] == b">":
        high -= 1
    return low, high


def _number(kind, text):
    exact = decimal(text)
    if exact is None:
        raise Fault("bad-number")
    value = cell_of(kind, exact)
    if value is None:
        raise Fault("range")
    return value


def read_table(keys, kind, text):
    """The rows of a table: the ranges of the keys, and the result."""
    rows = []
    for number, line in _lines(text):
        try:
            columns = COLUMN.findall(line)
            if any(column[:1] in b"[<" and column[-1:] not in b"]>" or column in (b"[", b"<") for column in columns):
                raise Fault("bad-interval")
            if len(columns) != keys + 1:
                raise Fault("columns")
            ranges = []
            for column in columns[:-1]:
                if column[:1] in b"[<":
                    ranges.append(_interval(column))
                else:
                    ranges.append((_number("S", column),) * 2)
            rows.append((ranges, _number(kind, columns[-1])))
        except Fault as fault:
            raise Fault(f"{fault} line {number}") from None
    return rows


def look_up(rows, keys):
    """The result of the first row that fits the keys, in millionths."""
    for ranges, result in rows:
        if all((low is None or low <= key) and (high is None or key <= high) for (low, high), key in zip(ranges, keys)):
            return result
    return None


# ---- time series

def _is_bare(line):
    words = TOKEN.findall(line)
    return len(words) >= 2 and all(decimal(word) is not None for word in words)


def read_series(kind, text):
    """The rows of a series by their steps."""
    lines = list(_lines(text))
    if not lines:
        raise Fault("title line 1")
    if _is_bare(lines[0][1]):
        width, rows = len(TOKEN.findall(lines[0][1])), lines
    else:
        if len(lines) < 2:
            raise Fault(f"title line {lines[-1][0]}")
        word = lines[1][1].strip(b" \t\r")
        if not re.fullmatch(rb"\d{1,7}", word) or int(word) < 2:
            raise Fault(f"title line {lines[1][0]}")
        width = int(word)
        if len(lines) < 2 + width:
            raise Fault(f"title line {lines[-1][0]}")
        rows = lines[2 + width:]
    series, last = {}, 0
    for number, line in rows:
        try:
            step, cells = _row(kind, TOKEN.findall(line), width)
            if step <= last:
                raise Fault("order")
        except Fault as fault:
            raise Fault(f"{fault} line {number}") from None
        series[step], last = cells, step
    return series


def _row(kind, words, width):
    if len(words) != width:
        raise Fault("columns")
    cells = []
    for place, word in enumerate(words):
        exact = decimal(word)
        if exact is None:
            raise Fault("bad-number")
        if place == 0:
            step = cell_of("N", exact)
            if step is None or step < 1:
                raise Fault("range")
        elif exact == Decimal("1e31"):
            cells.append(None)
        else:
            cells.append(_number(kind, word))
    return step, cells


def write_series(kind, names, rows):
    lines = [f"timeseries {SPELLED[kind]}", str(len(names) + 1), "timestep", *map(str, names)]
    lines += [" ".join([str(step), *(printed(kind, cell) for cell in cells)]) for step, cells in rows]
    return ("\n".join(lines) + "\n").encode("ascii")


def stack_file(prefix, step):
    """The file of a stack at a step: eleven bytes, with a point behind the eighth."""
    name = prefix + str(step).rjust(11 - len(prefix), "0")
    return f"{name[:8]}.{name[8:]}"
