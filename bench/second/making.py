"""Scripts with their files, made at random. A tidy script has a meaning; a wild one is made with a fault here and there.

Maps are small, so that missing values, borders, pits and empty classes come often. What a word takes and gives is looked up
in the table of meaning.py; what it computes is not known here.
"""

from .meaning import LOOKUPS, SERIES, SIGNATURES, WINDOWS
from .texts import SPELLED, stack_file

KINDS = "BNOSDL"
NUMBERS = {"B": ("0", "1"), "N": ("0", "1", "2", "3", "-1", "2.0"), "O": ("0", "1", "2", "7", "-3"),
           "S": ("0", "1", "2", "0.5", "3", "1e1", "0.000001", "2.25"), "D": ("0", "90", "359.5", "12.25"), "L": ("5", "2")}
CELLS = {"B": ("0", "1"), "N": ("0", "1", "2", "3", "-1"), "O": ("0", "1", "2", "5", "-3"),
         "S": ("0", "1", "2", "-1", "0.5", "3.25", "-2.75", "10", "0.000001"), "D": ("0", "90", "180.5", "359.999999")}
LARGE = {"S": ("9000000000000", "-9000000000000", "8999999999999.5", "3000"), "N": ("2147483647", "-2147483647"),
         "O": ("2147483647", "-2147483647")}
INFIX = {"+": "+", "-": "-", "*": "*", "/": "/", "idiv": "idiv", "mod": "mod", "==": "==", "!=": "ne", "<": "<", "<=": "le",
         ">": "gt", ">=": ">=", "and": "and", "or": "|", "xor": "xor"}
STEPS = {1: (1, -1), 2: (1, 0), 3: (1, 1), 4: (0, -1), 5: (0, 0), 6: (0, 1), 7: (-1, -1), 8: (-1, 0), 9: (-1, 1)}
SIZES = ((1, 1), (1, 4), (1, 7), (2, 3), (3, 3), (4, 4), (5, 3), (2, 17), (9, 8))
STRAYS = (
    # names: not there, not assigned yet, of another kind or role
    "Nowhere", "X1", "X2", "X3", "X4", "X9", "Q1", "C0", "S0", "N0", "L0", "P0",
    # calls out of their places
    "lddmask(L0, B0)", "lddmask(5, B0)", "time()", "timeinput(P0)", "timeinput(P1)", "timeinput(S0)", "timeoutput(N0, S0)",
    "timeinputscalar(R, 1)", "lookupscalar(S0, 1)",
    # words that are none
    "average(1)", "copy(S0)", "negative(S0)", "lookupldd(Ts1, 1)", "timeinputldd(Rs, 1)",
    # operands of another number or kind, and numbers that are no value of the kind of their place
    "min(1)", "windowtotal(S0)", "areatotal(1)", "mapminimum(1, 2)", "accuflux(5, S0)", "catchment(L0, 1.5)", "areaarea(1.5)",
    "catchment(L0, S0)", "upstream(S0, 1)", "maptotal(N0)", "areaarea(S0)", "windowmajority(S0, 3)", "boolean(L0)",
    "directional(L0)", "if(B0 then L0)", "L0 == L0", "cover(L0, 5)",
)
# first lines that are comments alone
NO_MEANS = ("", "", "", "# a model\n", "#! timeoutput means\n", " #! timeoutput mean\n", "#! timeoutput mean \n")
WRONG_LENGTHS = ("2", "0", "33", "1.5", "-3", "A", "(3+0)", "time()")


def _rows():
    """Each way to make a value: the kind that it has or `=`, its word, and what its places take."""
    for word, forms in SIGNATURES.items():
        for places, result in forms:
            if word != "lddmask":
                yield result, word, places
    for word, (place, result) in WINDOWS.items():
        yield result, word, (place,)
    for word, kind in LOOKUPS.items():
        yield kind, word, ("BNOSD",) * 2
    for word, kind in SERIES.items():
        yield kind, word, ("BNO",)


ROWS = list(_rows())


class Making:
    """One script and its files, from a source of random numbers."""

    def __init__(self, draw):
        self.draw = draw
        self.rows, self.cols = draw.choice(SIZES)
        self.wild = draw.random() < 0.35
        self.large = draw.random() < 0.15
        self.files, self.entries, self.lines = {}, [], []
        self.inputs = {kind: [] for kind in KINDS}
        self.numbers, self.stacks = [], []
        self.known, self.section, self.reported, self.count = {}, "initial", set(), 0
        self.steps = draw.choice((0, 0, 1, 2, 3, 5))
        self.mean = draw.random() < 0.3

    def chance(self, share):
        return self.draw.random() < share

    def slips(self, share=0.03):
        """Whether something goes wrong here: never in a tidy script."""
        return self.wild and self.chance(share)

    # ---- files

    def cell(self, kind):
        if self.slips(0.003):
            return self.draw.choice(("x", "1e99", "2.5", "-7"))
        if self.chance(0.12):
            return "-9999"
        if self.large and kind in LARGE and self.chance(0.2):
            return self.draw.choice(LARGE[kind])
        return self.draw.choice(CELLS[kind])

    def codes(self):
        """Directions that lead on to places of a lower rank, or now and then any."""
        places = [(row, col) for row in range(self.rows) for col in range(self.cols)]
        self.draw.shuffle(places)
        rank = {place: number for number, place in enumerate(places)}
        gone = {place for place in places if self.chance(0.08)}
        wrong = self.chance(0.06)
        for row, col in sorted(places):
            good = [code for code, (down, right) in STEPS.items()
                    if rank.get((row + down, col + right), len(rank)) < rank[row, col] and (row + down, col + right) not in gone]
            if (row, col) in gone:
                yield "-9999"
            elif wrong and self.chance(0.3):
                yield str(self.draw.randint(1, 9))
            else:
                yield str(self.draw.choice(good)) if good and self.chance(0.9) else "5"

    def grid(self, kind):
        cells = list(self.codes()) if kind == "L" else [self.cell(kind) for _ in range(self.rows * self.cols)]
        rows, cols = (self.cols, self.rows + 1) if self.slips(0.01) else (self.rows, self.cols)
        if rows * cols != len(cells):
            cells = ["5"] * (rows * cols)
        lines = [f"ncols {cols}", f"nrows {rows}", "xllcorner 1.50", "yllcenter -2", "cellsize 10"]
        lines += [" ".join(cells[row * cols:(row + 1) * cols]) for row in range(rows)]
        return "\n".join(lines) + "\n"

    def bind(self, name, file, kind=None):
        self.entries.append(f"{name} = {file}{' : ' + SPELLED[kind] if kind else ''};")

    def make_inputs(self):
        for kind in KINDS:
            for number in range(self.draw.randint(1, 2)):
                name, file = f"{kind}{number}", f"{kind.lower()}{number}.asc"
                self.bind(name, file, None if kind == "S" and self.chance(0.7) else kind)
                self.inputs[kind].append(name)
                if not self.slips(0.01):
                    self.files[file] = self.grid(kind)

    def make_numbers(self):
        for number in range(self.draw.randint(0, 3)):
            kind = self.draw.choice("BNOSD" + "L" * self.slips(0.1))
            value = self.draw.choice(NUMBERS[self.draw.choice("NS") if self.slips(0.1) else kind])
            named = self.chance(0.6)
            self.bind(f"C{number}", value, kind if named else None)
            self.numbers.append((f"C{number}", kind if named else None))

    def make_stacks(self):
        for number in range(self.draw.randint(0, 2) if self.steps else 0):
            kind = "L" if self.slips(0.05) else self.draw.choice("BNOSD")
            prefix = "longstack" if self.slips(0.05) else f"w{number}"
            self.bind(f"P{number}", prefix, kind)
            self.stacks.append((f"P{number}", kind))
            for step in range(1, self.steps + 1):
                if not self.slips(0.02):
                    self.files[stack_file(prefix, step)] = self.grid(kind)

    def table(self, word, keys):
        """A table of its own for each word and number of keys; its name."""
        kind, name = LOOKUPS[word], f"T{word[6]}{keys}"
        file = f"t{word[6]}{keys}.tbl"
        if file not in self.files:
            self.bind(name, file)
            rows = [" ".join([*(self.key() for _ in range(keys)), self.draw.choice(CELLS[kind])]) for _ in range(4)]
            self.files[file] = "\n".join(rows) + "\n"
        return name

    def key(self):
        low, high = sorted(self.draw.randint(-2, 6) for _ in range(2))
        return self.draw.choice((str(low), f"[{low},{high}]", f"<{low},{high}>", f"[{low},]", "<,>"))

    def series(self, word):
        kind, name, file = SERIES[word], f"R{word[9]}", f"r{word[9]}.tss"
        if file not in self.files:
            self.bind(name, file)
            rows = [" ".join([str(step), *(self.draw.choice((*CELLS[kind], "1e31")) for _ in range(3))])
                    for step in range(1, self.steps + 1) if self.chance(0.9)]
            self.files[file] = "\n".join(rows) + "\n" if rows else "9 1 1 1\n"
        return name

    # ---- values

    def leaf(self, kind, free):
        names = self.inputs[kind] + [name for name, (_, one) in self.known.items() if one == kind]
        if kind == "L":
            return self.draw.choice(names)
        choices = names + [name for name, one in self.numbers if one == kind]
        if free or self.slips(0.1):
            choices.append(self.literal(kind))
        if self.section == "dynamic":
            choices += [f"timeinput({name})" for name, one in self.stacks if one == kind]
            choices += ["time()"] * (kind == "S")
        return self.draw.choice(choices)

    def literal(self, kind):
        large = self.large and kind == "S" and self.chance(0.3)
        return self.draw.choice([text for text in (LARGE if large else NUMBERS)[kind] if not text.startswith("-")])

    def stray(self):
        """What seldom fits."""
        return self.draw.choice(STRAYS)

    def value(self, kind, depth, free=True):
        """A formula of this kind, no deeper than this; a number without a kind only where it is free to take this one."""
        if self.slips():
            return self.stray() if self.chance(0.6) else self.value(self.draw.choice("BNOSD"), depth)
        if kind == "L" or depth == 0 or self.chance(0.15):
            return self.leaf(kind, free)
        ways = [row for row in ROWS if self.gives(row, kind)]
        _, word, places = self.draw.choice(ways)
        return self.call(word, places, kind, depth - 1)

    def gives(self, row, kind):
        result, word, places = row
        if word in SERIES and self.section != "dynamic":
            return False
        if result != "=":
            return result == kind
        return all(kind in place for place in places if place.endswith("="))

    def call(self, word, places, kind, depth):
        result = next(row[0] for row in ROWS if row[1] == word)
        agreed = kind if result == "=" else self.draw.choice(next((place[:-1] for place in places if place.endswith("=")), "S"))
        operands, free = [], agreed == "S"
        for place in places:
            agrees = place.endswith("=")
            operands.append(self.value(agreed if agrees else self.draw.choice(place), depth, free or not agrees))
            free = free or agrees
        if self.slips(0.02):
            operands = operands[1:] if self.chance(0.5) else [*operands, "1"]
        if word in ("min", "max", "cover") and self.chance(0.2):
            operands.append(self.value(agreed, depth))
        return self.spelled(word, operands)

    def spelled(self, word, operands):
        if word in INFIX and len(operands) == 2:
            text = f"{operands[0]} {INFIX[word]} {operands[1]}"
            return text if word in "+-*/" and self.chance(0.3) else f"({text})"
        if word == "unary -":
            return f"(-{operands[0]})" if operands else "(-1)"
        if word == "not":
            return f"(not {operands[0]})" if operands else "(!1)"
        if word == "if":
            middle = " then ", " else "
            return "if(" + "".join(a + b for a, b in zip(operands, [*middle[:len(operands) - 1], ""])) + ")" \
                if 2 <= len(operands) <= 3 else "if(1)"
        if word in LOOKUPS:
            operands.insert(0, self.table(word, len(operands)))
        if word in SERIES:
            operands.insert(0, self.series(word))
        if word in WINDOWS and operands:
            operands.insert(1, self.draw.choice(WRONG_LENGTHS) if self.slips(0.1) else self.draw.choice(("1", "3", "5", "3.0", "31")))
        return f"{word}({', '.join(operands)})"

    # ---- statements

    def target(self, kind):
        """A name for a value of this kind: a new one, or one that has had such a value."""
        old = [name for name, (_, one) in self.known.items() if one == kind]
        if self.slips():
            return self.draw.choice(("C0", "S0", "X0", "X1", "X2"))
        if old and self.chance(0.4):
            return self.draw.choice(old)
        self.count += 1
        return f"X{self.count}"

    def state(self, name, text, kind):
        report = self.chance(0.6) and (self.slips(0.2) or (self.section, name) not in self.reported)
        if report and self.section == "dynamic" and ("initial", name) in self.reported and not self.wild:
            report = False
        if report:
            self.reported.add((self.section, name))
        self.lines.append(f"{'report ' if report else ''}{name} = {text};")
        if kind:
            self.known[name] = (self.section, kind)

    def drain_statement(self):
        mask = self.value("B", self.draw.randint(0, 2))
        drain = self.leaf("L", False)
        text = drain if self.chance(0.15) else f"lddmask({drain}, {mask})"
        self.state(self.target("L"), text, "L")

    def sample(self):
        self.count += 1
        kind = "S" if self.mean and not self.slips(0.1) else self.draw.choice("BNOSD")
        ids = self.draw.choice(self.inputs["N"] + self.inputs["O"] + self.inputs["B"])
        self.state(f"X{self.count}", f"timeoutput({ids}, {self.value(kind, self.draw.randint(0, 2), kind == 'S')})", None)

    def statement(self):
        draw = self.draw.random()
        if draw < 0.25 and (self.section == "initial" or self.slips(0.1)):
            return self.drain_statement()
        if draw < 0.2 and (self.section == "dynamic" or self.slips(0.1)):
            return self.sample()
        kind = self.draw.choice("BNOSDSSS")
        name = self.target(kind)
        free = kind == "S" or name in self.known
        self.state(name, self.value(kind, self.draw.randint(0, 3), free), kind)

    def sections(self):
        if not self.steps or self.chance(0.85):
            self.lines.append("initial")
            for _ in range(self.draw.randint(1, 7)):
                self.statement()
        if self.steps:
            self.section = "dynamic"
            self.lines.append("dynamic")
            for _ in range(self.draw.randint(1, 6)):
                self.statement()

    def area(self):
        kind = self.draw.choice(KINDS)
        if self.chance(0.15):
            return "s0.asc" if "s0.asc" in self.files else "l0.asc"
        return self.inputs[kind][0]

    def script(self):
        self.make_inputs()
        self.make_numbers()
        self.make_stacks()
        self.sections()
        if self.chance(0.2):
            self.bind("X2", "out-2")
        if self.slips(0.1):
            self.bind(*self.draw.choice((("S0", "s9.asc"), ("C9", "1.5", "N"), ("C9", "5", "L"), ("X1", "3"), ("X1", "3", "N"))))
        timer = f"timer 1 {self.steps} 1;" if self.steps else ""
        body = " ".join(self.lines) if self.chance(0.5) else "\n".join(self.lines)
        if self.slips(0.05):
            cut = self.draw.randrange(len(body))
            body = body[:cut] + self.draw.choice((";", "", "$", "(", "L0", " 1e", "#")) + body[cut + 1:]
        first = f"#! timeoutput mean{self.draw.choice((chr(10), chr(13) + chr(10)))}" if self.mean else self.draw.choice(NO_MEANS)
        return f"{first}binding {' '.join(self.entries)}\nareamap {self.area()};\n{timer}\n{body}\n"


def make(draw):
    """The files of a script by their names, `m.mod` among them."""
    making = Making(draw)
    text = making.script()
    return {"m.mod": text, **making.files}
