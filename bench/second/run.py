"""A run of a script over the files of a folder: what it puts, in order, its line and its status."""

import re
from pathlib import Path

from . import operations as ops
from .meaning import LOOKUPS, SERIES, Meaning, MeaningFault
from .script import SyntaxFault, read_script
from .texts import UNIT, Fault, look_up, read_grid, read_series, read_table, stack_file, write_grid, write_series

LONGEST_SCRIPT, LONGEST_FILE = 1_048_576, 268_435_456
READ_FAULT = 7
FILE_WORD = re.compile(r"[A-Za-z0-9_][A-Za-z0-9_.+\-]{0,63}\Z")


class End(Exception):
    """A line and a status that end a run, or its steps."""

    def __init__(self, line, status):
        super().__init__(line)
        self.line, self.status = line, status


class Run:
    """`plain SCRIPT` in a folder. `puts` are pairs of a name and bytes."""

    def __init__(self, folder):
        self.folder, self.puts = Path(folder), []

    def plain(self, name):
        """The line and the status."""
        self.samples = []
        try:
            self.load(name)
            self.section("initial", 0)
        except End as end:
            return end.line, end.status
        settled, end = 0, None
        for step in range(1, self.script.steps + 1):
            try:
                self.section("dynamic", step)
            except End as one:
                end = one
                break
            settled = step
        if not end or end.status != READ_FAULT:
            for word, kind, columns, rows in self.samples:
                self.put(word, write_series(kind, columns, rows))
        return (end.line, end.status) if end else (f"done files={len(self.puts)} steps={settled}", 0)

    # ---- files

    def read(self, name, limit=LONGEST_FILE):
        try:
            text = (self.folder / name).read_bytes()
        except FileNotFoundError:
            raise End(f"missing {name}", 4) from None
        except OSError:
            raise End(f"read fault {name}", READ_FAULT) from None
        if len(text) > limit:
            raise End(f"too long {name}", 4)
        return text

    def put(self, name, text):
        self.puts.append((name, text))

    def grid(self, file, kind):
        try:
            grid = read_grid(kind, self.read(file))
        except Fault as fault:
            raise End(f"input {file} grid {fault}", 4) from None
        if self.area and (grid.rows, grid.cols) != (self.area.rows, self.area.cols):
            raise End(f"input {file} size {grid.rows} {grid.cols}", 4)
        if kind == "L":
            place = ops.first_unsound((grid.rows, grid.cols), grid.cells)
            if place is not None:
                raise End(f"input {file} unsound {place // grid.cols + 1} {place % grid.cols + 1}", 4)
        return grid

    def load(self, name):
        text = self.read(name, LONGEST_SCRIPT)
        try:
            self.script = read_script(text)
            self.meaning = Meaning(self.script)
            self.statements = self.meaning.settle()
        except (SyntaxFault, MeaningFault) as fault:
            raise End(f"script {fault}", 3) from None
        self.area, self.inputs, self.values = None, {}, {}
        bound, area = self.meaning.bound, self.script.area
        if area in bound:
            self.area = self.grid(bound[area].target, bound[area].kind or "S")
            self.inputs[area] = self.area.cells
        else:
            self.area = self.grid(area, "S")
        self.size = self.area.rows, self.area.cols
        for one in self.script.bindings:
            role = self.meaning.roles.get(one.name)
            if role and one.name != area and role[0] != "stack":
                self.inputs[one.name] = self.input(one, role)
        for statement, tree, form, word in self.statements:
            if form == "series":
                ids = self.inputs[tree.operands[0].value]
                self.samples.append((word, tree.kind, sorted({one for one in ids if one is not None and one > 0}), []))

    def input(self, one, role):
        if role[0] == "grid":
            return self.grid(one.target, one.kind or "S").cells
        text = self.read(one.target)
        try:
            return read_table(role[1], role[2], text) if role[0] == "table" else read_series(role[1], text)
        except Fault as fault:
            raise End(f"input {one.target} {role[0]} {fault}", 4) from None

    # ---- a section

    def section(self, section, step):
        """Evaluates the section, and then puts what it reports and notes its samples."""
        self.step = step
        if section == "dynamic":
            self.read_stacks()
        reports, samples = [], iter(self.samples)
        rows = []
        for number, (statement, tree, form, word) in enumerate(self.statements, 1):
            if statement.section != section:
                continue
            self.number, self.operation = number, 0
            cells = self.value(tree)
            if tree.what == "timeoutput":
                if form == "series":
                    _, _, columns, kept = next(samples)
                    ids = self.inputs[tree.operands[0].value]
                    rows.append((kept, [self.sampled(ids, cells, one) for one in columns]))
                continue
            self.values[statement.name] = cells
            if form in ("grid", "stack"):
                reports.append((word if form == "grid" else stack_file(word, step), tree.kind, cells))
        for kept, row in rows:
            kept.append((step, row))
        for file, kind, cells in reports:
            self.put(file, write_grid(kind, self.area, cells))

    def sampled(self, ids, cells, one):
        if self.script.mean:
            return ops.mean([cell for own, cell in zip(ids, cells) if own == one])
        return cells[ids.index(one)]

    def read_stacks(self):
        self.stacks = {}
        for one in self.script.bindings:
            if self.meaning.roles.get(one.name, ("",))[0] == "stack":
                self.stacks[one.name] = self.grid(stack_file(one.target, self.step), one.kind or "S").cells

    # ---- values

    def value(self, node):
        """The cells of a node, once those of its operands are there; its first cell out of range ends the run."""
        count = self.size[0] * self.size[1]
        if node.what == "literal":
            return [node.value] * count
        if node.what == "time":
            return [self.step * UNIT] * count
        if node.what == "assigned":
            return self.values[node.value]
        if node.what == "grid":
            return self.inputs[node.value]
        if node.what == "stack":
            return self.stacks[node.value]
        if node.what == "timeoutput":
            return self.value(node.operands[1])
        inner = [None if one.what in ("table", "series") else self.value(one) for one in node.operands]
        self.operation += 0 if node.kind == "L" else 1
        cells = list(self.compute(node, inner, count))
        for place, cell in enumerate(cells):
            if ops.out_of_range(node.kind, cell):
                row, col = divmod(place, self.size[1])
                raise End(f"overflow step {self.step} statement {self.number} operation {self.operation} "
                          f"row {row + 1} col {col + 1}", 5)
        return cells

    def compute(self, node, inner, count):
        word, size = node.what, self.size
        if word in ops.AT_A_PLACE:
            rule = ops.AT_A_PLACE[word]
            return [None if None in cells else rule(*cells) for cells in zip(*inner)]
        if word == "if":
            return [ops.choose(*cells) for cells in zip(*inner)]
        if word == "cover":
            return [b if a is None else a for a, b in zip(*inner)]
        if word == "defined":
            return [int(a is not None) for a in inner[0]]
        if word in ("boolean", "nominal", "ordinal", "scalar", "directional"):
            return [ops.convert(node.kind, node.operands[0].kind, a) for a in inner[0]]
        if word in LOOKUPS:
            return self.lookup(node, inner)
        if word in SERIES:
            row = self.inputs[node.operands[0].value].get(self.step, [])
            return [row[one - 1] if one is not None and 1 <= one <= len(row) else None for one in inner[1]]
        if word.startswith("window"):
            return ops.window(word[6:], size, node.value, inner[0])
        if word == "areaarea":
            return ops.area_sizes(inner[0])
        if word.startswith("area"):
            return ops.areas(word[4:], inner[1], inner[0])
        if word.startswith("map"):
            return ops.whole_map(word[3:], inner[0])
        return self.along_drains(word, inner)

    def lookup(self, node, inner):
        rows = self.inputs[node.operands[0].value]
        scales = [1 if one.kind in "SD" else UNIT for one in node.operands[1:]]
        return [None if None in keys else look_up(rows, [key * scale for key, scale in zip(keys, scales)])
                for keys in zip(*inner[1:])]

    def along_drains(self, word, inner):
        size = self.size
        if word in ("accuthresholdflux", "accuthresholdstate"):
            flows, states = ops.over_threshold(size, *inner)
            return flows if word.endswith("flux") else states
        rules = {"upstream": ops.upstream, "downstream": ops.downstream, "accuflux": ops.accuflux,
                 "catchment": ops.catchment, "lddmask": ops.mask}
        return rules[word](size, *inner)


def evaluate(folder, words):
    """The puts, the line and the status of a call with these words in a folder."""
    run = Run(folder)
    if len(words) != 2 or words[0] != "plain" or not FILE_WORD.match(words[1]):
        return [], "usage", 2
    line, status = run.plain(words[1])
    return run.puts, line, status
