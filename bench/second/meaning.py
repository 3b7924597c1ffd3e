"""What the names and numbers of a script stand for, and its first fault of meaning, by docs/LANGUAGE.md."""

from decimal import Decimal

from .script import Call, Name, Number
from .texts import RANGES, cell_of, stack_file

CLASSES, ALL_BUT_DRAINS, ALL = "BNO", "BNOSD", "BNOSDL"
WINDOWS = {"windowtotal": ("S", "S"), "windowaverage": ("S", "S"), "windowminimum": ("OS=", "="),
           "windowmaximum": ("OS=", "="), "windowdiversity": ("BNO", "S"), "windowmajority": ("BNO=", "=")}
# What each word takes, place by place, and gives: places that are marked `=` agree, and so does a result that is `=`.
SIGNATURES = {
    **{word: [(("S", "S"), "S")] for word in ("+", "-", "*", "/", "idiv", "mod")},
    **{word: [(("S",), "S")] for word in ("unary -", "abs", "rounddown", "roundup", "roundoff")},
    **{word: [(("OS=", "OS="), "=")] for word in ("min", "max")},
    **{word: [(("BNOSD=", "BNOSD="), "B")] for word in ("==", "!=")},
    **{word: [(("OS=", "OS="), "B")] for word in ("<", "<=", ">", ">=")},
    **{word: [(("B", "B"), "B")] for word in ("and", "or", "xor")},
    "not": [(("B",), "B")],
    "if": [(("B", "BNOSD="), "="), (("B", "BNOSD=", "BNOSD="), "=")],
    "cover": [(("BNOSD=", "BNOSD="), "=")],
    "defined": [((ALL,), "B")],
    "boolean": [(("BNOS",), "B")], "nominal": [(("BNOSL",), "N")], "ordinal": [(("BNOSL",), "O")],
    "scalar": [((ALL,), "S")], "directional": [(("SD",), "D")],
    "areatotal": [(("S", CLASSES), "S")], "areaaverage": [(("S", CLASSES), "S")],
    "areaminimum": [(("OS=", CLASSES), "=")], "areamaximum": [(("OS=", CLASSES), "=")],
    "areadiversity": [((CLASSES, CLASSES), "S")], "areamajority": [(("BNO=", CLASSES), "=")],
    "areaarea": [((CLASSES,), "S")],
    "maptotal": [(("S",), "S")], "mapminimum": [(("OS=",), "=")], "mapmaximum": [(("OS=",), "=")],
    "upstream": [(("L", "S"), "S")], "downstream": [(("L", "S"), "S")], "accuflux": [(("L", "S"), "S")],
    "accuthresholdflux": [(("L", "S", "S"), "S")], "accuthresholdstate": [(("L", "S", "S"), "S")],
    "catchment": [(("L", "BNO="), "=")], "lddmask": [(("L", "B"), "L")],
}
NESTED = ("min", "max", "cover")
LOOKUPS = {f"lookup{word}": kind for word, kind in zip(("boolean", "nominal", "ordinal", "scalar", "directional"), ALL_BUT_DRAINS)}
SERIES = {f"timeinput{word[6:]}": kind for word, kind in LOOKUPS.items()}
MOST_OPERATIONS, MOST_STACKS = 8192, 64


class MeaningFault(Exception):
    """The place and the word."""


class Settled:
    """A node whose kind is known: `kind` is None for a number that takes the kind of its place."""

    def __init__(self, what, kind, operands=(), value=None, operations=0):
        self.what, self.kind, self.operands, self.value = what, kind, list(operands), value
        self.operations = operations + sum(one.operations for one in operands)


class Wrong(Exception):
    """A fault at a node."""


class Meaning:
    def __init__(self, script):
        self.script = script
        self.bound, self.assigned = {}, {one.name for one in script.statements}
        self.dynamic = {one.name for one in script.statements if one.section == "dynamic"}
        self.samples = {one.name for one in script.statements if isinstance(one.tree, Call) and one.tree.word == "timeoutput"}
        self.roles, self.kinds, self.seen = {}, {}, set()
        self.stacks_read, self.stacks_written = [], []
        self.counts = {"initial": 0, "dynamic": 0}

    # ---- the order of the faults

    def settle(self):
        for number, one in enumerate(self.script.bindings, 1):
            self.binding(f"binding {number}", one)
        self.area_map()
        statements = []
        for number, one in enumerate(self.script.statements, 1):
            try:
                statements.append(self.statement(one))
            except Wrong as wrong:
                raise MeaningFault(f"statement {number} {wrong}") from None
        self.reports(statements)
        return statements

    def binding(self, place, one):
        if one.name in self.bound:
            raise MeaningFault(f"{place} name-clash")
        if one.is_number and one.kind and (one.kind == "L" or cell_of(one.kind, Decimal(one.target)) is None):
            raise MeaningFault(f"{place} kind-mismatch")
        self.bound[one.name] = one

    def area_map(self):
        one = self.bound.get(self.script.area)
        if one and one.is_number:
            raise MeaningFault("areamap kind-mismatch")
        if one and self.script.area in self.assigned:
            raise MeaningFault("areamap name-clash")
        if one:
            self.roles[one.name] = ("grid",)

    def is_input(self, name):
        return name in self.bound and name not in self.assigned and not self.bound[name].is_number

    def kind_of_input(self, name):
        return self.bound[name].kind or "S"

    # ---- statements

    def statement(self, one):
        self.section = one.section
        is_sample = isinstance(one.tree, Call) and one.tree.word == "timeoutput"
        tree = self.node(one.tree, is_root=True)
        before = self.kinds.get(one.name) or (self.bound[one.name].kind if one.name in self.bound else None)
        if tree.kind is None:
            if (before or "S") == "L":
                raise Wrong("drain-place")
            tree = self.literal(tree, before or "S")
        if tree.kind == "L" and one.section == "dynamic":
            raise Wrong("drain-place")
        if one.name in self.bound and self.bound[one.name].is_number:
            raise Wrong("name-clash")
        if before not in (None, tree.kind) or self.bound.get(one.name) and self.bound[one.name].kind not in (None, tree.kind):
            raise Wrong("kind-mismatch")
        operations = tree.operations or (0 if is_sample or tree.kind == "L" else 1)
        self.counts[one.section] += operations
        word = self.bound[one.name].target if one.name in self.bound else one.name
        is_stack = one.report and one.section == "dynamic" and not is_sample
        if is_stack:
            self.check_prefix(word)
            self.stacks_written.append(word)
        if self.counts[one.section] > MOST_OPERATIONS or len(self.stacks_written) > MOST_STACKS or len(self.stacks_read) > MOST_STACKS:
            raise Wrong("too-many")
        self.kinds[one.name] = tree.kind
        self.seen.add((one.section, one.name))
        form = "none" if not one.report else "grid" if one.section == "initial" else "series" if is_sample else "stack"
        return one, tree, form, word

    def check_prefix(self, prefix):
        if "." in prefix or len(prefix) > 8 or len(str(self.script.steps)) > 11 - len(prefix):
            raise Wrong("bad-stack-name")

    def reports(self, statements):
        steps = range(1, self.script.steps + 1)
        taken = {self.bound[name].target for name, role in self.roles.items() if role[0] != "stack"}
        if self.script.area not in self.bound:
            taken.add(self.script.area)
        for name, role in self.roles.items():
            if role[0] == "stack":
                taken |= {stack_file(self.bound[name].target, step) for step in steps}
        for number, (_, _, form, word) in enumerate(statements, 1):
            files = [] if form == "none" else [stack_file(word, step) for step in steps] if form == "stack" else [word]
            if taken & set(files):
                raise MeaningFault(f"statement {number} name-clash")
            taken |= set(files)

    # ---- nodes

    def literal(self, node, kind):
        cell = cell_of(kind, node.value)
        if cell is None:
            raise Wrong("kind-mismatch")
        return Settled("literal", kind, value=cell)

    def node(self, node, role=("grid",), is_root=False):
        if isinstance(node, Number):
            return Settled("number", None, value=Decimal(node.text))
        if isinstance(node, Name):
            return self.name(node.text, role)
        return self.call(node, is_root)

    def name(self, name, role):
        if name not in self.bound and name not in self.assigned:
            raise Wrong("unknown-name")
        if name in self.assigned:
            first = ("initial", name) in self.seen
            if not (first if self.section == "initial" else first or ("dynamic", name) in self.seen):
                raise Wrong("not-assigned")
            if name in self.samples:
                raise Wrong("kind-mismatch")
            return Settled("assigned", self.kinds[name], value=name)
        one = self.bound[name]
        if one.is_number:
            if one.kind:
                return Settled("literal", one.kind, value=cell_of(one.kind, Decimal(one.target)))
            return Settled("number", None, value=Decimal(one.target))
        if self.roles.setdefault(name, role) != role:
            raise Wrong("name-clash")
        if role[0] == "stack":
            self.stack(name)
        kind = self.kind_of_input(name) if role[0] in ("grid", "stack") else None
        return Settled(role[0], kind, value=name)

    def stack(self, name):
        if self.kind_of_input(name) == "L":
            raise Wrong("drain-place")
        if name not in self.stacks_read:
            self.check_prefix(self.bound[name].target)
            self.stacks_read.append(name)

    def call(self, call, is_root):
        operands = [self.node(one, self.role_of(call, place)) for place, one in enumerate(call.operands)]
        word = call.word
        if word not in SIGNATURES and word not in LOOKUPS and word not in SERIES and word not in WINDOWS \
                and word not in ("time", "timeinput", "timeoutput"):
            raise Wrong("unknown-name")
        if word.startswith("time") and self.section == "initial":
            raise Wrong("wrong-section")
        if word == "timeoutput" and not is_root:
            raise Wrong("wrong-section")
        if word == "timeoutput" and call.operands and not (isinstance(call.operands[0], Name) and self.is_input(call.operands[0].text)):
            raise Wrong("wrong-section")
        self.drain_places(word, operands, is_root)
        if word in WINDOWS and len(operands) > 1 and not self.is_length(call.operands[1]):
            raise Wrong("bad-window")
        return self.by_form(word, operands)

    @staticmethod
    def role_of(call, place):
        if call.word in LOOKUPS and place == 0:
            return ("table", len(call.operands) - 1, LOOKUPS[call.word])
        if call.word in SERIES and place == 0:
            return ("series", SERIES[call.word])
        return ("stack",) if call.word == "timeinput" and place == 0 else ("grid",)

    def drain_places(self, word, operands, is_root):
        if word == "lddmask" and not (is_root and self.section == "initial"):
            raise Wrong("drain-place")
        asks = word in SIGNATURES and SIGNATURES[word][0][0][0] == "L"
        if asks and operands and operands[0].what == "number":
            raise Wrong("drain-place")

    @staticmethod
    def is_length(node):
        if not isinstance(node, Number):
            return False
        value = Decimal(node.text)
        return abs(value.adjusted()) < 40 and value == int(value) and 1 <= value <= 31 and int(value) % 2 == 1

    def by_form(self, word, operands):
        """The call, where its operands are as many and of such kinds as one of its forms has."""
        whats = [one.what for one in operands]
        if word in LOOKUPS or word in SERIES:
            good = whats[:1] == ["table" if word in LOOKUPS else "series"]
            keys = 2 <= len(operands) <= 5 if word in LOOKUPS else len(operands) == 2
            if not good or not keys:
                raise Wrong("kind-mismatch")
            places = [None] + [ALL_BUT_DRAINS if word in LOOKUPS else CLASSES] * (len(operands) - 1)
            return self.fit(word, operands, places, {**LOOKUPS, **SERIES}[word])
        if word == "timeinput":
            if whats != ["stack"]:
                raise Wrong("kind-mismatch")
            return Settled("stack", operands[0].kind, value=operands[0].value)
        if word == "time":
            if operands:
                raise Wrong("kind-mismatch")
            return Settled("time", "S")
        if word == "timeoutput":
            if len(operands) != 2:
                raise Wrong("kind-mismatch")
            if self.script.mean:
                return self.fit(word, operands, [CLASSES, "S"], "S")
            fitted = self.fit(word, operands, [CLASSES, "BNOSD="], "=")
            fitted.operations -= 1
            return fitted
        if word in WINDOWS:
            if len(operands) != 2:
                raise Wrong("kind-mismatch")
            place, result = WINDOWS[word]
            fitted = self.fit(word, operands[:1], [place], result)
            fitted.value = int(operands[1].value)
            return fitted
        if word in NESTED and len(operands) > 2:
            return self.nested(word, operands)
        for places, result in SIGNATURES[word]:
            if len(places) == len(operands):
                return self.fit(word, operands, places, result)
        raise Wrong("kind-mismatch")

    def nested(self, word, operands):
        place = SIGNATURES[word][0][0][0]
        whole = self.fit(word, operands, [place] * len(operands), "=")
        tree = whole.operands[0]
        for one in whole.operands[1:]:
            tree = Settled(word, whole.kind, [tree, one], operations=1)
        return tree

    def fit(self, word, operands, places, result):
        """The call with its operands, of which each number has a kind now; a drain map is no operation of its own."""
        agreed = next((one.kind for one, place in zip(operands, places) if place and place[-1] == "=" and one.kind), None)
        fitted = []
        for one, place in zip(operands, places):
            if place is None:
                fitted.append(one)
                continue
            kinds = place.rstrip("=")
            if one.kind is None:
                if one.what != "number":
                    raise Wrong("kind-mismatch")
                kind = agreed if place[-1] == "=" and agreed else "S" if "S" in kinds else kinds if len(kinds) == 1 else "N"
                if kind not in kinds:
                    raise Wrong("kind-mismatch")
                one = self.literal(one, kind)
                if place[-1] == "=" and not agreed:
                    agreed = kind
            if one.kind not in kinds or place[-1] == "=" and one.kind != agreed:
                raise Wrong("kind-mismatch")
            fitted.append(one)
        return Settled(word, agreed if result == "=" else result, fitted, operations=0 if result == "L" else 1)
