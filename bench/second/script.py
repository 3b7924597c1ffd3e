"""The text of a script as a tree, or its first fault of syntax, by docs/LANGUAGE.md."""

import re
import sys
from collections import namedtuple

from .texts import WORDS, DECIMAL

RESERVED = set("binding areamap timer initial dynamic report if then else and or xor not eq ne lt le gt ge div idiv mod".split())
BLANK = re.compile(rb"(?:[ \t\r\n]|#[^\n]*)*")
PLAIN = re.compile(rb"[A-Za-z][A-Za-z0-9_]*|(?:\d+\.?\d*|\.\d+)(?:[eE][+-]?\d{1,6})?|[=!<>]=|[;=:,()+\-*/<>&|!~]")
MEAN = re.compile(rb"#! timeoutput mean(?:\n|\r\n|\Z)")
RUN = re.compile(rb"[A-Za-z0-9_.+\-]+")
MOST_PARTS, MOST_OF_A_KIND, LONGEST = 256, 1000, 64
COMPARISONS = {"==": "==", "eq": "==", "!=": "!=", "ne": "!=", "<": "<", "lt": "<", "<=": "<=", "le": "<=",
               ">": ">", "gt": ">", ">=": ">=", "ge": ">="}
FACTORS = {"*": "*", "/": "/", "div": "/", "idiv": "idiv", "mod": "mod"}
OPERATORS = set(COMPARISONS) | set(FACTORS) | set("and & or | xor not ! ~ + -".split())

Token = namedtuple("Token", "at kind text")  # kind: word, number, symbol, file, end
# `at` and `end` are the bytes where one begins and ends; `body` is where the section behind the area map may begin.
Binding = namedtuple("Binding", "name target is_number kind at end")
Statement = namedtuple("Statement", "report name tree section at end")
Script = namedtuple("Script", "bindings area body steps statements mean")


class Name(namedtuple("Name", "text")):
    pass


class Number(namedtuple("Number", "text")):
    pass


class Call:
    def __init__(self, word, operands):
        self.word, self.operands = word, operands


class SyntaxFault(Exception):
    """Line, column and kind."""


class Reader:
    def __init__(self, text):
        self.text, self.at, self.behind, self.parts = text, 0, 0, None
        self.now = None
        self.step()

    # ---- tokens

    def fault(self, kind, at):
        before = self.text[:at]
        lines, column = before.count(b"\n"), at - before.rfind(b"\n")
        return SyntaxFault(f"{lines + 1}:{column} {kind}")

    def step(self, place="plain"):
        """Goes to the next token, which stands in a place of this form."""
        self.at = BLANK.match(self.text, self.at).end()
        self.now = None
        self.place_form = place

    def look(self):
        """The token that stands here, read once its place is known."""
        if self.now is None:
            self.now = self.file_token() if self.place_form != "plain" else self.plain_token()
            if self.parts is not None and (self.now.text in ("(", ",") or self.now.text in OPERATORS):
                if self.now.kind != "file":
                    self.parts += 1
                    if self.parts > MOST_PARTS:
                        raise self.fault("large", self.now.at)
        return self.now

    def end_token(self):
        return Token(self.behind if self.behind else 0, "end", "")

    def plain_token(self):
        if self.at == len(self.text):
            return self.end_token()
        found = PLAIN.match(self.text, self.at)
        if not found:
            raise self.fault("byte", self.at)
        text = found.group().decode("ascii")
        kind = "word" if text[0].isalpha() else "number" if text[0].isdigit() or text[0] == "." else "symbol"
        if kind != "symbol" and len(text) > LONGEST:
            raise self.fault("long", self.at)
        return Token(self.at, kind, text)

    def file_token(self):
        if self.at == len(self.text):
            return self.end_token()
        found = RUN.match(self.text, self.at)
        if not found:
            raise self.fault("token" if PLAIN.match(self.text, self.at) else "byte", self.at)
        run = found.group()
        is_number = self.place_form == "entry" and DECIMAL.match(run)
        is_file = re.match(rb"[A-Za-z0-9_]", run)
        if not is_number and not is_file:
            raise self.fault("token", self.at)
        if len(run) > LONGEST:
            raise self.fault("long", self.at)
        return Token(self.at, "file", run.decode("ascii"))

    def take(self, *texts, kind=None, then="plain"):
        """Takes the token that stands here where it is one of these texts or of this kind."""
        token = self.look()
        if token.kind == "file" and kind != "file" or not (token.text in texts or token.kind == kind) or token.kind == "end":
            self.wrong()
        if kind == "word" and token.text in RESERVED:
            self.wrong()
        self.behind = token.at + len(token.text)
        self.at = self.behind
        self.step(then)
        return token

    def sees(self, *texts):
        token = self.look()
        return token.kind in ("word", "symbol") and token.text in texts

    def sees_name(self):
        token = self.look()
        return token.kind == "word" and token.text not in RESERVED

    def wrong(self):
        token = self.look()
        raise self.fault("end" if token.kind == "end" else "token", token.at)

    # ---- sections

    def script(self):
        bindings = []
        if self.sees("binding"):
            self.take("binding")
            while self.sees_name():
                if len(bindings) == MOST_OF_A_KIND:
                    raise self.fault("many", self.look().at)
                bindings.append(self.entry())
        self.take("areamap", then="areamap")
        area = self.take(kind="file").text
        self.take(";")
        body, steps, statements = self.behind, 0, []
        if self.sees("timer"):
            self.take("timer")
            steps = self.timer()
        if steps == 0 or self.sees("initial"):
            self.take("initial")
            self.section(statements, "initial")
        if steps:
            self.take("dynamic")
            self.section(statements, "dynamic")
        if self.look().kind != "end":
            self.wrong()
        return Script(bindings, area, body, steps, statements, bool(MEAN.match(self.text)))

    def entry(self):
        at = self.look().at
        name = self.take(kind="word").text
        self.take("=", then="entry")
        target = self.take(kind="file").text
        kind = None
        if self.sees(":"):
            self.take(":")
            kind = WORDS[self.take(*WORDS).text]
        self.take(";")
        return Binding(name, target, bool(DECIMAL.match(target.encode("ascii"))), kind, at, self.behind)

    def timer(self):
        numbers = []
        for place in range(3):
            token = self.look()
            if token.kind != "number":
                self.wrong()
            good = token.text == "1" if place != 1 else re.fullmatch(r"\d{1,6}", token.text) and 1 <= int(token.text) <= 100_000
            if not good:
                raise self.fault("number", token.at)
            numbers.append(int(self.take(kind="number").text))
        self.take(";")
        return numbers[1]

    def section(self, statements, section):
        while self.sees_name() or self.sees("report"):
            if len(statements) == MOST_OF_A_KIND:
                raise self.fault("many", self.look().at)
            at, report = self.look().at, self.sees("report")
            if report:
                self.take("report")
            name = self.take(kind="word").text
            self.parts = None
            self.take("=")
            self.parts = 0
            tree = self.formula()
            self.parts = None
            self.take(";")
            statements.append(Statement(report, name, tree, section, at, self.behind))

    # ---- formulas, from the loosest operator to the tightest

    def chain(self, spellings, below):
        left = below()
        while self.sees(*spellings):
            word = spellings[self.take(*spellings).text]
            left = Call(word, [left, below()])
        return left

    def formula(self):
        return self.chain({"or": "or", "|": "or"}, self.xors)

    def xors(self):
        return self.chain({"xor": "xor"}, self.ands)

    def ands(self):
        return self.chain({"and": "and", "&": "and"}, self.nots)

    def nots(self):
        if self.sees("not", "!", "~"):
            self.take("not", "!", "~")
            return Call("not", [self.nots()])
        left = self.sum()
        if self.sees(*COMPARISONS):
            word = COMPARISONS[self.take(*COMPARISONS).text]
            return Call(word, [left, self.sum()])
        return left

    def sum(self):
        return self.chain({"+": "+", "-": "-"}, self.product)

    def product(self):
        return self.chain(FACTORS, self.signed)

    def signed(self):
        if self.sees("-"):
            self.take("-")
            return Call("unary -", [self.signed()])
        return self.operand()

    def operand(self):
        token = self.look()
        if token.kind == "number":
            return Number(self.take(kind="number").text)
        if self.sees("if"):
            return self.choice()
        if self.sees("("):
            self.take("(")
            inner = self.formula()
            self.take(")")
            return inner
        word = self.take(kind="word").text
        if not self.sees("("):
            return Name(word)
        self.take("(")
        operands = []
        if not self.sees(")"):
            operands.append(self.formula())
            while self.sees(","):
                self.take(",")
                operands.append(self.formula())
        self.take(")")
        return Call(word, operands)

    def choice(self):
        self.take("if")
        self.take("(")
        operands = [self.formula()]
        self.take("then", ",")
        operands.append(self.formula())
        if self.sees("else", ","):
            self.take("else", ",")
            operands.append(self.formula())
        self.take(")")
        return Call("if", operands)


def read_script(text):
    sys.setrecursionlimit(100_000)
    return Reader(text).script()
