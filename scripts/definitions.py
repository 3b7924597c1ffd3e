"""The definitions of the crates' specs/, as check-names and believed read them. Both run at the top of the repository."""

import re
from pathlib import Path

ROOT = Path.cwd()

# the signature of a definition, a record or a data type, from its first column on
HEAD = re.compile(r"^(?:(?:abbrev|unfoldable|open|pub|data|record) )+(\S+)|^(\S+) :(?= |$)")
# a line that imports: a module's names, or a module under a name of its own
IMPORT = re.compile(r"^\s*(?:pub )?(?:ghost )?use\s+([\w.]+?)(?:\.\{([^}]*)\}|\s+as\s+(\S+)|)\s*;?\s*$", re.S)
# what stands between names
BETWEEN = re.compile(r"[\s(){}\[\];,.\"]+|:(?=\s)")


class Definition:
    """A definition of specs/: its name, its file, its first line, its text, and the comment before it."""

    def __init__(self, crate, path, line, head, comment):
        self.crate, self.path, self.line, self.comment = crate, path, line, comment
        self.is_public = " pub " in f" {head} ".replace("pub:", "pub :")
        found = HEAD.match(head)
        self.name = found.group(1) or found.group(2)
        self.is_data = " data " in f" {head}"
        self.text = [head]

    @property
    def is_inside(self):
        return "inside" in self.path.parent.parts

    @property
    def is_operator(self):
        return "◌" in self.name

    def constructors(self):
        """The names by which values of a data type are made."""
        return re.findall(r"^\s+(?:pub )?(\S+) :", "\n".join(self.text[1:]), re.M) if self.is_data else []

    def subject(self):
        """The type of the first explicit argument, by its first word."""
        signature = re.sub(r"\{[^}]*\}\s*→\s*", "", " ".join(self.text).split(" : ", 1)[-1])
        words = [word for word in BETWEEN.split(signature) if word]
        return words[0] if words else ""

    def is_statement(self):
        """Whether it is a statement of its own: a type without arguments."""
        return re.search(r" : Type 0$", self.text[0]) is not None and self.name[0].isupper() and not self.is_record()

    def is_record(self):
        return re.match(r"(pub )?(record|data) ", self.text[0]) is not None

    def lines(self):
        return len(self.text)


class File:
    """A file of specs/: its definitions, and the names that it imports."""

    def __init__(self, crate, path):
        self.crate, self.path = crate, path
        self.definitions, self.imports, self.aliases = [], {}, {}
        lines = path.read_text(encoding="utf-8").split("\n")
        read_imports("\n".join(lines), self.imports, self.aliases)
        comment, current, in_import, shared = [], None, False, None
        for number, line in enumerate(lines, 1):
            # definitions that name each other stand two blanks to the right, behind a line `mutual`, and share its comment
            if re.match(r"((abbrev|unfoldable) )?mutual$", line):
                comment, current, shared = [], None, comment
                continue
            if line.strip() and not line[0].isspace():
                shared = None
            if shared is not None:
                line = line[2:]
            if in_import or line.startswith(("use ", "pub use ", "pub mod ", "mod ")):
                in_import = "}" not in line and (in_import or "{" in line)
                comment, current = [], None
            elif line.startswith("--"):
                comment, current = ([] if current else comment) + [line.lstrip("- ")], None
            elif not line.strip():
                comment, current = [], None
            elif line.startswith(("infix", "#")):
                current = None
            elif not line[0].isspace() and self.begins(line, current):
                current = Definition(crate, path, number, line, " ".join(comment or shared or []).strip())
                self.definitions.append(current)
                comment = []
            elif current:
                current.text.append(line)

    @staticmethod
    def begins(line, current):
        found = HEAD.match(line)
        if not found:
            return False
        return bool(found.group(1)) or not current or found.group(2) != current.name

    def module(self):
        inner = self.path.relative_to(ROOT / "crates" / self.crate).with_suffix("")
        return f"Rattle.{self.crate}." + ".".join(inner.parts)


def read_imports(text, names, aliases):
    """Adds the imports of a text: for each name the modules that it comes from, and for each alias its module."""
    for found in re.finditer(r"^[ \t]*(?:pub )?(?:ghost )?use\s[^;{\n]*(?:\{[^}]*\})?[^\n]*", text, re.M):
        parts = IMPORT.match(re.sub(r"--[^\n]*", "", found.group(0)).strip())
        if not parts:
            continue
        module, items, alias = parts.groups()
        if items is not None:
            for item in items.replace("\n", " ").split(","):
                words = item.split()
                if words:
                    # `a as b` brings a under the name b
                    names.setdefault(words[-1], set()).add((module, words[0]))
        else:
            aliases[alias or module.rsplit(".", 1)[-1]] = module


def crates():
    """The crates by crates.txt, lowest first."""
    names = []
    for line in (ROOT / "crates.txt").read_text(encoding="utf-8").split("\n"):
        head = line.split("#")[0].split(":")[0].split()
        if head:
            names.append(head[0])
    return names


def files_of(crate):
    """The files of a crate's specs/."""
    folder = ROOT / "crates" / crate / "specs"
    return [File(crate, path) for path in sorted(folder.rglob("*.antt")) if path.name != "Lib.antt"]


def words_of(text):
    """The words of a term, each with the word before its dot, if it stands behind one."""
    text = re.sub(r"--[^\n]*", "", text)
    text = re.sub(r'"(?:[^"\\]|\\.)*"', " ", text)
    words = []
    for run in re.split(r"[\s(){}\[\];,]+", text):
        before = None
        for word in run.split("."):
            if word:
                words.append((before, word))
            before = word or None
    return words
