#!/usr/bin/env python3
"""Runs what the pages show, and compares what comes with what they say.

    pages.py program PROGRAM     all that asks for no tool but the program and the shell's own
    pages.py tools PROGRAM       all, and says what it passed over because a tool is not here

Links to files and headings of the project lead somewhere. Three things are run, in README.md, docs/ and examples/README.md:

- a block ```console: lines behind `$ ` (and `> `, where a command goes on) are given to bash, and the lines up to the
  next `$ ` are what it prints, on standard output and on standard error; a line `...` stands for any lines, and ` ..` at the end of one for its rest. A comment
  in the line before says where: `<!-- run in examples/NAME -->` in a new copy of the folder, without the files that
  say what comes; `<!-- run in an empty folder -->`; `<!-- run on -->` where the block before left off; `<!-- not run -->`.
  `with TOOL..` at its end names the tools that it asks for.
- a block ```maps: maps of a few cells, and what operations give of them (see docs/OPERATIONS.md);
- a table with the columns `script` and `line`, or `text` and `first fault`, both between backticks: what the program
  answers to a script, over the files of the first example; and one with the columns `PCRaster` and `here`, of which
  each statement `here` is to run over maps of four cells.
"""

import os
import re
import shutil
import subprocess
import sys
import tempfile
from pathlib import Path

ROOT = Path(__file__).resolve().parent.parent
PAGES = [ROOT / "README.md", *sorted((ROOT / "docs").glob("*.md")), ROOT / "examples" / "README.md"]
SECONDS = 60
OUTSIDE = {"words", "line", "status", "put"}
DIRECTIVE = re.compile(r"<!-- (?:run in (?P<folder>an empty folder|[\w/-]+)|(?P<on>run on)|(?P<not>not run))(?: with (?P<tools>[\w. ,-]+?))? -->")


class Report:
    def __init__(self):
        self.passed, self.failed, self.over = 0, 0, 0

    def fail(self, place, why):
        self.failed += 1
        print(f"{place}: {why}")

    def pass_over(self, place, why):
        self.over += 1
        print(f"{place}: passed over: {why}")


def blocks(page):
    """The blocks of a page: what kind, the line before, the number of the first line and the lines."""
    lines = page.read_text(encoding="utf-8").split("\n")
    start = None
    for number, line in enumerate(lines):
        if start is None and line.startswith("```"):
            start = number
        elif start is not None and line == "```":
            yield lines[start][3:].strip(), lines[start - 1], start + 2, lines[start + 1:number]
            start = None


def tables(page):
    """The rows of tables, with their head and the number of their line."""
    head = None
    for number, line in enumerate(page.read_text(encoding="utf-8").split("\n"), 1):
        if not line.startswith("|"):
            head = None
            continue
        cells = [cell.strip().replace("\\|", "|") for cell in re.split(r"(?<!\\)\|", line)[1:-1]]
        if head is None:
            head = cells
        elif not set(line) <= set("|-: "):
            yield head, number, cells


class Folder:
    """A scratch folder with the program and the project's scripts on the path."""

    def __init__(self, program):
        self.top = Path(tempfile.mkdtemp())
        (self.top / "bin").mkdir()
        shutil.copy(program, self.top / "bin" / "dusterindigo")
        os.chmod(self.top / "bin" / "dusterindigo", 0o755)
        self.here = self.top / "folder"
        self.environment = {**os.environ, "LC_ALL": "C", "PATH": f"{self.top / 'bin'}:{ROOT / 'scripts'}:{os.environ['PATH']}"}

    def fresh(self, example=None):
        shutil.rmtree(self.here, ignore_errors=True)
        self.here.mkdir()
        if example:
            for file in (ROOT / example).iterdir():
                if file.name not in OUTSIDE:
                    shutil.copy(file, self.here / file.name)

    def run(self, command):
        """What a command prints, and its status."""
        done = subprocess.run(["bash", "-c", command], cwd=self.here, env=self.environment, timeout=SECONDS,
                              stdin=subprocess.DEVNULL, stdout=subprocess.PIPE, stderr=subprocess.STDOUT)
        return done.stdout.decode("utf-8", "replace"), done.returncode

    def has(self, tool):
        """Whether there is a command of this name, or a package of Python."""
        return shutil.which(tool, path=self.environment["PATH"]) is not None or self.run(f"python3 -c 'import {tool}'")[1] == 0

    def remove(self):
        shutil.rmtree(self.top, ignore_errors=True)


def commands(lines):
    """Pairs of a command and the lines that it is to print."""
    pairs = []
    for line in lines:
        if line.startswith("$ "):
            pairs.append((line[2:], []))
        elif line.startswith("> ") and pairs and not pairs[-1][1]:
            pairs[-1] = (pairs[-1][0] + "\n" + line[2:], [])
        elif pairs:
            pairs[-1][1].append(line)
    return pairs


def prints(wanted, printed):
    """Whether lines are those wanted, of which `...` stands for any, and ` ..` at a line's end for its rest."""
    pattern = ""
    for line in wanted:
        rest = line.endswith(" ..")
        pattern += r"(?:.*\n)*" if line == "..." else re.escape(line[:-3] if rest else line) + (r" .*\n" if rest else r"\n")
    return re.fullmatch(pattern, printed if not printed or printed.endswith("\n") else printed + "\n") is not None


def console(report, folder, place, lines):
    """Runs the commands of a block one by one; `$?` is the status of the one before."""
    status = 0
    for command, wanted in commands(lines):
        try:
            printed, status = folder.run(f"(exit {status})\n{command}")
        except subprocess.TimeoutExpired:
            report.fail(place, f"no end within {SECONDS} seconds: {command}")
            return
        if prints(wanted, printed):
            report.passed += 1
        else:
            report.fail(place, f"`{command}` printed {printed!r}")


# ---- links

def anchors(page):
    """The anchors of a page's headings, as the hosts of repositories make them."""
    found = {}
    for heading in re.findall(r"^#+ (.*)$", page.read_text(encoding="utf-8"), re.M):
        anchor = re.sub(r"[^\w\- ]", "", heading.lower()).replace(" ", "-")
        found[anchor] = found.get(anchor, -1) + 1
        if found[anchor]:
            found[f"{anchor}-{found[anchor]}"] = 0
    return set(found)


def links(report, page):
    for number, line in enumerate(page.read_text(encoding="utf-8").split("\n"), 1):
        for target, anchor in re.findall(r"\]\(([^)#:]*)(?:#([^)]*))?\)", line):
            path = page.parent / target if target else page
            if not path.exists():
                report.fail(f"{page.relative_to(ROOT)}:{number}", f"there is no {target}")
            elif anchor and anchor not in anchors(path):
                report.fail(f"{page.relative_to(ROOT)}:{number}", f"{target or 'the page'} has no heading {anchor}")
            else:
                report.passed += 1


# ---- blocks of maps

def grid(text):
    rows = [row.split() for row in text.split(" / ")]
    head = f"ncols {len(rows[0])}\nnrows {len(rows)}\nxllcorner 0\nyllcorner 0\ncellsize 1\nNODATA_value 1e31\n"
    return head + "".join(" ".join(row) + "\n" for row in rows)


def maps(report, folder, place, lines):
    """Runs each line `FORMULA -> CELLS` of a block, over the maps, tables and series that its other lines give."""
    bindings, inputs, results = [], {}, []
    for line in filter(None, lines):
        formula, arrow, cells = line.partition(" -> ")
        if arrow:
            results.append((formula.strip(), cells.strip()))
            continue
        name, _, cells = (part.strip() for part in line.partition(" = "))
        name, _, kind = (part.strip() for part in name.partition(" : "))
        if kind in ("table", "series"):
            bindings.append(f"{name} = {name.lower()}.txt;")
            inputs[f"{name.lower()}.txt"] = cells.replace(" / ", "\n") + "\n"
        else:
            bindings.append(f"{name} = {name.lower()}.asc{' : ' + kind if kind else ''};")
            inputs[f"{name.lower()}.asc"] = grid(cells)
    first = next(line for line in bindings if ".asc" in line).split(" ")[0]
    for formula, cells in results:
        steps = cells.split(" | ")
        in_time = len(steps) > 1 or "time" in formula
        section = f"timer 1 {len(steps)} 1; dynamic" if in_time else "initial"
        folder.fresh()
        for name, text in inputs.items():
            (folder.here / name).write_text(text)
        (folder.here / "m.mod").write_text(f"binding {' '.join(bindings)} areamap {first}; {section} report result = {formula};")
        printed, _ = folder.run("dusterindigo plain m.mod")
        if cells.startswith("overflow"):
            good = re.fullmatch(rf"overflow step \d+ statement 1 operation \d+ row {cells.split()[2]} col {cells.split()[3]}\n", printed)
        else:
            files = [f"result00.{step:03}" for step in range(1, len(steps) + 1)] if in_time else ["result"]
            good = printed.startswith("done") and all((folder.here / file).read_text() == grid(one) for file, one in zip(files, steps))
        if good:
            report.passed += 1
        else:
            put = folder.run("tail -n +7 result*")[0] if printed.startswith("done") else ""
            report.fail(place, f"{formula} gave {printed!r} {put!r}")


# ---- rows of tables

def row(report, folder, place, script, line):
    folder.fresh("examples/first-sum")
    (folder.here / "m.mod").write_text(script)
    printed, _ = folder.run("dusterindigo plain m.mod")
    if printed == line + "\n":
        report.passed += 1
    else:
        report.fail(place, f"{script} gave {printed!r}")


# What the lines of the table in docs/FROM-PCRASTER.md speak of.
PRELUDE = {"A": ("a.asc", "", "1 2 / 3 4"), "B": ("b.asc", "", "4 3 / 2 1"), "C": ("c.asc", "boolean", "1 0 / 1 1"),
           "N": ("n.asc", "nominal", "1 1 / 2 2"), "Ldd": ("ldd.asc", "ldd", "6 2 / 6 5")}
FILES = {"t.tbl": "1 10\n2 20\n", "r.tss": "1 5 6\n2 7 8\n"}


def statement(report, folder, place, text):
    """Runs a statement, in `initial` or, where it speaks of time, in `dynamic`."""
    folder.fresh()
    bindings = ["T = t.tbl;", "R = r.tss;", "P = rain;"]
    for name, (file, kind, cells) in PRELUDE.items():
        (folder.here / file).write_text(grid(cells))
        bindings.append(f"{name} = {file}{' : ' + kind if kind else ''};")
    for file, contents in {**FILES, "rain0000.001": grid("1 2 / 3 4"), "rain0000.002": grid("5 6 / 7 8")}.items():
        (folder.here / file).write_text(contents)
    section = "timer 1 2 1; dynamic" if "time" in text else "initial"
    (folder.here / "m.mod").write_text(f"binding {' '.join(bindings)} areamap A; {section} {text};")
    printed, _ = folder.run("dusterindigo plain m.mod")
    if printed.startswith("done "):
        report.passed += 1
    else:
        report.fail(place, f"{text} gave {printed!r}")


def rows(report, folder, page):
    for head, number, cells in tables(page):
        place = f"{page.relative_to(ROOT)}:{number}"
        quoted = [re.fullmatch(r"`` ?(.*?) ?``|`([^`]*)`.*", cell) for cell in cells]
        if head[:2] == ["script", "line"] and quoted[0] and quoted[1]:
            row(report, folder, place, quoted[0].group(1) or quoted[0].group(2), quoted[1].group(2))
        elif head[:2] == ["PCRaster", "here"] and quoted[1]:
            statement(report, folder, place, quoted[1].group(2))
        elif head[:2] == ["text", "first fault"] and quoted[0]:
            found = re.match(r"(\d+:\d+) `([\w-]+)`", cells[1])
            row(report, folder, place, quoted[0].group(1) or quoted[0].group(2), f"script {found.group(1)} {found.group(2)}")


def page_blocks(report, folder, page, with_tools):
    lost = None
    for kind, before, number, lines in blocks(page):
        place = f"{page.relative_to(ROOT)}:{number}"
        if kind == "maps":
            maps(report, folder, place, lines)
        if kind != "console":
            continue
        where = DIRECTIVE.fullmatch(before.strip())
        if not where:
            report.fail(place, "no comment says where the block is run")
            continue
        tools = re.split(r"[ ,]+", where.group("tools")) if where.group("tools") else []
        missing = [tool for tool in tools if not folder.has(tool)]
        if where.group("not"):
            continue
        why = "" if tools and not with_tools else f"there is no {', '.join(missing)} here" if missing else None
        if not where.group("on"):
            lost = why  # blocks that go on in a folder that was not begun are passed over with it
        why = why if lost is None else lost
        if why:
            report.pass_over(place, why)
        if why is not None:
            continue
        if not where.group("on"):
            folder.fresh(None if where.group("folder") == "an empty folder" else where.group("folder"))
        console(report, folder, place, lines)


def main():
    mode, program = sys.argv[1], sys.argv[2]
    report, folder = Report(), Folder(program)
    try:
        for page in [*PAGES, ROOT / "CONTRIBUTING.md", ROOT / "editors" / "README.md", *sorted(ROOT.glob("crates/*/README.md"))]:
            links(report, page)
        for page in PAGES:
            page_blocks(report, folder, page, mode == "tools")
            rows(report, folder, page)
    finally:
        folder.remove()
    over = f", {report.over} blocks passed over" if report.over else ""
    print(f"pages: {report.passed} passed, {report.failed} failed{over}")
    return 1 if report.failed else 0


if __name__ == "__main__":
    sys.exit(main())
