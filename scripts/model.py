"""What the scripts for users ask about a model: its statements and where they stand, its inputs and its outputs.

The script is read by the second reading (bench/second), which is apart from the program.
"""

import os
import sys
from pathlib import Path

sys.dont_write_bytecode = True
sys.path.insert(0, str(Path(__file__).resolve().parent.parent / "bench"))
from second.meaning import Meaning, MeaningFault
from second.script import SyntaxFault, read_script
from second.texts import SPELLED, stack_file

PROGRAM = os.environ.get("DUSTERINDIGO", "dusterindigo")
if "/" in PROGRAM:
    PROGRAM = os.path.abspath(PROGRAM)  # a path holds in scratch folders too


def stop(why, status=2):
    """Ends a script with its name and why."""
    sys.stderr.write(f"{Path(sys.argv[0]).name}: {why}\n")
    sys.exit(status)


def no_program(error):
    stop(f"{PROGRAM}: {error.strerror}; DUSTERINDIGO names the program where it is not on the path", 3)


def usage(text, asked):
    """Ends a script with what its head says, where the words are not as it asks."""
    if not asked:
        sys.stderr.write(text)
        sys.exit(2)


def end(main):
    """Ends a script with the status of `main`, and without words where nobody reads on what it prints."""
    try:
        status = main()
        sys.stdout.flush()
    except BrokenPipeError:
        os.dup2(os.open(os.devnull, os.O_WRONLY), 1)
        status = 141
    sys.exit(status)


class Model:
    """A script whose text reads well. `fault` is its first fault of meaning as the program's line has it, or None."""

    def __init__(self, path):
        self.path = Path(path)
        try:
            self.text = self.path.read_bytes()
        except OSError as error:
            stop(f"{path}: {error.strerror}")
        self.script = read_script(self.text)
        self.meaning, self.fault, self.settled = Meaning(self.script), None, []
        try:
            self.settled = self.meaning.settle()
        except MeaningFault as fault:
            self.fault = f"script {fault}"

    def place(self, at):
        """The line and the column of a byte, as the program counts them."""
        before = self.text[:at]
        return f"{before.count(10) + 1}:{at - before.rfind(10)}"

    def inputs(self):
        """Each input that is read, in the order of reading: its name, its role, its file and its kind."""
        named = {one.name: one for one in self.script.bindings}
        area = self.script.area
        order = [area] + [one.name for one in self.script.bindings if one.name in self.meaning.roles and one.name != area]
        for name in order:
            one = named.get(name)
            yield name, self.meaning.roles.get(name, ("grid",)), one.target if one else name, SPELLED[one and one.kind or "S"]

    def files_of(self, role, word):
        """The files of an input or an output: a stack has one for each step."""
        return [stack_file(word, step) for step in range(1, self.script.steps + 1)] if role == "stack" else [word]

    def outputs(self):
        """Each output in the order of the statements: the statement's number, its form (grid, stack, series) and its word."""
        for number, (_, _, form, word) in enumerate(self.settled, 1):
            if form != "none":
                yield number, form, word

    def files_read(self):
        """The files of all inputs, in the order of reading."""
        return [file for _, role, word, _ in self.inputs() for file in self.files_of(role[0], word)]

    def files_written(self):
        """The files of all outputs, in the order of the statements, each with the number of its statement."""
        return [(number, file) for number, form, word in self.outputs() for file in self.files_of(form, word)]

    def known(self):
        """What the script and the inputs are, by the identity of each file."""
        inputs = {identity(file): f"the input {file}" for file in self.files_read()}
        return {**{one: what for one, what in inputs.items() if one}, identity(self.path): "the script"}


def identity(file):
    """What two names of one file have in common, be they links of either sort; None where there is no file."""
    try:
        found = os.stat(file)
        return found.st_dev, found.st_ino
    except OSError:
        return None


def read_model(path):
    """The model of a script; where its text has a fault, the script ends with the fault's line and place."""
    try:
        return Model(path)
    except SyntaxFault as fault:
        place, kind = str(fault).split()
        line, column = map(int, place.split(":"))
        shown = Path(path).read_bytes().split(b"\n")[line - 1].decode("utf-8", "replace").rstrip("\r")
        sys.stdout.write(f"{path}:{place}: {kind}\n{shown}\n{' ' * (column - 1)}^\n")
        sys.exit(3)
