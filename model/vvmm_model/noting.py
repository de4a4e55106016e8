"""The model with one change, or with notes: for each change, whether it makes a difference where it stands."""

import importlib.abc
import importlib.util
import sys

from .turning import modules_of_rules, turned

KEPT_MODULES = ("turning", "noting", "seeing")
HOLDS = {
    "<": lambda a, b: a < b, "<=": lambda a, b: a <= b, ">": lambda a, b: a > b,
    ">=": lambda a, b: a >= b, "==": lambda a, b: a == b, "!=": lambda a, b: a != b,
}  # fmt: skip
LEFT = {"&": lambda a, b: a & b, "|": lambda a, b: a | b, "%": lambda a, b: a % b}

# the changes that made a difference, as pairs of a module and a number
NOTED = set()


class Notes:
    """The functions that a module with notes calls: each gives what stood in its place."""

    def __init__(self, module: str):
        self.module = module

    def note(self, number: int) -> None:
        NOTED.add((self.module, number))

    def test(self, always: int, never: int, value):
        self.note(never if value else always)
        return value

    def part(self, number: int, is_and: bool, value):
        if type(value) is not bool or value != is_and:
            self.note(number)
        return value

    def here(self, number: int, value):
        self.note(number)
        return value

    def left(self, number: int, sign: str, left, right):
        value = LEFT[sign](left, right)
        if value != left:
            self.note(number)
        return value

    def bounds(self, numbers: tuple, signs: tuple, *values):
        for number, left, right in zip(numbers, values, values[1:]):
            if number is not None and left == right:
                self.note(number)
        return all(HOLDS[sign](left, right) for sign, left, right in zip(signs, values, values[1:]))

    def names(self) -> dict:
        names = {"test": self.test, "part": self.part, "here": self.here, "left": self.left, "bounds": self.bounds}
        return {"_note_" + name: function for name, function in names.items()}


class Loader(importlib.abc.MetaPathFinder, importlib.abc.Loader):
    """Loads one module of the model with a change, or all with notes."""

    def __init__(self, change=None):
        self.change = change
        self.modules = [change.module] if change else modules_of_rules()

    def find_spec(self, name, path, target=None):
        package, _, module = name.partition(".")
        return importlib.util.spec_from_loader(name, self) if package == "vvmm_model" and module in self.modules else None

    def exec_module(self, module):
        name = module.__name__.partition(".")[2]
        tree, _ = turned(name, self.change.number if self.change else None, not self.change)
        module.__dict__.update(Notes(name).names())
        exec(compile(tree, name + ".py", "exec"), module.__dict__)


def load_with(change=None) -> None:
    """From now on the model is loaded with a change, or with notes."""
    for name in list(sys.modules):
        package, _, module = name.partition(".")
        if package == "vvmm_model" and module and module not in KEPT_MODULES:
            del sys.modules[name]
    sys.meta_path.insert(0, Loader(change))
