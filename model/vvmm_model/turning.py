"""Rules of the model, changed one at a time.

A condition holds always or never; a part of an `and` or `or` is left out; a bound is moved by one; a number is one more; a mask,
a bit or a remainder is left out; what a statement keeps or shows is left out.
"""

import ast
import os
from dataclasses import dataclass

HERE = os.path.dirname(os.path.realpath(__file__))
# What isn't a rule of the program: the comparison itself, what draws random cases, and the help.
NO_RULES = ["__init__", "case_checks", "cases", "checking", "differences", "examples", "files", "fuzzing", "guest_cases", "help", "kinds", "noting", "purge_checks", "seeing", "turning"]
SIGNS = {ast.Lt: "<", ast.LtE: "<=", ast.Gt: ">", ast.GtE: ">=", ast.Eq: "==", ast.NotEq: "!="}
OTHER_BOUNDS = {ast.Lt: ast.LtE, ast.LtE: ast.Lt, ast.Gt: ast.GtE, ast.GtE: ast.Gt}
LEFT_OUT = {ast.BitAnd: "&", ast.BitOr: "|", ast.Mod: "%"}
LONGEST = 100


@dataclass(frozen=True)
class Change:
    """One change: its module, its number and line there, the function, and what it is for people."""

    module: str
    number: int
    line: int
    function: str
    text: str

    def name(self) -> str:
        return "%s.%s: %s" % (self.module, self.function, self.text)


def modules_of_rules() -> list:
    names = [name[:-3] for name in sorted(os.listdir(HERE)) if name.endswith(".py")]
    return [name for name in names if name not in NO_RULES and not name.startswith("random_")]


def told(node) -> str:
    text = ast.unparse(node).replace("\n", " ")
    return text if len(text) <= LONGEST else text[: LONGEST - 2] + ".."


def hexed(value: int) -> str:
    return str(value) if value < 10 else "%#x" % value


class Turner(ast.NodeTransformer):
    """Finds the changes of a module, makes the one of a number, and with notes asks for each whether it makes a difference."""

    def __init__(self, wanted=None, notes: bool = False):
        self.wanted = wanted
        self.notes = notes
        self.found = []
        self.functions = []
        self.statement = ""

    def next(self, node, text: str) -> int:
        self.found.append((node.lineno, ".".join(self.functions) or "-", text))
        return len(self.found) - 1

    def noted(self, node, name: str, *arguments):
        """A call of a note, in the place of a node."""
        given = [argument if isinstance(argument, ast.AST) else ast.Constant(argument) for argument in arguments]
        return ast.copy_location(ast.Call(ast.Name(name, ast.Load()), given, []), node)

    # Conditions.

    def condition(self, test):
        """What decides something: it may hold always or never."""
        text = told(test)
        always, never = self.next(test, "always " + text), self.next(test, "never " + text)
        changed = self.part(test)
        if self.wanted in (always, never):
            return ast.copy_location(ast.Constant(self.wanted == always), test)
        return self.noted(test, "_note_test", always, never, changed) if self.notes else changed

    def part(self, node):
        """A condition, or a part of one, that isn't taken as a whole."""
        if isinstance(node, ast.BoolOp):
            return self.visit_BoolOp(node)
        if isinstance(node, ast.UnaryOp) and isinstance(node.op, ast.Not):
            node.operand = self.part(node.operand)
            return node
        return self.compared(node) if isinstance(node, ast.Compare) else self.visit(node)

    def visit_BoolOp(self, node):
        text, kept = told(node), []
        for value in node.values:
            number = self.next(value, "without %s in %s" % (told(value), text))
            changed = self.part(value)
            if self.notes:
                changed = self.noted(value, "_note_part", number, isinstance(node.op, ast.And), changed)
            if self.wanted != number:
                kept.append(changed)
        node.values = kept
        return kept[0] if len(kept) == 1 else node

    def compared(self, node):
        text, numbers = told(node), []
        for operator in node.ops:
            other = OTHER_BOUNDS.get(type(operator))
            numbers.append(self.next(node, "%s in %s" % (SIGNS[other], text)) if other else None)
        node.left = self.visit(node.left)
        node.comparators = [self.visit(value) for value in node.comparators]
        if self.wanted is not None and self.wanted in numbers:
            place = numbers.index(self.wanted)
            node.ops[place] = OTHER_BOUNDS[type(node.ops[place])]()
        signs = tuple(SIGNS.get(type(operator)) for operator in node.ops)
        if self.notes and any(number is not None for number in numbers) and None not in signs:
            return self.noted(node, "_note_bounds", tuple(numbers), signs, node.left, *node.comparators)
        return node

    def visit_Compare(self, node):
        return self.condition(node)

    def visit_UnaryOp(self, node):
        return self.condition(node) if isinstance(node.op, ast.Not) else self.generic_visit(node)

    def visit_IfExp(self, node):
        node.test = self.condition(node.test)
        node.body, node.orelse = self.visit(node.body), self.visit(node.orelse)
        return node

    def visit_comprehension(self, node):
        node.iter = self.visit(node.iter)
        node.ifs = [self.condition(test) for test in node.ifs]
        return node

    # Numbers and masks.

    def visit_Constant(self, node):
        if type(node.value) is not int:
            return node
        number = self.next(node, "%s for %s in %s" % (hexed(node.value + 1), hexed(node.value), self.statement))
        if number == self.wanted:
            return ast.copy_location(ast.Constant(node.value + 1), node)
        return self.noted(node, "_note_here", number, node) if self.notes else node

    def visit_BinOp(self, node):
        sign = LEFT_OUT.get(type(node.op))
        if not sign or isinstance(node.left, ast.Constant) and isinstance(node.left.value, (str, bytes)):
            return self.generic_visit(node)
        number = self.next(node, "without %s %s in %s" % (sign, told(node.right), self.statement))
        node.left, node.right = self.visit(node.left), self.visit(node.right)
        if number == self.wanted:
            return node.left
        return self.noted(node, "_note_left", number, sign, node.left, node.right) if self.notes else node

    def visit_JoinedStr(self, node):
        return node

    # Statements.

    def visit(self, node):
        if not isinstance(node, ast.stmt) or isinstance(node, (ast.FunctionDef, ast.ClassDef)):
            return super().visit(node)
        before, self.statement = self.statement, told(head_of(node))
        changed = self.left_out(node) if keeps_something(node) else super().visit(node)
        self.statement = before
        return changed

    def left_out(self, node):
        number = self.next(node, "without " + told(node))
        changed = super().visit(node)
        if number == self.wanted:
            return ast.copy_location(ast.Pass(), node)
        if not self.notes:
            return changed
        return [ast.copy_location(ast.Expr(self.noted(node, "_note_here", number, None)), node), changed]

    def block(self, statements: list) -> list:
        made = []
        for statement in statements:
            changed = self.visit(statement)
            made += changed if isinstance(changed, list) else [changed]
        return made

    def visit_Expr(self, node):
        return node if isinstance(node.value, ast.Constant) else self.generic_visit(node)

    def visit_AnnAssign(self, node):
        return node

    def visit_If(self, node):
        node.test = self.condition(node.test)
        node.body, node.orelse = self.block(node.body), self.block(node.orelse)
        return node

    def visit_While(self, node):
        node.test = self.part(node.test)
        node.body = self.block(node.body)
        return node

    def visit_FunctionDef(self, node):
        self.functions.append(node.name)
        node.body = self.block(node.body)
        self.functions.pop()
        return node

    visit_ClassDef = visit_FunctionDef


def head_of(node):
    """A statement without the block that hangs on it."""
    if isinstance(node, (ast.If, ast.While)):
        return node.test
    if isinstance(node, ast.For):
        return node.iter
    return node


def keeps_something(node) -> bool:
    """Whether a statement does no more than to keep or to show something."""
    if isinstance(node, ast.Assign):
        return all(isinstance(target, (ast.Attribute, ast.Subscript)) for target in node.targets)
    return isinstance(node, ast.AugAssign) or isinstance(node, ast.Expr) and isinstance(node.value, ast.Call)


def turned(module: str, wanted=None, notes: bool = False):
    """The text of a module as a tree, with a change or with notes, and the changes that were found."""
    with open(os.path.join(HERE, module + ".py"), encoding="utf-8") as file:
        tree = ast.parse(file.read())
    turner = Turner(wanted, notes)
    return ast.fix_missing_locations(turner.visit(tree)), turner.found


def changes_of(module: str) -> list:
    changes, seen = [], {}
    for number, (line, function, text) in enumerate(turned(module)[1]):
        again = seen[function, text] = seen.get((function, text), 0) + 1
        changes.append(Change(module, number, line, function, text if again == 1 else "%s (%d)" % (text, again)))
    return changes
