"""The rules by which tests/mutants.py changes a module of Python: each gives one change of one place. Texts of
messages, types and documentation are not changed.

    numbers       n becomes n + 1, True becomes False
    comparisons   < becomes <=, == becomes !=, `in` becomes `not in`, and so on
    logic         `and` becomes `or`, `not x` becomes x, the parts of `a if c else b` change places
    arithmetic    + becomes -, * becomes //, & becomes |, and so on; what is added to a text is left out
    statements    a call, raise, break or assignment to a part is left out
    checks        the condition of an `if` or of a comprehension always or never holds
    values        what is returned becomes None, or its opposite
    arguments     the first two change places; min becomes max, any becomes all, sorted leaves the order
"""
import ast
import collections
import copy
from collections.abc import Callable, Iterator
from typing import NamedTuple

COMPARED: dict[type, type] = {
    ast.Lt: ast.LtE, ast.LtE: ast.Lt, ast.Gt: ast.GtE, ast.GtE: ast.Gt, ast.Eq: ast.NotEq, ast.NotEq: ast.Eq,
    ast.Is: ast.IsNot, ast.IsNot: ast.Is, ast.In: ast.NotIn, ast.NotIn: ast.In,
}
COMPUTED: dict[type, type] = {
    ast.Add: ast.Sub, ast.Sub: ast.Add, ast.Mult: ast.FloorDiv, ast.FloorDiv: ast.Mult, ast.Mod: ast.Mult,
    ast.Div: ast.Mult, ast.BitAnd: ast.BitOr, ast.BitOr: ast.BitAnd, ast.LShift: ast.RShift, ast.RShift: ast.LShift,
    ast.BitXor: ast.BitAnd,
}
CALLED = {"min": "max", "max": "min", "any": "all", "all": "any", "sorted": "list", "sum": "len"}
TEXTS = (ast.JoinedStr, ast.Constant)
FUNCTIONS = (ast.FunctionDef, ast.AsyncFunctionDef)
TRUTHS = (ast.Compare, ast.BoolOp)


class Mutant(NamedTuple):
    """A changed module: its number among those of the module, the line, that of its statement, the function around it,
    what stood there, what stands there now, and how many of a function that say so came before."""
    number: int
    line: int
    statement: int
    function: str
    before: str
    after: str
    before_it: int

    def name(self) -> str:
        number = f" ({self.before_it + 1})" if self.before_it else ""
        return f"{self.function}: {self.before} -> {self.after}{number}"


def is_text(node: ast.AST) -> bool:
    return isinstance(node, ast.JoinedStr) or isinstance(node, ast.Constant) and isinstance(node.value, (str, bytes))


def with_field(node: ast.AST, **fields: object) -> ast.AST:
    """A copy of a node with other fields."""
    new = copy.copy(node)
    for name, value in fields.items():
        setattr(new, name, value)
    return new


def of_expression(node: ast.AST) -> Iterator[ast.AST]:
    """What may stand in the place of an expression."""
    if isinstance(node, ast.Constant) and isinstance(node.value, bool):
        yield ast.Constant(not node.value)
    elif isinstance(node, ast.Constant) and isinstance(node.value, (int, float)):
        yield ast.Constant(node.value + 1)
    elif isinstance(node, ast.Compare):
        for at, op in enumerate(node.ops):
            yield with_field(node, ops=[*node.ops[:at], COMPARED[type(op)](), *node.ops[at + 1:]])
    elif isinstance(node, ast.BoolOp):
        yield with_field(node, op=ast.Or() if isinstance(node.op, ast.And) else ast.And())
    elif isinstance(node, ast.UnaryOp) and isinstance(node.op, ast.Not):
        yield node.operand
    elif isinstance(node, ast.IfExp):
        yield with_field(node, body=node.orelse, orelse=node.body)
    elif isinstance(node, ast.BinOp) and isinstance(node.op, ast.Add) and (is_text(node.left) or is_text(node.right)):
        yield node.right if is_text(node.right) and not is_text(node.left) else node.left
    elif isinstance(node, ast.BinOp) and type(node.op) in COMPUTED and not is_text(node.left):
        yield with_field(node, op=COMPUTED[type(node.op)]())
    elif isinstance(node, ast.Call):
        if len(node.args) > 1 and not any(isinstance(word, ast.Starred) for word in node.args[:2]):
            yield with_field(node, args=[node.args[1], node.args[0], *node.args[2:]])
        if isinstance(node.func, ast.Name) and node.func.id in CALLED and node.args:
            only = {"keywords": [], "args": node.args[:1]} if node.func.id in ("sorted", "sum") else {}
            yield with_field(node, func=ast.Name(CALLED[node.func.id], ast.Load()), **only)
    elif isinstance(node, ast.comprehension) and node.ifs:
        yield with_field(node, ifs=[])


def of_statement(node: ast.AST) -> Iterator[ast.AST]:
    """What may stand in the place of a statement."""
    if isinstance(node, ast.Expr) and isinstance(node.value, (ast.Call, ast.Yield, ast.YieldFrom)):
        yield ast.Pass() if isinstance(node.value, ast.Call) else ast.Expr(ast.IfExp(
            ast.Constant(False), node.value, ast.Constant(None)))  # it stays a generator
    elif isinstance(node, (ast.Raise, ast.Break, ast.Continue)):
        yield ast.Pass()
    elif isinstance(node, ast.Assign) and isinstance(node.targets[0], (ast.Attribute, ast.Subscript)):
        yield ast.Pass()
    elif isinstance(node, ast.AugAssign):
        yield ast.Pass()
        if type(node.op) in COMPUTED and not is_text(node.value):
            yield with_field(node, op=COMPUTED[type(node.op)]())
    elif isinstance(node, (ast.If, ast.While)):
        yield with_field(node, test=ast.Constant(False))
        if isinstance(node, ast.If):
            yield with_field(node, test=ast.Constant(True))
    elif isinstance(node, ast.Return) and node.value and not isinstance(node.value, ast.Constant):
        yield ast.Return(ast.UnaryOp(ast.Not(), node.value) if isinstance(node.value, TRUTHS) else ast.Constant(None))


def shown(node: ast.AST) -> str:
    """A place in a line: of a statement with others in it, its head."""
    text = ast.unparse(node if not isinstance(node, (ast.If, ast.While)) else with_field(node, body=[], orelse=[]))
    return " ".join(text.split())


def is_told_only(node: ast.AST, name: str) -> bool:
    """Whether a part of a node is a type, or for readers alone."""
    if name in ("annotation", "returns", "decorator_list", "bases"):
        return True
    return isinstance(node, ast.If) and name == "body" and ast.unparse(node.test) == "TYPE_CHECKING"


Place = tuple[ast.AST, str, Callable[[ast.AST], None]]  # a node, the function around it, what puts another one there


def places(node: ast.AST, function: str) -> Iterator[Place]:
    """Each node below one."""
    inner = f"{function}.{node.name}".lstrip(".") if isinstance(node, (*FUNCTIONS, ast.ClassDef)) else function
    for name, value in ast.iter_fields(node):
        if is_told_only(node, name):
            continue
        for at, item in enumerate(value if isinstance(value, list) else [value]):
            if isinstance(item, ast.AST):
                yield item, inner, putting(node, name, at if isinstance(value, list) else None)
                yield from places(item, inner)


def putting(node: ast.AST, name: str, at: int | None) -> Callable[[ast.AST], None]:
    """What puts a node into a field of another one, or at a place of a list there."""
    def put(new: ast.AST) -> None:
        if at is None:
            setattr(node, name, new)
        else:
            getattr(node, name)[at] = new
    return put


def changes_of(tree: ast.Module) -> Iterator[tuple[Place, ast.AST]]:
    """Each place that a rule changes, and the node that stands there then."""
    for node, function, put in list(places(tree, "")):
        if not isinstance(node, ast.Assign) or ast.unparse(node.targets[0]) not in ("__slots__", "NAMES"):
            for new in [*of_expression(node), *of_statement(node)]:
                yield (node, function or "module", put), new


def mutants_of(text: str) -> Iterator[Mutant]:
    """All mutants of a module."""
    tree = ast.parse(text)
    statements = {id(part): node.lineno for node in ast.walk(tree) if isinstance(node, ast.stmt)
                  for part in ast.walk(node)}  # the innermost statement is met last
    seen: dict[tuple[str, str, str], int] = collections.Counter()
    for number, ((node, function, _), new) in enumerate(changes_of(tree)):
        line = getattr(node, "lineno", statements[id(node)])
        said = function, shown(node), "nothing" if isinstance(new, ast.Pass) else shown(new)
        yield Mutant(number, line, statements[id(node)], *said, seen[said])
        seen[said] += 1


def text_of(text: str, mutant: Mutant) -> str:
    """The text of a changed module."""
    tree = ast.parse(text)
    for number, ((_, _, put), new) in enumerate(changes_of(tree)):
        if number == mutant.number:
            put(new)
            break
    return ast.unparse(ast.fix_missing_locations(tree))
