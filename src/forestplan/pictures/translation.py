"""A module of Python as a module of JavaScript, so that what it decides is decided once: the few words that
geometry.py is written in, and no other one. What has no translation is refused, with its line.

>>> print(translated("def twice(a: float) -> float:\\n    return 2 * a\\n"), end="")
export function twice(a) {
let $;
return (2 * a);
}
"""
import ast
from collections.abc import Iterator
from functools import singledispatch

# What a call of one of these is: with one argument that is a list, and with several numbers.
CALLS = {
    "abs": "Math.abs({})",
    "floor": "Math.floor({})",
    "sqrt": "Math.sqrt({})",
    "min": "Math.min({})",
    "max": "Math.max({})",
}
OPERATORS: dict[type[ast.AST], str] = {
    ast.Add: "+",
    ast.Sub: "-",
    ast.Mult: "*",
    ast.Div: "/",
    ast.Mod: "%",
    ast.Lt: "<",
    ast.LtE: "<=",
    ast.Gt: ">",
    ast.GtE: ">=",
    ast.Eq: "===",
    ast.NotEq: "!==",
    ast.Is: "===",
    ast.IsNot: "!==",
    ast.And: "&&",
    ast.Or: "||",
    ast.USub: "-",
    ast.Not: "!",
}
# What is taken apart.
ITEM = "$"
CONSTANTS = {None: "null", True: "true", False: "false"}
GIVEN = {"inf": "Infinity"}


def camel(name: str) -> str:
    """A name as JavaScript writes it.

    >>> camel("half_wide"), camel("LEAST_PASSING"), camel("_")
    ('halfWide', 'LEAST_PASSING', '_')
    """
    if name.isupper() or name == "_":
        return name
    first, *rest = name.split("_")
    return first + "".join(part.capitalize() for part in rest)


def translated(source: str) -> str:
    """The text of a module of JavaScript, which exports all that it has."""
    lines: list[str] = []
    for statement in ast.parse(source).body:
        if isinstance(statement, ast.FunctionDef):
            head, *rest = function(statement)
            lines += ["export " + head, *rest]
        elif isinstance(statement, ast.Assign) and not is_type(statement.value):
            lines += ["export " + line for line in constants_in(statement)]
        elif not isinstance(statement, (ast.ImportFrom, ast.Assign, ast.Expr)):
            raise untranslated(statement)
    return "".join(f"{line}\n" for line in lines)


def is_type(value: ast.expr) -> bool:
    """Whether a name is given to a type."""
    return isinstance(value, ast.Subscript)


def untranslated(node: ast.AST) -> ValueError:
    line = getattr(node, "lineno", 0)
    return ValueError(f"line {line}: {type(node).__name__} has no translation")


def constants_in(statement: ast.Assign) -> Iterator[str]:
    """Constants of the module."""
    target = statement.targets[0]
    value = statement.value
    if isinstance(target, ast.Tuple) and isinstance(value, ast.Tuple):
        for one, its in zip(target.elts, value.elts, strict=True):
            yield f"const {spoken(one)} = {spoken(its)};"
    else:
        yield f"const {spoken(target)} = {spoken(value)};"


def function(statement: ast.FunctionDef) -> Iterator[str]:
    given = [camel(one.arg) for one in statement.args.args]
    body = statement.body[1:] if ast.get_docstring(statement) else statement.body
    yield f"function {camel(statement.name)}({', '.join(given)}) {{"
    names = sorted(names_set(body) - set(given))
    yield f"let {', '.join([ITEM, *names])};"
    yield from block(body)
    yield "}"


def names_set(body: list[ast.stmt]) -> set[str]:
    """The names that statements give values to. Those of a comprehension are its own."""
    nodes = [node for statement in body for node in ast.walk(statement)]
    comprehended = [one.target for one in nodes if isinstance(one, ast.comprehension)]
    own = {id(name) for target in comprehended for name in ast.walk(target)}
    names = [one for one in nodes if isinstance(one, ast.Name) and isinstance(one.ctx, ast.Store)]
    return {camel(name.id) for name in names if id(name) not in own}


def block(body: list[ast.stmt]) -> Iterator[str]:
    for statement in body:
        yield from done(statement)


@singledispatch
def done(statement: ast.stmt) -> Iterator[str]:
    """The lines of a statement."""
    raise untranslated(statement)


@done.register
def _(statement: ast.Assign) -> Iterator[str]:
    target = statement.targets[0]
    value = statement.value
    if isinstance(target, ast.Tuple) and not isinstance(value, ast.Tuple):
        yield f"{ITEM} = {spoken(value)};"
        yield from taken_apart(target)
    else:
        yield f"{spoken(target)} = {spoken(value)};"


def taken_apart(target: ast.Tuple) -> Iterator[str]:
    """Names for the parts of an item; browsers do this faster than `[x, y] = item`."""
    for place, one in enumerate(target.elts):
        if spoken(one) != "_":
            yield f"{spoken(one)} = {ITEM}[{place}];"


@done.register
def _(statement: ast.AnnAssign) -> Iterator[str]:
    if statement.value is None:
        raise untranslated(statement)
    yield f"{spoken(statement.target)} = {spoken(statement.value)};"


@done.register
def _(statement: ast.AugAssign) -> Iterator[str]:
    operator = OPERATORS[type(statement.op)]
    yield f"{spoken(statement.target)} {operator}= {spoken(statement.value)};"


@done.register
def _(statement: ast.Expr) -> Iterator[str]:
    yield f"{spoken(statement.value)};"


@done.register
def _(statement: ast.Return) -> Iterator[str]:
    if statement.value is None:
        raise untranslated(statement)
    yield f"return {spoken(statement.value)};"


@done.register
def _(statement: ast.Break) -> Iterator[str]:
    yield "break;"


@done.register
def _(statement: ast.If) -> Iterator[str]:
    yield f"if ({spoken(statement.test)}) {{"
    yield from block(statement.body)
    if statement.orelse:
        yield "} else {"
        yield from block(statement.orelse)
    yield "}"


@done.register
def _(statement: ast.For) -> Iterator[str]:
    if statement.orelse:
        raise untranslated(statement)
    name = spoken(statement.target)
    of = statement.iter
    if isinstance(of, ast.Call) and spoken(of.func) == "range":
        first, end = range_bounds(of)
        yield f"for ({name} = {first}; {name} < {end}; {name}++) {{"
    else:
        parts = [*taken_apart(statement.target)] if isinstance(statement.target, ast.Tuple) else []
        item = ITEM if parts else name
        yield f"for ({item} of {spoken(of)}) {{"
        yield from parts
    yield from block(statement.body)
    yield "}"


@singledispatch
def spoken(value: ast.expr) -> str:
    """An expression."""
    raise untranslated(value)


@spoken.register
def _(value: ast.Constant) -> str:
    if value.value is None or isinstance(value.value, bool):
        return CONSTANTS[value.value]
    if not isinstance(value.value, (int, float)):
        raise untranslated(value)
    return repr(value.value)


@spoken.register
def _(value: ast.Name) -> str:
    return GIVEN.get(value.id) or camel(value.id)


@spoken.register
def _(value: ast.Tuple) -> str:
    return f"[{', '.join(map(spoken, value.elts))}]"


@spoken.register
def _(value: ast.List) -> str:
    return f"[{', '.join(map(spoken, value.elts))}]"


@spoken.register
def _(value: ast.UnaryOp) -> str:
    return f"({OPERATORS[type(value.op)]}{spoken(value.operand)})"


@spoken.register
def _(value: ast.BinOp) -> str:
    if type(value.op) not in OPERATORS:
        raise untranslated(value)
    return f"({spoken(value.left)} {OPERATORS[type(value.op)]} {spoken(value.right)})"


@spoken.register
def _(value: ast.BoolOp) -> str:
    return "(" + f" {OPERATORS[type(value.op)]} ".join(map(spoken, value.values)) + ")"


@spoken.register
def _(value: ast.Compare) -> str:
    parts = [value.left, *value.comparators]
    if any(type(operator) not in OPERATORS for operator in value.ops):
        raise untranslated(value)
    pairs = [
        f"{spoken(one)} {OPERATORS[type(operator)]} {spoken(other)}"
        for one, operator, other in zip(parts, value.ops, parts[1:])
    ]
    return "(" + " && ".join(pairs) + ")"


@spoken.register
def _(value: ast.IfExp) -> str:
    return f"({spoken(value.test)} ? {spoken(value.body)} : {spoken(value.orelse)})"


@spoken.register
def _(value: ast.Subscript) -> str:
    return f"{spoken(value.value)}[{spoken(value.slice)}]"


@spoken.register
def _(value: ast.ListComp) -> str:
    if len(value.generators) != 1:
        raise untranslated(value)
    one = value.generators[0]
    list_ = spoken(one.iter)
    names = f"({spoken(one.target)})"
    for test in one.ifs:
        list_ = f"{list_}.filter({names} => {spoken(test)})"
    return f"{list_}.map({names} => {spoken(value.elt)})"


@spoken.register
def _(value: ast.Call) -> str:
    given = [spoken(one) for one in value.args]
    if value.keywords:
        raise untranslated(value)
    if isinstance(value.func, ast.Attribute):
        if value.func.attr != "append":
            raise untranslated(value)
        return f"{spoken(value.func.value)}.push({', '.join(given)})"
    name = spoken(value.func)
    if name == "len":
        return f"{given[0]}.length"
    if name == "sorted":
        return f"{given[0]}.slice().sort((a, b) => a - b)"
    if name == "range":
        first, end = range_bounds(value)
        return f"Array.from({{length: Math.max(0, {end} - {first})}}, (_, k) => k + {first})"
    said = ", ".join(given)
    if name in CALLS:
        return CALLS[name].format("..." + said if takes_a_list(name, given) else said)
    return f"{name}({said})"


def range_bounds(value: ast.Call) -> tuple[str, str]:
    """The first number of a range, and the one after its last."""
    given = [spoken(one) for one in value.args]
    first, end = given if len(given) == 2 else ("0", given[0])
    return first, end


def takes_a_list(name: str, given: list[str]) -> bool:
    return name in ("min", "max") and len(given) == 1
