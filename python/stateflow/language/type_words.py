"""Faults of types and statements, in words."""

from collections.abc import Iterable

from stateflow.language import tree
from stateflow.language.class_rules import RESERVED, ClassTable, Tables
from stateflow.language.class_words import near
from stateflow.language.faults import Advice
from stateflow.language.kinds import BOOL, INT, NONE, STR, Kind, ListOf, OptionalOf
from stateflow.limits import MOST_NAMES

LIST_METHODS = {
    "append": "write `xs = xs + [x]`",
    "extend": "write `xs = xs + ys`",
    "insert": "make a new list in a loop",
    "remove": "make a new list in a loop",
    "pop": "make a new list in a loop, and read `xs[-1]` before",
    "clear": "assign `[]`",
    "sort": "make a new list in a loop",
    "reverse": "make a new list in a loop",
    "copy": "assign the list itself: lists are never changed",
    "index": "look for the place in a loop",
    "count": "count in a loop",
}
FUNCTIONS = {
    "print": Advice("`print` isn't in the language: a request has no output but its result", "return what shall be seen"),
    "range": Advice("`range` stands behind `in` of a `for` alone", "fill a list in a loop"),
    "int": Advice("`int` isn't a function here: texts aren't read as numbers", "take an `int` as an argument of the request"),
    "bool": Advice("`bool` isn't a function here", "write the test: `n != 0`, `len(text) > 0`"),
    "float": Advice("the language has no floats", "count in a smaller unit, such as cents"),
    "list": Advice("`list` isn't a function here", "write `[]`; a list can be assigned as it is, since lists are never changed"),
    "dict": Advice("the language has no dicts", "make an entity for each key, or keep two lists of one length"),
    "set": Advice("the language has no sets", "keep a list without repeats"),
    "tuple": Advice("the language has no tuples", "write a list, or one local for each value"),
    "sum": Advice("`sum` isn't in the language", "add in a loop: `total += x`"),
    "sorted": Advice("`sorted` isn't in the language", "make a new list in a loop"),
    "reversed": Advice("`reversed` isn't in the language", "loop over the places, and read `xs[-1 - i]`"),
    "enumerate": Advice("`enumerate` isn't in the language", "write `for i in range(len(xs)):`, and read `xs[i]`"),
    "zip": Advice("`zip` isn't in the language", "write `for i in range(len(xs)):`, and read `xs[i]` and `ys[i]`"),
    "map": Advice("`map` isn't in the language", "fill a list in a loop"),
    "filter": Advice("`filter` isn't in the language", "fill a list in a loop"),
    "any": Advice("`any` isn't in the language", "write a method with a `for` that returns True"),
    "all": Advice("`all` isn't in the language", "write a method with a `for` that returns False"),
    "isinstance": Advice("`isinstance` isn't in the language: each value has one type", "leave it out, or write `is None`"),
    "super": Advice("a class has no base", "leave it out"),
    "round": Advice("the language has no floats", "write `(a + b // 2) // b`"),
    "pow": Advice("`pow` isn't in the language", "multiply in a loop"),
    "divmod": Advice("`divmod` isn't in the language", "write `a // b` and `a % b`"),
    "open": Advice("a request reads no files", "take what is in it as an argument of the request"),
    "input": Advice("a request has no input but its arguments", "make it a parameter"),
    "repr": Advice("`repr` isn't in the language", "write `str(n)` of an int"),
    "hash": Advice("`hash` isn't in the language", "compare with `==`"),
    "id": Advice("`id` isn't in the language", "compare with `==`: entities are equal by class and key"),
}
SIGN_WORDS = {"+": "ints, texts or lists of one type", "-": "ints", "*": "ints", "//": "ints", "%": "ints"}


def an(kind: Kind) -> str:
    """A type with its article."""
    name = str(kind)
    return f"an `{name}`" if name[0] in "aeiouAEIOU" else "`None`" if kind == NONE else f"a `{name}`"


def shown(node: tree.Expression) -> str:
    """An expression as a message names it."""
    match node:
        case tree.Name(name=name):
            return f"`{name}`"
        case tree.FieldOf(on=tree.Name(name="self"), name=name):
            return f"`self.{name}`"
        case tree.MethodCall(name=name) | tree.Call(name=name):
            return f"the result of `{name}`"
    return "this"


def may_be_none(node: tree.Expression, kind: Kind) -> Advice:
    name = shown(node)
    if kind == NONE:
        return Advice(f"{name} is `None`", "give it a value, or leave it out")
    if isinstance(node, tree.Name):
        return Advice(f"{name} may be `None`", f"test it first: `if {node.name} is not None:`, and use it in there")
    local = node.name if isinstance(node, (tree.FieldOf, tree.MethodCall)) else "value"
    return Advice(f"{name} may be `None`", f"put it into a local first, as `{local} = ...`, and test that: `if {local} is not None:`")


def none_beside(sign: str, left: Kind, right: Kind) -> Advice:
    optional = [side for side, kind in (("left", left), ("right", right)) if kind == NONE or isinstance(kind, OptionalOf)]
    sides = "both sides" if len(optional) == 2 else f"the {optional[0]} side"
    return Advice(f"{sides} of `{sign}` may be `None`", "test it first by `is not None`; put a field into a local before")


def operand(what: str, wanted: Kind, kind: Kind) -> Advice:
    message = f"{what} works on {an(wanted)}, and this is {an(kind)}"
    if wanted == BOOL:
        mends: dict[Kind, str] = {INT: "write a test: `n != 0`", STR: "write a test: `len(text) > 0`"}
        mend = mends.get(kind, "write a test: `len(xs) > 0`" if isinstance(kind, ListOf) else "write a test, such as `a == b`")
        return Advice(message, mend)
    if kind == BOOL:
        return Advice(message, 'write a choice: `1 if b else 0`, or `"yes" if b else "no"` for a text')
    if what in ("`min`", "`max`") and isinstance(kind, ListOf):
        return Advice(message, "compare in a loop; it takes two ints")
    if what == "`str`" and kind == STR:
        return Advice(message, "take it as it is")
    return Advice(message, f"give it {an(wanted)}")


def mismatch(what: str, wanted: Kind, kind: Kind) -> Advice:
    message = f"{what} is {an(wanted)}, and this is {an(kind)}"
    if isinstance(kind, OptionalOf) and kind.item == wanted:
        return Advice(message, "test it first by `is not None`; put a field into a local before")
    if wanted == STR and kind == INT:
        return Advice(message, "write `str(n)`")
    if kind == NONE:
        return Advice(message, f"let the type be `Optional[{wanted}]`, or give {an(wanted)}")
    return Advice(message, f"give {an(wanted)}, or change the type there")


def two_sides(one: Kind, other: Kind) -> Advice:
    return Advice(f"the two sides of a choice have one type, and these are {an(one)} and {an(other)}", "let both be of one type")


def never_equal(left: Kind, right: Kind) -> Advice:
    return Advice(f"{an(left)} never equals {an(right)}", "compare values of one type")


def no_order(sign: str, left: Kind, right: Kind) -> Advice:
    return Advice(f"`{sign}` compares two ints or two texts, and these are {an(left)} and {an(right)}", "compare values of one of these types")


def operands(sign: str, left: Kind, right: Kind, may_be_lists: bool) -> Advice:
    message = f"`{sign}` works on {SIGN_WORDS[sign]}, and this is {an(left)} {sign} {an(right)}"
    if isinstance(left, ListOf) and not may_be_lists:
        return Advice("`+=` isn't there for lists: in Python it changes the list", "write `xs = xs + [x]`")
    if isinstance(left, ListOf) and left.item == right:
        return Advice(message, "put it into a list: `xs + [x]`")
    if sign == "+" and {left, right} == {INT, STR}:
        return Advice(message, "make a text of the int by `str(n)`, or take an `int` for the text")
    if sign == "%" and left == STR:
        return Advice("texts aren't formatted by `%`", 'join the parts with `+`: `"x is " + str(x)`')
    if sign == "*" and (STR in (left, right) or isinstance(left, ListOf)):
        return Advice(message, "repeat it in a loop")
    return Advice(message, "let both sides be of one of these types")


def no_list(what: str, kind: Kind) -> Advice:
    if kind == STR:
        return Advice(f"{what} works on a list, and this is a text: texts aren't taken apart", "keep a list of texts, and `len(text)` for the length")
    return Advice(f"{what} works on a list, and this is {an(kind)}", "give it a list" if what == "an index" else "write `range(n)` for the numbers below `n`")


def no_length(kind: Kind) -> Advice:
    return Advice(f"`len` is asked of a text or a list, and this is {an(kind)}", "give it one of these")


def no_entity(name: str, kind: Kind) -> Advice:
    if isinstance(kind, ListOf):
        mend = LIST_METHODS.get(name, "make a new list in a loop")
        return Advice(f"a list has no method `{name}`: lists are never changed in place", mend)
    if kind == STR:
        return Advice(f"a text has no method `{name}`", 'a text has `+`, `==`, `<` and `len`; join with `+`, and `str(n)` of an int')
    return Advice(f"`{name}` is called of {an(kind)}, which is no entity", "call methods of entities alone")


def unknown_name(name: str, kinds: Iterable[str], fields: Iterable[str], tables: Tables) -> Advice:
    if name in tables:
        return Advice(f"the class `{name}` itself is no value", f"make an entity: `{name}(...)`")
    if name in FUNCTIONS or name in RESERVED:
        return Advice(f"`{name}` itself is no value", "call it, or take another name")
    if name in fields:
        return Advice(f"no local and no parameter is called `{name}`", f"write `self.{name}` for the field")
    mend = near(name, kinds) or "assign it before, make it a parameter, or a field: there are no values of the module"
    return Advice(f"no local and no parameter is called `{name}`", mend)


def unknown_function(name: str, tables: Tables) -> Advice:
    if name in FUNCTIONS:
        return FUNCTIONS[name]
    mend = near(name, [*tables, "len", "str", "abs", "min", "max"])
    if name[0].isupper():
        return Advice(f"there is no class `{name}` in the program", mend or "write it in this file: a program is one file")
    message = f"`{name}` is no class and none of `len`, `str`, `abs`, `min` and `max`"
    return Advice(message, mend or "call a method: `self.m(...)`; there are no functions of one's own")


def unassigned(name: str) -> Advice:
    return Advice(f"`{name}` isn't assigned on every way that leads here", f"give `{name}` a first value before the branch or the loop")


def remote_field(name: str, tables: Tables) -> Advice:
    if any(name in table.methods for table in tables.values()):
        return Advice(f"`{name}` itself is no value", f"call it: `{name}(...)`")
    if name in LIST_METHODS:
        return Advice(f"`{name}` is no field of the entity itself", LIST_METHODS[name])
    return Advice(f"`{name}` is a field of another entity", f"write a method there that returns `self.{name}`, and call it")


def unknown_field(name: str, table: ClassTable) -> Advice:
    if name in table.methods:
        return Advice(f"`{name}` is a method", f"call it: `self.{name}(...)`")
    return Advice(f"the class `{table.name}` has no field `{name}`", near(name, table.fields) or f"declare it in `__init__`: `self.{name}: T = ...`")


def unknown_method(name: str, table: ClassTable) -> Advice:
    if name in ("__init__", "__key__"):
        return Advice(f"`{name}` isn't called", f"make an entity by `{table.name}(...)`, and return the key by a method of your own")
    if name in table.fields:
        return Advice(f"`{name}` is a field of `{table.name}`", "leave the brackets out for `self`, and write a method that returns it for others")
    return Advice(f"the class `{table.name}` has no method `{name}`", near(name, table.methods) or "write it there, or call another")


def counted(count: int) -> str:
    return "no argument" if count == 0 else "one argument" if count == 1 else f"{count} arguments"


def argument_count(name: str, wanted: int, given: int) -> Advice:
    stand = "stands" if given < 2 else "stand"
    return Advice(f"`{name}` takes {counted(wanted)}, and {counted(given)} {stand} here", "give one for each parameter")


def function_count(name: str, wanted: int, given: int) -> Advice:
    if name in ("min", "max") and given == 1:
        return Advice(f"`{name}` takes two ints", "compare in a loop over the list")
    if name in ("min", "max") and given > 2:
        return Advice(f"`{name}` takes two ints", f"write `{name}(a, {name}(b, c))`")
    return argument_count(name, wanted, given)


def empty_list() -> Advice:
    return Advice("nothing says of what this `[]` is a list", "write the type: `xs: List[int] = []`; ask `len(xs) == 0` in a test")


def too_many_locals(name: str) -> Advice:
    return Advice(f"`{name}` is one more than the {MOST_NAMES} locals and parameters that a method may have", "divide the work among several methods")


def reserved_local(name: str) -> Advice:
    return Advice(f"`{name}` is a name of the language, or of a class", "take another name")


def annotated_field(name: str) -> Advice:
    return Advice("a field gets its type in `__init__` alone", f"write `self.{name} = ...`")


def key_assigned(name: str) -> Advice:
    return Advice(f"`{name}` is the key, and a key never changes", "make another entity, or keep the value in another field")


def annotated_again(name: str, earlier: Kind, declared: Kind) -> Advice:
    return Advice(f"`{name}` is {an(earlier)} already, and {an(declared)} is written here", "take another name, or leave the type out")


def retyped(name: str, earlier: Kind, kind: Kind) -> Advice:
    message = f"`{name}` is {an(earlier)} already, and this is {an(kind)}"
    if earlier == NONE:
        return Advice(message, f"write `{name}: Optional[{kind}] = None` where it is first assigned")
    if kind == NONE:
        return Advice(message, f"write `{name}: Optional[{earlier}]` where it first stands")
    if isinstance(kind, OptionalOf) and kind.item == earlier:
        return Advice(message, f"test it before, or write `{name}: {kind}` where it first stands")
    return Advice(message, "take another name")


def nothing_returned(result: Kind) -> Advice:
    return Advice(f"the result is {an(result)}, and nothing is returned here", f"return {an(result)}")


def loop_word(word: str) -> Advice:
    return Advice(f"`{word}` stands outside of a loop", "leave it out, or write `return`")


def missing_return(name: str, result: Kind) -> Advice:
    return Advice(f"the end of `{name}` can be reached, and its result is {an(result)}", "return a value at its end, or `raise` there")
