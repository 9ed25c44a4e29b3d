"""Classes that act: creations make the one entity of a key, and calls of methods are requests, or parts of one."""

import ast
import functools
import inspect
import sys
import textwrap
import types
from collections.abc import Callable, Mapping, Sequence

from stateflow.acting.counted import Counter, NotInTheLanguage, body_of, counted
from stateflow.acting.world import world
from stateflow.limits import GREATEST_INT, LEAST_INT

COUNTER = Counter()


class Unusable(TypeError):
    """A marked class that can't act, and why."""

    def __init__(self, cls: type, why: object) -> None:
        file = getattr(sys.modules.get(cls.__module__), "__file__", None) or "FILE"
        super().__init__(f"{cls.__module__}.{cls.__qualname__} can't act as an entity: {why}; `python3 -m stateflow check {file}` says what to mend")


def tree_of(cls: type) -> ast.ClassDef:
    """The syntax tree of a class, with the line numbers of its file."""
    try:
        lines, first = inspect.getsourcelines(cls)
    except (OSError, TypeError):
        raise Unusable(cls, "its source isn't there to be read") from None
    tree = ast.parse(textwrap.dedent("".join(lines)))
    ast.increment_lineno(tree, first - 1)
    found = tree.body[0]
    if not isinstance(found, ast.ClassDef):
        raise Unusable(cls, "its source is no class")
    return found


def methods_of(cls: type) -> dict[str, ast.FunctionDef]:
    """The methods of a class by name."""
    return {part.name: part for part in tree_of(cls).body if isinstance(part, ast.FunctionDef)}


def is_field(node: ast.expr | None) -> bool:
    return isinstance(node, ast.Attribute) and isinstance(node.value, ast.Name) and node.value.id == "self"


def key_parameter(cls: type, methods: Mapping[str, ast.FunctionDef]) -> str:
    """The name of the parameter of `__init__` that gives the key."""
    if "__init__" not in methods or "__key__" not in methods:
        raise Unusable(cls, "an entity has `__init__` and `__key__`")
    returned = body_of(methods["__key__"])[-1]
    if isinstance(returned, ast.Return) and isinstance(returned.value, ast.Attribute) and is_field(returned.value):
        for line in body_of(methods["__init__"]):
            if isinstance(line, ast.AnnAssign) and isinstance(line.target, ast.Attribute) and is_field(line.target):
                if line.target.attr == returned.value.attr and isinstance(line.value, ast.Name):
                    return line.value.id
    raise Unusable(cls, "`__key__` returns a field that a parameter gives, as `return self.name` behind `self.name: str = name`")


# Arguments


def fits_name(name: str, value: object) -> bool:
    """Whether a value is one of the plain type or class of this name."""
    if name == "int":
        return type(value) is int and LEAST_INT <= value <= GREATEST_INT
    if name == "str":
        return isinstance(value, str) and not any("\ud800" <= character <= "\udfff" for character in value)
    return type(value).__name__ == name and (name == "bool" or value in world.keys)


def fits(written: ast.expr | None, value: object) -> bool:
    """Whether a value fits a type as it is written. Where none of the language is written nothing is asked."""
    if isinstance(written, ast.Constant):
        return value is None if written.value is None else fits_name(str(written.value), value)
    if isinstance(written, ast.Name):
        return fits_name(written.id, value)
    if isinstance(written, ast.Subscript) and isinstance(written.value, ast.Name):
        if written.value.id == "Optional":
            return value is None or fits(written.slice, value)
        return isinstance(value, list) and all(fits(written.slice, item) for item in value)
    return True


def look_at_arguments(method: ast.FunctionDef, arguments: Sequence[object]) -> None:
    """Refuses an argument of an outermost call that the service would refuse as `argument type`."""
    for parameter, value in zip(method.args.args[1:], arguments):
        if parameter.annotation is not None and not fits(parameter.annotation, value):
            raise TypeError(f"{method.name}: argument type: {parameter.arg} is {ast.unparse(parameter.annotation)}, and {value!r} isn't")


def bound(signature: inspect.Signature, entity: object, given: Sequence[object], named: Mapping[str, object]) -> list[object]:
    """The arguments of a call in the order of the parameters."""
    return list(signature.bind(entity, *given, **named).args[1:])


# Methods that act


def acting_method(function: types.FunctionType, tree: ast.FunctionDef) -> Callable[..., object]:
    body, signature = counted(function, tree, COUNTER), inspect.signature(function)

    @functools.wraps(function)
    def call(self: object, *given: object, **named: object) -> object:
        if world.request is not None:
            return world.call(self, body, given)
        arguments = bound(signature, self, given, named)
        look_at_arguments(tree, arguments)
        return world.served([self, *arguments], lambda: world.call(self, body, arguments))

    return call


def acting_creation(function: types.FunctionType, tree: ast.FunctionDef) -> Callable[..., None]:
    body, signature = counted(function, tree, COUNTER), inspect.signature(function)

    @functools.wraps(function)
    def create(self: object, *given: object, **named: object) -> None:
        if world.request is not None:
            return world.create(self, body, given)
        arguments = bound(signature, self, given, named)
        look_at_arguments(tree, arguments)
        return world.served(arguments, lambda: world.create(self, body, arguments))

    return create


def one_object_a_key(function: types.FunctionType, key: str) -> Callable[..., object]:
    """What gives the object of a creation before `__init__` runs. A key that is None counts as an empty text until `__init__` has looked at it."""
    signature = inspect.signature(function)
    place = list(signature.parameters).index(key) - 1

    def new(cls: type, *given: object, **named: object) -> object:
        value = bound(signature, None, given, named)[place] if named or len(given) <= place else given[place]
        return world.object_of(cls, value if isinstance(value, str) else "")

    return new


def shown(self: object) -> str:
    """How an entity is printed in a message of a test."""
    return f"{type(self).__name__}({world.keys.get(self)!r})"


def act(cls: type) -> None:
    """Makes a marked class act. The class stays the same object, so it doesn't matter who has imported it before."""
    methods = methods_of(cls)
    key = key_parameter(cls, methods)
    try:
        for name, tree in methods.items():
            function = vars(cls)[name]
            if not isinstance(function, types.FunctionType):
                raise Unusable(cls, f"`{name}` is no plain method")
            if name == "__init__":
                setattr(cls, "__new__", staticmethod(one_object_a_key(function, key)))
                setattr(cls, name, acting_creation(function, tree))
            elif name != "__key__":
                setattr(cls, name, acting_method(function, tree))
    except NotInTheLanguage as found:
        raise Unusable(cls, found) from None
    setattr(cls, "__repr__", shown)
