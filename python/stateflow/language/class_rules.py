"""The rules on classes: names, members, the form of `__init__` and of `__key__`; and the tables of what each class has."""

from collections.abc import Container, Iterable, Iterator, Sequence
from dataclasses import dataclass, field

from stateflow.language import class_words as words
from stateflow.language import tree
from stateflow.language.faults import Advice, Place, Report
from stateflow.language.kinds import UNKNOWN, Kind, kind_of
from stateflow.limits import MOST_NAMES

RESERVED = frozenset(
    "self int bool str list List Optional len abs min max range entity transactional stateflow Exception ValueError RuntimeError".split()
)
FORMS = ("__init__", "__key__")


@dataclass(slots=True)
class Signature:
    """The types of a method's parameters and of its result. Of one that couldn't be read whole nothing is asked."""

    parameters: list[Kind]
    result: Kind
    is_known: bool = True


@dataclass(slots=True)
class ClassTable:
    """What a class has, by name."""

    name: str
    fields: dict[str, Kind] = field(default_factory=dict)
    methods: dict[str, Signature] = field(default_factory=dict)
    creation: Signature = field(default_factory=lambda: Signature([], UNKNOWN, False))
    key: str = ""
    is_known: bool = True


Tables = dict[str, ClassTable]


def parts_of(expression: tree.Expression) -> tree.Expressions:
    """The expressions that an expression is made of."""
    match expression:
        case tree.FieldOf(on=on):
            return [on]
        case tree.MethodCall(on=on, arguments=arguments):
            return [on, *arguments]
        case tree.Call(arguments=arguments):
            return arguments
        case tree.ListDisplay(items=items):
            return items
        case tree.Index(on=on, index=index):
            return [on, index]
        case tree.Unary(operand=operand):
            return [operand]
        case tree.Chain(first=first, links=links):
            return [first, *[link.operand for link in links]]
        case tree.Tests(operands=operands):
            return operands
        case tree.Comparison(left=left, right=right):
            return [left, right]
        case tree.NoneTest(left=left):
            return [left]
        case tree.Conditional(value=value, test=test, other=other):
            return [value, test, other]
    return []


def is_self(expression: tree.Expression) -> bool:
    return isinstance(expression, tree.Name) and expression.name == "self"


class ClassRules:
    """Looks at the classes of a program."""

    def __init__(self, program: tree.Program, report: Report) -> None:
        self.program, self.report = program, report
        self.names = {found.name for found in program.classes}

    def fault(self, kind: str, place: Place, advice: Advice) -> None:
        self.report.add(kind, place, advice.message, advice.mend)

    def look(self) -> None:
        earlier: list[str] = []
        for found in self.program.classes:
            if self.is_one_more(earlier, "class", found.name, found.place):
                if found.name in RESERVED:
                    self.fault("ReservedName", found.place, words.reserved(found.name))
                elif found.name in earlier:
                    self.fault("DuplicateClass", found.place, words.duplicate_class(found.name))
            earlier.append(found.name)
        for found in self.program.classes:
            self.look_at_class(found)

    def is_one_more(self, earlier: Sequence[str], what: str, name: str, place: Place) -> bool:
        """Whether there may be one more name of a kind."""
        if len(earlier) < MOST_NAMES:
            return True
        self.fault("TooMany", place, words.too_many(what, name))
        return False

    # Members

    def look_at_class(self, owner: tree.Class) -> None:
        earlier: list[str] = []
        for method in owner.methods:
            self.look_at_method_name(method, earlier)
            earlier.append(method.name)
            self.look_at_parameters(method)
            self.look_at_result(method)
            if method.name == "__init__":
                self.look_at_creation(owner, method)
        creation, key = owner.method("__init__"), owner.method("__key__")
        if creation is None and not owner.is_broken:
            self.fault("InitForm", owner.place, words.no_init(owner.name))
        if key is None and not owner.is_broken:
            self.fault("KeyForm", owner.place, words.no_key(owner.name))
        elif key is not None and not key.is_broken and creation is not None:
            self.look_at_key(key, creation)

    def look_at_method_name(self, method: tree.Method, earlier: Sequence[str]) -> None:
        name = method.name
        counted = [other for other in earlier if other not in FORMS]
        if name not in FORMS and not self.is_one_more(counted, "method", name, method.place):
            return
        if name not in FORMS and name.startswith("__") and name.endswith("__"):
            self.fault("ReservedName", method.place, words.reserved_method(name))
        elif name in earlier:
            self.fault("DuplicateMember", method.place, words.duplicate("method", name))

    def look_at_parameters(self, method: tree.Method) -> None:
        earlier: list[str] = []
        for parameter in method.parameters:
            name, place = parameter.name, parameter.place
            if self.is_one_more(earlier, "parameter", name, place):
                if name in RESERVED or name in self.names:
                    self.fault("ReservedName", place, words.reserved(name))
                elif name in earlier:
                    self.fault("DuplicateMember", place, words.duplicate("parameter", name))
                elif parameter.type is None:
                    self.fault("MissingAnnotation", place, words.no_parameter_type(name))
            earlier.append(name)
            if parameter.type is not None:
                self.look_at_type(parameter.type)

    def look_at_result(self, method: tree.Method) -> None:
        if method.result is not None:
            self.look_at_type(method.result)
        elif method.name not in FORMS and not method.is_broken:
            self.fault("MissingAnnotation", method.place, words.no_result_type(method.name))

    def look_at_type(self, written: tree.WrittenType) -> None:
        """The rules on a type as it is written, from the outside in."""
        match written:
            case tree.ClassType(name=name, place=place) if name not in self.names:
                self.fault("UnknownType", place, words.unknown_type(name, self.names))
            case tree.ListType(item=item):
                self.look_at_type(item)
            case tree.OptionalType(item=item):
                is_none = isinstance(item, tree.PlainType) and item.name == "None"
                if is_none or isinstance(item, tree.OptionalType):
                    self.fault("NestedOptional", item.place, words.nested_optional(is_none))
                self.look_at_type(item)

    # Creations

    def look_at_creation(self, owner: tree.Class, creation: tree.Method) -> None:
        result = creation.result
        if result is not None and not (isinstance(result, tree.PlainType) and result.name == "None"):
            self.fault("InitForm", creation.place, words.init_result())
        methods = {method.name for method in owner.methods} | set(FORMS)
        fields: list[str] = []
        for statement in tree.without_text(creation.body):
            if isinstance(statement, tree.Broken):
                fields += sorted(statement.fields)
            elif self.has_creation_form(statement, creation, fields, methods) and isinstance(statement, tree.Assign):
                self.look_at_field(statement, fields, methods)
            if isinstance(statement, tree.Assign) and isinstance(statement.target, tree.FieldTarget):
                fields.append(statement.target.name)

    def likely_type(self, value: tree.Expression, creation: tree.Method) -> str:
        """The type of a field that has none, as far as its value tells it."""
        match value:
            case tree.Literal(value=bool() | int() | str() as literal):
                return type(literal).__name__
            case tree.Name(name=name):
                given = next((parameter.type for parameter in creation.parameters if parameter.name == name), None)
                return "T" if given is None else str(kind_of(given, self.names))
        return "T"

    def has_creation_form(
        self, statement: tree.Statement, creation: tree.Method, fields: Sequence[str], methods: Iterable[str]
    ) -> bool:
        match statement:
            case tree.Assign(target=tree.FieldTarget(), annotation=annotation, value=value) if annotation is not None:
                read = [value]
            case tree.Assert(test=test, message=message):
                read = [test] if message is None else [test, message]
            case tree.Assign(target=tree.FieldTarget(name=name), value=value):
                self.fault("InitForm", statement.place, words.init_field(name, self.likely_type(value, creation)))
                return False
            case _:
                self.fault("InitForm", statement.place, words.init_statement(statement))
                return False
        advice = next((advice for expression in read for advice in self.strangers(expression, fields, methods)), None)
        if advice is not None:
            self.fault("InitForm", statement.place, advice)
        return advice is None

    def strangers(self, expression: tree.Expression, fields: Sequence[str], methods: Iterable[str]) -> Iterator[Advice]:
        """What stands in an expression and can't stand in `__init__`."""
        match expression:
            case tree.MethodCall(name=name):
                yield words.init_call(name)
            case tree.Call(name=name) if name in self.names:
                yield words.init_creation(name)
            case tree.Name(name="self"):
                yield words.init_self()
            case tree.FieldOf(on=on, name=name) if is_self(on):
                if name not in fields:
                    yield words.init_later_field(name, name in methods)
            case _:
                for part in parts_of(expression):
                    yield from self.strangers(part, fields, methods)

    def look_at_field(self, statement: tree.Assign, fields: Sequence[str], methods: Iterable[str]) -> None:
        target = statement.target
        assert isinstance(target, tree.FieldTarget) and statement.annotation is not None
        if self.is_one_more(fields, "field", target.name, target.name_place):
            if target.name in methods:
                self.fault("DuplicateMember", target.name_place, words.field_of_a_method(target.name))
            elif target.name in fields:
                self.fault("DuplicateMember", target.name_place, words.duplicate("field", target.name))
        self.look_at_type(statement.annotation)

    # Keys

    def look_at_key(self, key: tree.Method, creation: tree.Method) -> None:
        result = key.result
        is_text = result is None or (isinstance(result, tree.PlainType) and result.name == "str")
        advice = words.key_result() if not is_text else words.key_parameters() if key.parameters else None
        name = key_field(key)
        if advice is None and name is None:
            advice = words.key_body()
        if advice is None and name is not None and not is_given(name, creation):
            advice = words.key_not_given(name)
        if advice is not None:
            self.fault("KeyForm", key.place, advice)


def key_field(key: tree.Method) -> str | None:
    """The field that `__key__` returns, where that is all it does."""
    match tree.without_text(key.body):
        case [tree.Return(value=tree.FieldOf(on=tree.Name(name="self"), name=name))]:
            return name
    return None


def is_given(name: str, creation: tree.Method) -> bool:
    """Whether a text field is declared as a parameter; true as well where its declaration has a fault of its own."""
    parameters = {parameter.name for parameter in creation.parameters}
    for statement in creation.body:
        match statement:
            case tree.Assign(target=tree.FieldTarget(name=found), annotation=tree.PlainType(name="str"), value=tree.Name(name=given)):
                if found == name:
                    return given in parameters or creation.is_broken
            case tree.Assign(target=tree.FieldTarget(name=found), annotation=None) if found == name:
                return True
            case tree.Broken(fields=fields) if name in fields:
                return True
    return False


def fields_of(creation: tree.Method, classes: Container[str]) -> dict[str, Kind]:
    """The fields that `__init__` declares, and those that it assigns without a type."""
    fields: dict[str, Kind] = {}
    for statement in creation.body:
        if isinstance(statement, tree.Assign) and isinstance(statement.target, tree.FieldTarget):
            fields.setdefault(statement.target.name, kind_of(statement.annotation, classes))
        elif isinstance(statement, tree.Broken):
            fields.update({name: UNKNOWN for name in statement.fields if name not in fields})
    return fields


def signature_of(method: tree.Method, classes: Container[str]) -> Signature:
    parameters = [kind_of(parameter.type, classes) for parameter in method.parameters]
    return Signature(parameters, kind_of(method.result, classes), not method.is_broken)


def table_of(found: tree.Class, classes: Container[str]) -> ClassTable:
    table = ClassTable(found.name, is_known=not found.is_broken)
    for method in reversed(found.methods):
        if method.name == "__init__":
            table.creation, table.fields = signature_of(method, classes), fields_of(method, classes)
        elif method.name == "__key__":
            table.key = key_field(method) or ""
        else:
            table.methods[method.name] = signature_of(method, classes)
    return table


def look_at_classes(program: tree.Program, report: Report) -> Tables:
    """Looks at the rules on classes, and gives what each class has."""
    rules = ClassRules(program, report)
    rules.look()
    return {found.name: table_of(found, rules.names) for found in reversed(program.classes)}
