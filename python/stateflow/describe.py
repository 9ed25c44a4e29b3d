"""`describe`: what an accepted program has, as JSON, and as an OpenAPI page.

The page is that of a service over HTTP with two forms of path: `POST /CLASS` makes an entity of the arguments in the body, a JSON array, and
`POST /CLASS/KEY/METHOD` calls a method likewise. The header `Idempotency-Key` is the id of the request. Each type stands in JSON as in request lines
and reply lines."""

import inspect
from collections.abc import Mapping, Sequence
from typing import Any

from stateflow.language import tree
from stateflow.language.class_rules import key_field
from stateflow.language.kinds import kind_of
from stateflow.language.program import Reading
from stateflow.limits import GREATEST_INT, LEAST_INT

Json = dict[str, Any]

MOST_DIGITS = 64
LONGEST_ID = 64
FAILURES = (
    "Exception",
    "ValueError",
    "RuntimeError",
    "AssertionError",
    "ZeroDivisionError",
    "IndexError",
    "OverflowError",
    "RecursionError",
    "NoEntity",
    "AlreadyExists",
    "SizeLimit",
    "StepLimit",
)

# The program


def texts(text: str | None) -> Json:
    """A text at the head of a part, if there is one."""
    return {"text": inspect.cleandoc(text)} if text else {}


def type_of(written: tree.WrittenType | None, classes: Sequence[str]) -> str:
    return str(kind_of(written, classes)) if written is not None else "None"


def parameters_of(method: tree.Method, classes: Sequence[str]) -> list[Json]:
    return [{"name": parameter.name, "type": type_of(parameter.type, classes)} for parameter in method.parameters]


def method_of(method: tree.Method, classes: Sequence[str], may_change: bool) -> Json:
    return {
        "name": method.name,
        **texts(tree.text_of(method.body)),
        "parameters": parameters_of(method, classes),
        "result": type_of(method.result, classes),
        "changes": may_change,
    }


def fields_of(creation: tree.Method, classes: Sequence[str]) -> list[Json]:
    """The fields that `__init__` declares."""
    fields: list[Json] = []
    for statement in creation.body:
        match statement:
            case tree.Assign(target=tree.FieldTarget(name=name), annotation=annotation):
                fields.append({"name": name, "type": type_of(annotation, classes)})
    return fields


def class_of(found: tree.Class, reading: Reading) -> Json:
    classes = [other.name for other in reading.tree.classes]
    creation, key = found.method("__init__"), found.method("__key__")
    assert creation is not None and key is not None
    methods = [method for method in found.methods if method not in (creation, key)]
    return {
        "name": found.name,
        **texts(found.text),
        "key": key_field(key),
        "fields": fields_of(creation, classes),
        "new": parameters_of(creation, classes),
        "methods": [method_of(method, classes, (found.name, method.name) in reading.changing) for method in methods],
    }


def description_of(reading: Reading) -> Json:
    """The classes of an accepted program with their methods. A type is written as in the program, and `changes` says whether a method may change something."""
    return {**texts(reading.tree.text), "classes": [class_of(found, reading) for found in reading.tree.classes]}


# The OpenAPI page


def referred(name: str) -> Json:
    return {"$ref": f"#/components/schemas/{name}"}


def schema_of(kind: str, int_schema: str) -> Json:
    """The schema of a type, with that of its ints, which differ in arguments and replies."""
    plain: dict[str, Json] = {"int": referred(int_schema), "bool": {"type": "boolean"}, "str": {"type": "string"}, "None": {"type": "null"}}
    if kind in plain:
        return plain[kind]
    form, _, item = kind.removesuffix("]").partition("[")
    if form == "List":
        return {"type": "array", "items": schema_of(item, int_schema)}
    if form == "Optional":
        return {"anyOf": [schema_of(item, int_schema), {"type": "null"}]}
    return {"type": "string", "description": f"the key of an entity of {kind}"}


def arguments_schema(parameters: Sequence[Json]) -> Json:
    """The array of the arguments, each with the name of its parameter."""
    items = [{"title": parameter["name"], **schema_of(parameter["type"], "IntArgument")} for parameter in parameters]
    listed: Json = {"prefixItems": items} if items else {}
    return {"type": "array", **listed, "items": False, "minItems": len(items), "maxItems": len(items)}


def answer(description: str, schema: Json) -> Json:
    return {"description": description, "content": {"application/json": {"schema": schema}}}


def responses(result: Json) -> Json:
    members = {"ok": result, "seq": {"type": "integer", "minimum": 1, "description": "the request's place in the history"}}
    failure, refusal = referred("Failure"), referred("Refusal")
    return {
        "200": answer("What the request gives.", {"type": "object", "properties": members, "required": ["ok", "seq"]}),
        "400": answer("The request was refused, and ran nothing.", refusal),
        "404": answer("There is no such entity, class or method.", {"anyOf": [failure, refusal]}),
        "409": answer("There is such an entity, or the id stands for another request.", {"anyOf": [failure, refusal]}),
        "422": answer("The request failed, and changed nothing.", failure),
    }


def operation(name: str, summary: str, parameters: Sequence[Json], result: Json, key: bool) -> Json:
    places = [{"$ref": "#/components/parameters/IdempotencyKey"}]
    if key:
        places.append({"$ref": "#/components/parameters/Key"})
    body = {"required": True, "content": {"application/json": {"schema": arguments_schema(parameters)}}}
    return {"post": {"operationId": name, "summary": summary, "parameters": places, "requestBody": body, "responses": responses(result)}}


def first_line(part: Mapping[str, Any], otherwise: str) -> str:
    lines: list[str] = part.get("text", "").splitlines()
    return lines[0] if lines else otherwise


def paths_of(found: Json) -> Json:
    """The paths of a class: that of its creations, and one for each method."""
    name = found["name"]
    key = {"type": "string", "description": f"the key of the new {name}"}
    paths = {f"/{name}": operation(f"{name}.new", f"Make an entity of {name}.", found["new"], key, False)}
    for method in found["methods"]:
        summary = first_line(method, f"Call {method['name']} of an entity of {name}.")
        result = schema_of(method["result"], "IntReply")
        paths[f"/{name}/{{key}}/{method['name']}"] = operation(f"{name}.{method['name']}", summary, method["parameters"], result, True)
    return paths


def int_schema(least: int, most: int, description: str) -> Json:
    numeral = {"type": "string", "pattern": f"^-?[0-9]{{1,{MOST_DIGITS}}}$", "description": f"a whole number from {LEAST_INT} to {GREATEST_INT}"}
    return {"description": description, "anyOf": [{"type": "integer", "minimum": least, "maximum": most}, numeral]}


def components() -> Json:
    failure = {"error": {"type": "string", "enum": list(FAILURES)}, "message": {"type": "string"}, "seq": {"type": "integer", "minimum": 1}}
    return {
        "parameters": {
            "IdempotencyKey": {
                "name": "Idempotency-Key",
                "in": "header",
                "description": "The id of the request. The same request under the same id runs once, and has the same answer again.",
                "schema": {"type": "string", "minLength": 1, "maxLength": LONGEST_ID},
            },
            "Key": {"name": "key", "in": "path", "required": True, "description": "The key of the entity.", "schema": {"type": "string"}},
        },
        "schemas": {
            "IntArgument": int_schema(-(2**63), 2**64 - 1, "an int as an argument"),
            "IntReply": int_schema(-(2**63), 2**63 - 1, "an int in a reply; one that a number of 64 bits can't hold is a text"),
            "Failure": {"type": "object", "properties": failure, "required": ["error", "message", "seq"]},
            "Refusal": {"type": "object", "properties": {"bad": {"type": "string"}}, "required": ["bad"]},
        },
    }


def openapi_of(description: Json, title: str) -> Json:
    """The OpenAPI page of a service of the program."""
    about = {"title": title, "version": "1", "description": description.get("text", f"The entities of {title}.")}
    paths = {path: named for found in description["classes"] for path, named in paths_of(found).items()}
    return {"openapi": "3.1.0", "info": about, "paths": paths, "components": components()}
