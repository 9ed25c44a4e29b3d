"""What requests come to in plain Python: the program is a module of CPython whose classes act, as in a test that imports `stateflow.testing`."""

import importlib.util
import linecache
import sys
from contextlib import contextmanager

from stateflow import testing
from stateflow.acting.world import world

from drawn.requests import Entity


@contextmanager
def module_of(file, name):
    """The program of a file as a module, as long as it is needed."""
    specification = importlib.util.spec_from_file_location(name, file)
    module = importlib.util.module_from_spec(specification)
    sys.modules[name] = module
    try:
        specification.loader.exec_module(module)
        yield module
    finally:
        del sys.modules[name]
        testing.fresh()
        linecache.clearcache()


def value_of(module, value):
    """A drawn value as plain Python has it."""
    if isinstance(value, Entity):
        return testing.named(getattr(module, value.class_name), value.key)
    return [value_of(module, item) for item in value] if isinstance(value, list) else value


def in_json(value):
    """How a value stands in a reply."""
    if isinstance(value, list):
        return [in_json(item) for item in value]
    if value is None or isinstance(value, (bool, str)):
        return value
    if isinstance(value, int):
        return value if -(2**63) <= value < 2**63 else str(value)
    return world.keys[value]


def outcome_of(module, request):
    """What a request gives."""
    entity_class = getattr(module, request["class"])
    if "new" in request:
        return entity_class(*[value_of(module, value) for value in request["new"]])
    entity = testing.named(entity_class, request["key"])
    return getattr(entity, request["method"])(*[value_of(module, value) for value in request["args"]])


def reply_to(module, request, place):
    """The reply to the request at this place of the history."""
    try:
        return {"id": request["id"], "ok": in_json(outcome_of(module, request)), "seq": place}
    except Exception as failed:
        return {"error": type(failed).__name__, "id": request["id"], "message": str(failed), "seq": place}


def replies(module, requests):
    """The replies to requests that run one after another, from the state without entities."""
    testing.fresh()
    return [reply_to(module, request, place) for place, request in enumerate(requests, 1)]
