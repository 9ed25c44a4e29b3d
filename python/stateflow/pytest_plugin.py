"""A fixture for pytest: class files that are served by the real program, each on a folder of its own.

A test suite takes it by a line in its conftest.py:

    pytest_plugins = ["stateflow.pytest_plugin"]

and a test by the fixture's name:

    def test_a_transfer(serve_stateflow):
        bank = serve_stateflow("bank.py")
        bank.create("Account", "ann", 100)

Where there is no program, such a test is skipped. The module can be imported without pytest.
"""

import contextlib
import importlib
import importlib.util
import tempfile
from pathlib import Path
from typing import Any, Callable, Iterator, Union

from stateflow.client import Client, find_program

Serve = Callable[..., Client]


@contextlib.contextmanager
def served() -> Iterator[Serve]:
    """Gives a function that serves a class file with options of `run`; at the end all that it served is closed, and their folders are removed."""
    with contextlib.ExitStack() as ending:

        def serve(file: Union[str, Path], *options: str) -> Client:
            folder = ending.enter_context(tempfile.TemporaryDirectory(prefix="stateflow-"))
            return ending.enter_context(Client(file, folder, options=options))

        yield serve


def serve_stateflow() -> Iterator[Serve]:
    """Serves class files for one test."""
    try:
        find_program()
    except FileNotFoundError as missing:
        importlib.import_module("pytest").skip(str(missing))
    with served() as serve:
        yield serve


def _as_fixture(function: Callable[[], Iterator[Serve]]) -> Any:
    """The function as a fixture where pytest is installed, and else the function."""
    if importlib.util.find_spec("pytest") is None:
        return function
    return importlib.import_module("pytest").fixture(function)


serve_stateflow = _as_fixture(serve_stateflow)
