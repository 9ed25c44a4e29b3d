"""Whether there is a program to try."""

from stateflow.client import find_program


def has_program() -> bool:
    try:
        find_program()
    except FileNotFoundError:
        return False
    return True
