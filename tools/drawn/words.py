"""What the words of a call ask for: a second reading of the page on commands, docs/COMMANDS.md."""

import re
from dataclasses import dataclass, field

FILE_COMMANDS = ["check", "compile", "local"]
NUMBERS = {"batch": (1, 256), "partitions": (1, 64), "schedule": (0, 2**64 - 1), "history": (1, 2**32 - 1), "every": (1, 2**16 - 1), "number": (0, 2**64 - 1), "size": (1, 100_000)}
OPTIONS = {"run": ["batch", "partitions", "schedule", "history", "store", "every"], "gen": ["number", "size", "batch", "partitions"], "export": ["store"]}
FLAGS = ["reorder", "trace"]
NEEDED = {"gen": ["number", "size"], "export": ["store"]}
FILES = {**dict.fromkeys([*FILE_COMMANDS, "run", "export"], 1), "gen": 0, "audit": 2}
USAGE = b"usage: stateflow check FILE | compile FILE | local FILE | run FILE [options] | gen [options] | audit FILE RUN | export FILE --store DIR\n"


@dataclass
class Asked:
    command: str
    files: list = field(default_factory=list)
    given: dict = field(default_factory=dict)
    flags: list = field(default_factory=list)

    def words(self):
        """The same in one form: the options behind, each as two words, and numbers without zeros in front."""
        words = [self.command, *self.files]
        for name, value in sorted(self.given.items()):
            words += [f"--{name}={value}"] if name == "store" else [f"--{name}", str(value)]
        return words + [f"--{name}" for name in sorted(self.flags)]


def number_of(name, text):
    """A number in the range of its option, or None."""
    if not re.fullmatch(r"[0-9]{1,20}", text):
        return None
    low, high = NUMBERS[name]
    return int(text) if low <= int(text) <= high else None


def value_of(name, text):
    """What an option takes, or None."""
    if name == "store":
        return text if text not in ("", "-") else None
    return number_of(name, text)


def parts_of(words):
    """The words that are no options, and the options with the texts that stand behind `=` or in the next word; None where a word stands for nothing."""
    plain, options, at = [], [], 0
    while at < len(words):
        word = words[at]
        at += 1
        if word in ("", "-", "--"):
            return None
        if not word.startswith("-"):
            plain.append(word)
            continue
        if not word.startswith("--"):
            return None
        name, equals, text = word[2:].partition("=")
        if not equals and name not in FLAGS:
            if at == len(words) or words[at].startswith("-"):
                return None
            text = words[at]
            at += 1
        options.append((name, bool(equals), text))
    return plain, options


def asked(words):
    """What these words ask for, or None where they are none that a call takes."""
    if not words or words[0] not in FILES:
        return None
    command, parts = words[0], parts_of(words[1:])
    if parts is None:
        return None
    plain, options = parts
    if len(plain) != FILES[command]:
        return None
    found = Asked(command, plain)
    for name, equals, text in options:
        if name in FLAGS and command == "run" and not equals and name not in found.flags:
            found.flags.append(name)
            continue
        if name not in OPTIONS.get(command, []) or name in found.given:
            return None
        found.given[name] = value_of(name, text)
    if None in found.given.values() or any(name not in found.given for name in NEEDED.get(command, [])):
        return None
    return found
