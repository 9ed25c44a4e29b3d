"""What a program told a folder to write, call by call, and what a stop at each moment may leave there."""

import dataclasses
import re
import subprocess

from drawn.stores import FILES

CALL = re.compile(r"(?:\d+ +)?(\w+)\((.*)\) += (-?\d+)")
TRACED = "openat,lseek,write,pwrite64,ftruncate,fsync,fdatasync,close"
OUTPUT = 1


@dataclasses.dataclass(frozen=True)
class Write:
    """Bytes written to a file of the store."""

    file: str
    at: int
    content: bytes


@dataclasses.dataclass(frozen=True)
class Sync:
    """A file was made safe."""

    file: str


@dataclasses.dataclass(frozen=True)
class Print:
    """Bytes written to the output."""

    content: bytes


def text_in(word):
    """The bytes of a string that strace wrote in hexadecimal."""
    return bytes.fromhex(re.search(r'"((?:\\x[0-9a-f]{2})*)"', word).group(1).replace("\\x", ""))


class Trace:
    """The calls of a run, read line by line: which file each descriptor is, and where it stands."""

    def __init__(self):
        self.files, self.places, self.calls = {}, {}, []

    def take(self, name, words, result):
        number = words.split(",")[0].strip()
        if name == "openat" and result >= 0:
            self.files[result] = text_in(words).decode(errors="replace").rsplit("/", 1)[-1]
            self.places[result] = 0
            return
        if not number.isdigit() or result < 0:
            return
        descriptor = int(number)
        file = self.files.get(descriptor)
        if name == "close":
            self.files.pop(descriptor, None)
        elif name == "lseek":
            self.places[descriptor] = result
        elif name in ("fsync", "fdatasync") and file in FILES:
            self.calls.append(Sync(file))
        elif name in ("write", "pwrite64"):
            self.wrote(name, descriptor, words, result)
        elif name == "ftruncate" and file in FILES:
            raise ValueError("a file of the store was cut")

    def wrote(self, name, descriptor, words, count):
        content = text_in(words)[:count]
        if descriptor == OUTPUT:
            self.calls.append(Print(content))
            return
        at = int(words.rsplit(",", 1)[1]) if name == "pwrite64" else self.places[descriptor]
        if name == "write":
            self.places[descriptor] += count
        if self.files.get(descriptor) in FILES:
            self.calls.append(Write(self.files[descriptor], at, content))


def traced(words, lines, log):
    """The calls of a run with this input, and how it ended; strace writes them to a log."""
    strace = ["strace", "-f", "-xx", "-s", str(2**24), "-e", f"trace={TRACED}", "-o", log]
    call = subprocess.run([*strace, *words], input=lines, capture_output=True, check=False)
    trace = Trace()
    with open(log, encoding="ascii") as text:
        for line in text:
            found = CALL.match(line)
            if found:
                trace.take(found[1], found[2], int(found[3]))
    return trace.calls, call


class File:
    """A file of the store: what a read gives, what was safe at the last sync, and the ranges that were written since."""

    def __init__(self, content):
        self.seen, self.safe, self.ranges = content, content, []

    def write(self, at, content):
        if content:
            self.seen = self.seen[:at].ljust(at, b"\0") + content + self.seen[at + len(content) :]
            self.ranges.append((at, at + len(content)))

    def sync(self):
        self.safe, self.ranges = self.seen, []

    def is_open(self, place):
        """Whether a stop may leave any byte at this place."""
        return place >= len(self.safe) or any(begin <= place < end for begin, end in self.ranges)

    def left(self, chance):
        """What a stop leaves: any length from the safe end to the written one, and any bytes where something was written."""
        if not self.ranges:
            return self.seen
        length = chance.choice([len(self.safe), len(self.seen), chance.randint(len(self.safe), max(len(self.safe), len(self.seen)))])
        fill, step = chance.choice(FILLS), chance.choice([1, 7, 16, 512])
        image = bytearray(self.seen[:length])
        for begin in range(0, length, step):
            way = fill if fill != "mixed" else chance.choice(FILLS[:-1])
            for place in filter(self.is_open, range(begin, min(begin + step, length))):
                image[place] = self.byte(chance, way, place)
        return bytes(image)

    def byte(self, chance, way, place):
        if way == "new":
            return self.seen[place]
        if way == "old":
            return self.safe[place] if place < len(self.safe) else 0
        return chance.randrange(256) if way == "any" else way


FILLS = ["new", "old", 0x00, 0xA5, "any", "mixed"]


class Disk:
    """The files of a store, as the calls so far made them."""

    def __init__(self, contents):
        self.files = {name: File(contents[name]) for name in FILES}

    def take(self, call):
        if isinstance(call, Write):
            self.files[call.file].write(call.at, call.content)
        elif isinstance(call, Sync):
            self.files[call.file].sync()

    def left(self, chance):
        return {name: file.left(chance) for name, file in self.files.items()}
