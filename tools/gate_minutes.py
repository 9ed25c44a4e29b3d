#!/usr/bin/env python3
"""What a gate takes: minutes of one processor by crate, for its proof, its tests and its edits.

    tools/gate_minutes.py run FOLDER [NAME..]   runs `rt ci [NAME..]` at the top of the repository; FOLDER gets its log and its times
    tools/gate_minutes.py table FOLDER..        prints the table of these runs, each over what those before it kept

The processes of the toolchain are looked at four times a second: each names its crate, `--test` tells a proof of tests, and an edit is
tried on a copy in a temporary folder. What lies between the last look at a process and its end, and what is no proof (layout, links,
runs), is in the row `other`, which is what the system counted for the whole run less the rows. A run that is cut off leaves the times so far.
Where there are several runs, a proof that was cut off in one was done whole in another, so the longest counts; edits add up.
"""
import json
import os
import resource
import subprocess
import sys
import time
from collections import defaultdict
from pathlib import Path

TOP = Path(__file__).resolve().parent.parent
PARTS = ("proof", "tests", "edits")
LOOKS_A_SECOND = 4
TICKS_A_SECOND = os.sysconf("SC_CLK_TCK")
BUDGET_MINUTES = 400


def processes_of(session):
    """The processes of a session, each as its number and start, its seconds of a processor, and its folder in /proc."""
    for folder in Path("/proc").glob("[0-9]*"):
        try:
            fields = (folder / "stat").read_text().rpartition(")")[2].split()
        except OSError:
            continue
        if int(fields[3]) == session:
            seconds = (int(fields[11]) + int(fields[12])) / TICKS_A_SECOND
            yield (folder.name, fields[19]), seconds, folder


def place_of(folder):
    """The crate and the part that a process of the toolchain works for, or None for another process."""
    try:
        words = (folder / "cmdline").read_bytes().decode(errors="replace").split("\0")
        room = os.readlink(folder / "cwd")
    except OSError:
        return None
    if "--crate-name" not in words:
        return None
    crate = words[words.index("--crate-name") + 1]
    if os.path.basename(room).startswith("rt-edit-"):
        return crate, "edits"
    return crate, "tests" if "--test" in words else "proof"


class Watch:
    """The seconds that each process of a session was seen to have taken, by what it worked for."""

    def __init__(self, session):
        self.session = session
        self.places = {}
        self.seconds = {}

    def look(self):
        for process, seconds, folder in processes_of(self.session):
            # (a process that was just started has no words of its own yet)
            if self.places.get(process) is None:
                self.places[process] = place_of(folder)
            self.seconds[process] = seconds

    def sums(self):
        sums = defaultdict(float)
        for process, place in self.places.items():
            if place:
                sums[place] += self.seconds[process]
        return sums


def write_times(file, watch, whole, elapsed):
    rows = [[crate, part, round(seconds, 1)] for (crate, part), seconds in sorted(watch.sums().items())]
    file.write_text(json.dumps({"rows": rows, "whole": whole, "elapsed": round(elapsed, 1)}) + "\n")


def run(folder, names):
    folder.mkdir(parents=True, exist_ok=True)
    began = time.monotonic()
    with open(folder / "gate.log", "wb") as log:
        gate = subprocess.Popen(["rt", "ci", *names], cwd=TOP, stdin=subprocess.DEVNULL, stdout=log, stderr=subprocess.STDOUT, start_new_session=True)
        watch, looks = Watch(gate.pid), 0
        while gate.poll() is None:
            watch.look()
            looks += 1
            if looks % (60 * LOOKS_A_SECOND) == 0:
                write_times(folder / "times.json", watch, None, time.monotonic() - began)
            time.sleep(1 / LOOKS_A_SECOND)
    used = resource.getrusage(resource.RUSAGE_CHILDREN)
    write_times(folder / "times.json", watch, round(used.ru_utime + used.ru_stime, 1), time.monotonic() - began)
    print((folder / "gate.log").read_text(errors="replace").rstrip().rpartition("\n")[2])
    return gate.returncode


def minutes(seconds):
    return f"{seconds / 60:.1f}" if seconds else "–"


def times_of(folders):
    """The seconds by crate and part, and what of the runs belongs to none."""
    sums, other = defaultdict(float), 0.0
    for folder in folders:
        told = json.loads((folder / "times.json").read_text())
        rows = told["rows"]
        for crate, part, seconds in rows:
            sums[crate, part] = sums[crate, part] + seconds if part == "edits" else max(sums[crate, part], seconds)
        other += (told["whole"] or 0) - sum(row[2] for row in rows) if told["whole"] else 0
    return sums, max(other, 0.0)


def table(folders):
    sums, other = times_of(folders)
    of_crate = defaultdict(float)
    for (crate, _part), seconds in sums.items():
        of_crate[crate] += seconds
    print("| Crate | Proof | Tests | Edits | All |")
    print("|---|---|---|---|---|")
    for crate in sorted(of_crate, key=lambda it: (-of_crate[it], it)):
        print(f"| `{crate}` | " + " | ".join(minutes(sums[crate, part]) for part in PARTS) + f" | {minutes(of_crate[crate])} |")
    in_parts = [sum(seconds for (_crate, of), seconds in sums.items() if of == part) for part in PARTS]
    whole = sum(in_parts) + other
    print(f"| other | | | | {minutes(other)} |")
    print("| all | " + " | ".join(map(minutes, in_parts)) + f" | {minutes(whole)} |")
    print(f"| left for new crates, of {BUDGET_MINUTES} | | | | {minutes(BUDGET_MINUTES * 60 - whole)} |")
    return 0


def main(words):
    match words:
        case ["run", folder, *names]:
            return run(Path(folder), names)
        case ["table", _, *_]:
            return table([Path(word) for word in words[1:]])
    print(__doc__, file=sys.stderr)
    return 2


if __name__ == "__main__":
    sys.exit(main(sys.argv[1:]))
