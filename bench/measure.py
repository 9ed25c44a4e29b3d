"""Runs processes, and tells what each took."""

import os
import resource
import subprocess
import time
from typing import NamedTuple

SECONDS_ALLOWED = 3_600


class Run(NamedTuple):
    """What a process took, and how it ended."""

    seconds: float  # of user and system
    elapsed: float
    peak: float  # in megabytes, of resident memory
    status: int  # below zero where a signal ended it
    error: str  # the first line of the error stream


def limit_time():
    """Ends the process by a signal where it takes more than is allowed."""
    resource.setrlimit(resource.RLIMIT_CPU, (SECONDS_ALLOWED, SECONDS_ALLOWED))


def wait_for(process):
    """The status of a process, and what it used."""
    _, status, usage = os.wait4(process.pid, 0)
    process.returncode = os.waitstatus_to_exitcode(status)
    return process.returncode, usage


def first_line(file):
    with open(file, encoding="utf-8", errors="replace") as lines:
        return lines.readline().strip()


def run(words, source, out, err):
    """Runs a process on files: what it reads, what it writes, and its error stream."""
    with open(source, "rb") as stdin, open(out, "wb") as stdout, open(err, "wb") as stderr:
        begun = time.monotonic()
        process = subprocess.Popen(words, stdin=stdin, stdout=stdout, stderr=stderr, preexec_fn=limit_time)
        status, usage = wait_for(process)
        elapsed = time.monotonic() - begun
    peak = usage.ru_maxrss * 1024 / 1e6
    return Run(usage.ru_utime + usage.ru_stime, elapsed, peak, status, first_line(err))


def least_peak():
    """What is told of a process that needs nearly nothing: until it begins it has the memory of the one that starts it."""
    return run(["true"], os.devnull, os.devnull, os.devnull).peak


def middle(numbers):
    """The middle one of the numbers, and of an even count the lower of the two."""
    return sorted(numbers)[(len(numbers) - 1) // 2]
