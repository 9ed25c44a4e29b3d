"""What the pages show is what the files are: PYTHONPATH=python STATEFLOW=./stateflow python3 python/tests/test_pages.py, at the top of the repository.

Without a program what needs none is looked at, and the rest is skipped.
"""

import os
import re
import subprocess
import sys
import tempfile
import textwrap
import unittest
from pathlib import Path
from typing import List

from stateflow.client import find_program
from tests.programs import has_program

TOP = Path(__file__).resolve().parents[2]
STOCK = TOP / "examples" / "stock"


def text_of(page: str) -> str:
    return (TOP / page).read_text(encoding="utf-8")


def python_in(page: str) -> List[str]:
    """The texts in Python on a page, from left to right."""
    return [textwrap.dedent(text) for text in re.findall(r"```python\n(.*?)```", text_of(page), re.S)]


class Readme(unittest.TestCase):
    def test_its_program_is_the_example(self) -> None:
        self.assertEqual(python_in("README.md")[0], (STOCK / "stock.py").read_text(encoding="utf-8"))

    def test_its_session_is_that_of_the_example(self) -> None:
        rows = re.findall(r"^\| `(\{.*?\})` \| `(\{.*?\})` \|$", text_of("README.md"), re.M)
        files = [(STOCK / name).read_text(encoding="utf-8").splitlines() for name in ("requests.jsonl", "replies.jsonl")]
        self.assertEqual(rows, list(zip(*files)))


@unittest.skipUnless(has_program(), "no program: set STATEFLOW to one")
class Operations(unittest.TestCase):
    def test_its_teller_prints_what_it_says(self) -> None:
        environment = {**os.environ, "PYTHONPATH": str(TOP / "python"), "STATEFLOW": find_program()}
        with tempfile.TemporaryDirectory() as room:
            (Path(room) / "examples").symlink_to(TOP / "examples")
            (Path(room) / "bank.store").mkdir()
            words = [sys.executable, "-c", python_in("docs/OPERATIONS.md")[0]]
            ended = subprocess.run(words, env=environment, cwd=room, capture_output=True, text=True, timeout=60)
        self.assertEqual((ended.stdout, ended.stderr), ("70\nValueError: not enough money\n", ""))

    def test_its_ledger_has_an_entity_for_each_entry(self) -> None:
        lines = [
            '{"id":"1","class":"Account","new":["ann"]}',
            '{"id":"2","class":"Account","key":"ann","method":"put","args":[5]}',
            '{"id":"3","class":"Entry","key":"ann/1","method":"amount","args":[]}',
        ]
        with tempfile.TemporaryDirectory() as room:
            file = Path(room) / "ledger.py"
            file.write_text(python_in("docs/OPERATIONS.md")[1], encoding="utf-8")
            words = [find_program(), "run", str(file), "--batch", "1"]
            ended = subprocess.run(words, input="\n".join(lines), capture_output=True, text=True, timeout=60)
        self.assertEqual(
            ended.stdout.splitlines(),
            ['{"id":"1","ok":"ann","seq":1}', '{"id":"2","ok":"ann/1","seq":2}', '{"id":"3","ok":5,"seq":3}'],
        )


if __name__ == "__main__":
    unittest.main()
