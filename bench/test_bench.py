"""The yardstick without a program: python3 bench/test_bench.py."""

import ast
import json
import sys
import tempfile
import unittest
from pathlib import Path

import in_memory
import in_sqlite
import inputs
import instructions
import measure
import replay
import sides
import tables

ACCOUNTS, MOVES = 20, 300


def bank_classes(folder):
    """The classes of the bank, by a file of this folder."""
    file = Path(folder) / "measured_bank.py"
    file.write_text(inputs.bank_program(sides.BANK.read_text(encoding="utf-8")), encoding="utf-8")
    return in_memory.load(str(file))


def last_two_swapped(lines):
    return [*lines[:-2], lines[-1], lines[-2]]


class Bench(unittest.TestCase):
    @classmethod
    def setUpClass(cls):
        cls.room = tempfile.TemporaryDirectory()
        cls.classes = bank_classes(cls.room.name)
        cls.lines = list(inputs.bank_lines(ACCOUNTS, MOVES))
        cls.replies = list(in_memory.serve(cls.classes, cls.lines))

    @classmethod
    def tearDownClass(cls):
        cls.room.cleanup()


class TheInputs(Bench):
    def test_they_are_the_same_each_time(self):
        self.assertEqual(self.lines, list(inputs.bank_lines(ACCOUNTS, MOVES)))

    def test_ids_are_unique(self):
        self.assertEqual(len(replay.by_id(self.lines)), 2 * ACCOUNTS + MOVES)

    def test_some_moves_are_made_and_some_are_not(self):
        oks = [json.loads(reply)["ok"] for reply in self.replies]
        self.assertIn(True, oks)
        self.assertIn(False, oks)

    def test_a_dense_program_has_its_length_and_what_is_told_of_it(self):
        for calls in (False, True):
            text, told = inputs.dense_program(calls, 150_000)
            classes = ast.parse(text).body[2:]
            methods = [code for cls in classes for code in cls.body if not code.name.startswith("__")]
            self.assertEqual(len(text.encode()), 150_000)
            self.assertEqual(told, f"ok: {len(classes)} classes, {len(methods)} methods\n")
            self.assertGreater(len(classes), 1)


class TheTwoSides(Bench):
    def test_replies_of_the_example(self):
        lines, replies = ((sides.BANK.parent / name).read_text().splitlines(True) for name in ("requests.jsonl", "replies.jsonl"))
        self.assertEqual(list(in_memory.serve(self.classes, lines[:4])), replies[:4])

    def test_an_id_that_comes_again(self):
        first, other = self.lines[:2]
        spaced = json.dumps(json.loads(first)) + "\n"
        reused = other.replace('"o2"', '"o1"')
        replies = list(in_memory.serve(self.classes, [first, spaced, reused]))
        self.assertEqual(replies, [replies[0], replies[0], '{"bad":"id reused","line":3}\n'])

    def test_sqlite_replies_the_same(self):
        database = in_sqlite.open_database(":memory:")
        replies = [reply for some in in_sqlite.serve(self.classes, database, self.lines) for reply in some]
        database.close()
        self.assertEqual(replies, self.replies)


class TheReplay(Bench):
    def wrong(self, replies):
        """What is told of these replies."""
        with self.assertRaises(replay.Wrong) as told:
            replay.check(self.classes, replay.by_id(self.lines), replies)
        return str(told.exception)

    def test_another_serial_order_is_right(self):
        asked = [line for line in self.lines if line != "\n"]
        ordered = asked[:ACCOUNTS] + asked[ACCOUNTS:-ACCOUNTS][::-1] + asked[-ACCOUNTS:]
        replay.check(self.classes, replay.by_id(self.lines), list(in_memory.serve(self.classes, ordered)))

    def test_what_is_wrong_is_told(self):
        moved = next(place for place, reply in enumerate(self.replies) if '"ok":true' in reply)
        last = self.replies[-1]
        rows = [
            ("a reply is missing", self.replies[:-1], f"id b{ACCOUNTS} has no reply"),
            ("a reply comes twice", [*self.replies, last], f"id b{ACCOUNTS} has 2 replies"),
            ("a reply to nothing", [*self.replies, '{"id":"x","ok":1,"seq":9}\n'], "id x has a reply and no request"),
            ("a refusal", ['{"bad":"not json","line":1}\n', *self.replies], "line 1 is no reply"),
            ("another outcome", [reply.replace("true", "false") for reply in self.replies], f"line {moved + 1} is "),
            ("places out of order", last_two_swapped(self.replies), f"line {len(self.replies) - 1} is "),
            ("a line that is cut", [*self.replies[:-1], last[:-1]], f"line {len(self.replies)} is "),
            ("another balance", [*self.replies[:-1], last.replace('"ok":', '"ok":1')], f"line {len(self.replies)} is "),
        ]
        for name, replies, told in rows:
            with self.subTest(name):
                self.assertIn(told, self.wrong(replies))

    def test_balances_that_do_not_add_up_are_told(self):
        asked = [line for line in self.lines if line != "\n"]
        ordered = [*asked[:ACCOUNTS], asked[-1], *asked[ACCOUNTS:-1]]
        replies = list(in_memory.serve(self.classes, ordered))
        self.assertIn("together where", self.wrong(replies))


class TheFigures(unittest.TestCase):
    def test_the_middle(self):
        self.assertEqual([measure.middle(numbers) for numbers in ([3], [2, 1], [9, 1, 5])], [3, 1, 5])

    def test_what_a_process_took(self):
        with tempfile.TemporaryDirectory() as name:
            out, err = Path(name) / "out", Path(name) / "err"
            code = "import sys; sys.stderr.write('one\\ntwo\\n'); print(sum(range(10 ** 6))); sys.exit(3)"
            took = measure.run([sys.executable, "-c", code], "/dev/null", out, err)
            self.assertEqual((took.status, took.error, out.read_text()), (3, "one", "499999500000\n"))
            self.assertGreater(took.seconds, 0)
            self.assertGreater(took.peak, 1)

    def test_the_tables(self):
        one = sides.Side("one", None, None)
        two = sides.Side("two", None, None, "one", 0.5)
        three = sides.Side("three", None, None, "one", 0.5)
        short, long = (sides.Input(name, count, None, [one, two, three]) for name, count in (("short", 100), ("long", 1_000)))
        wrong = tables.Figure(1, 1, 1, "not\nserved")
        first = {"one": tables.Figure(1, 2, 10, ""), "two": tables.Figure(0.5, 1, 5, ""), "three": wrong}
        last = {"one": tables.Figure(20, 30, 90, ""), "two": tables.Figure(15, 16, 9, ""), "three": wrong}
        measured = [(short, first), (long, last)]
        self.assertEqual(
            tables.figure_table(measured)[2:],
            [
                "| short | one | 1.000 | 2.000 | 10.0 | – | – | – |  |",
                "| short | two | 0.500 | 1.000 | 5.0 | one | 0.50 | 0.50 | at most 0.50: met |",
                "| short | three | not served | – | – | one | – | – | at most 0.50 |",
                "| long | one | 20.000 | 30.000 | 90.0 | – | – | – |  |",
                "| long | two | 15.000 | 16.000 | 9.0 | one | 0.75 | 0.10 | at most 0.50: missed |",
                "| long | three | not served | – | – | one | – | – | at most 0.50 |",
            ],
        )
        self.assertEqual(
            tables.growth_table(measured)[2:],
            ["| one | 10000.00 | 20000.00 | 2.00 |", "| two | 5000.00 | 15000.00 | 3.00 |", "| three | – | – | – |"],
        )
        self.assertEqual(tables.growth_table(measured[:1]), [])


# A function calls another one three times; a number in brackets stands for a name that was told before (Valgrind's manual, "Callgrind Format Specification").
COUNTED = """\
events: Ir
fn=(1) source_meaning::run
12 40
cfn=(2) malloc
calls=3 +5
+2 300
* 2
fn=(2)
7 290
+1 10
"""


class Instructions(unittest.TestCase):
    def test_a_function_has_what_it_ran_itself(self):
        with tempfile.NamedTemporaryFile("w", suffix=".out") as file:
            file.write(COUNTED)
            file.flush()
            counts = instructions.read_counts(file.name)
        self.assertEqual(counts.own, {"source_meaning::run": 42, "malloc": 300})
        self.assertEqual(counts.calls, {"malloc": 3})
        self.assertEqual(instructions.by_cause(counts.own), {"the interpreter": 42, "the allocator": 300})


if __name__ == "__main__":
    unittest.main()
