"""What `describe` prints of a program."""

import contextlib
import io
import json
import tempfile
import unittest
from pathlib import Path
from typing import Any

from stateflow.__main__ import main
from stateflow.describe import description_of, openapi_of
from stateflow.language.program import read

PROGRAM = '''"""A shop."""
from typing import List, Optional
from stateflow import entity

@entity
class Item:
    """What is sold."""
    def __init__(self, name: str, price: int):
        self.name: str = name
        self.price: int = price
    def __key__(self) -> str:
        return self.name
    def cost(self, amount: int) -> int:
        """What so many cost.

        In cents."""
        return amount * self.price
    def set_price(self, price: int) -> None:
        self.price = price

@entity
class Cart:
    def __init__(self, owner: str):
        self.owner: str = owner
        self.items: List[Item] = []
    def __key__(self) -> str:
        return self.owner
    def first(self, least: Optional[int]) -> Optional['Item']:
        for item in self.items:
            if least is None or item.cost(1) >= least:
                return item
        return None
    def cheaper(self, item: Item, by: int) -> None:
        item.set_price(item.cost(1) - by)
    def offer(self, name: str) -> Item:
        return Item(name, 1)
'''
ITEM = {
    "name": "Item",
    "text": "What is sold.",
    "key": "name",
    "fields": [{"name": "name", "type": "str"}, {"name": "price", "type": "int"}],
    "new": [{"name": "name", "type": "str"}, {"name": "price", "type": "int"}],
    "methods": [
        {
            "name": "cost",
            "text": "What so many cost.\n\nIn cents.",
            "parameters": [{"name": "amount", "type": "int"}],
            "result": "int",
            "changes": False,
        },
        {"name": "set_price", "parameters": [{"name": "price", "type": "int"}], "result": "None", "changes": True},
    ],
}


def page() -> dict[str, Any]:
    return openapi_of(description_of(read(PROGRAM.encode())), "shop")


class Description(unittest.TestCase):
    def test_classes_and_methods_in_text_order(self) -> None:
        described = description_of(read(PROGRAM.encode()))
        self.assertEqual(described["text"], "A shop.")
        self.assertEqual(described["classes"][0], ITEM)
        self.assertEqual([found["name"] for found in described["classes"]], ["Item", "Cart"])

    def test_types_are_written_as_in_the_program(self) -> None:
        cart = description_of(read(PROGRAM.encode()))["classes"][1]
        self.assertEqual(cart["fields"][1], {"name": "items", "type": "List[Item]"})
        self.assertEqual(cart["methods"][0]["parameters"], [{"name": "least", "type": "Optional[int]"}])
        self.assertEqual(cart["methods"][0]["result"], "Optional[Item]")

    def test_what_calls_a_method_that_changes_something_may_change_it(self) -> None:
        cart = description_of(read(PROGRAM.encode()))["classes"][1]
        self.assertEqual({method["name"]: method["changes"] for method in cart["methods"]}, {"first": False, "cheaper": True, "offer": True})


class Page(unittest.TestCase):
    def test_a_path_for_each_creation_and_method(self) -> None:
        paths = ["/Item", "/Item/{key}/cost", "/Item/{key}/set_price", "/Cart", "/Cart/{key}/first", "/Cart/{key}/cheaper", "/Cart/{key}/offer"]
        self.assertEqual(list(page()["paths"]), paths)
        self.assertEqual(page()["paths"]["/Item/{key}/cost"]["post"]["summary"], "What so many cost.")

    def test_arguments_and_results_have_schemas(self) -> None:
        first = page()["paths"]["/Cart/{key}/first"]["post"]
        body = first["requestBody"]["content"]["application/json"]["schema"]
        least = {"title": "least", "anyOf": [{"$ref": "#/components/schemas/IntArgument"}, {"type": "null"}]}
        self.assertEqual(body, {"type": "array", "prefixItems": [least], "items": False, "minItems": 1, "maxItems": 1})
        result = first["responses"]["200"]["content"]["application/json"]["schema"]["properties"]["ok"]
        self.assertEqual(result, {"anyOf": [{"type": "string", "description": "the key of an entity of Item"}, {"type": "null"}]})

    def test_every_reference_leads_somewhere(self) -> None:
        whole = page()
        text = json.dumps(whole)
        for reference in {part.split('"')[0] for part in text.split('"$ref": "#/')[1:]}:
            place: Any = whole
            for word in reference.split("/"):
                place = place[word]


class Command(unittest.TestCase):
    def described(self, text: str, *more: str) -> tuple[int, str, str]:
        out, err = io.StringIO(), io.StringIO()
        with tempfile.TemporaryDirectory() as folder, contextlib.redirect_stdout(out), contextlib.redirect_stderr(err):
            file = Path(folder) / "shop.py"
            file.write_text(text, encoding="utf-8")
            status = main(["describe", str(file), *more])
        return status, out.getvalue(), err.getvalue()

    def test_what_is_printed_is_json(self) -> None:
        status, out, err = self.described(PROGRAM)
        self.assertEqual((status, json.loads(out)["classes"][0], err), (0, ITEM, ""))
        status, out, err = self.described(PROGRAM, "--openapi")
        self.assertEqual((status, json.loads(out), err), (0, page(), ""))

    def test_a_program_that_is_refused_is_not_described(self) -> None:
        status, out, err = self.described("x = 1\n")
        self.assertEqual((status, out), (1, ""))
        self.assertIn("a program is imports and classes alone", err)


if __name__ == "__main__":
    unittest.main()
