"""The blocks of the page of this client: each is carried out, and each value is that of the comment behind it."""

from __future__ import annotations

import ast
import contextlib
import os
import re
import textwrap
import unittest
from collections.abc import Callable
from typing import Any

import pazturrok
from lib.places import TOP
from pazturrok import StoreError
from support import PROGRAM, StoreTest, said

PAGE = os.path.join(TOP, "clients", "python", "README.md")
LEFT_OUT = ("EmbeddedStore", "EmbeddedMessageStore", "ssl.", "asyncio", "unittest")
"""Blocks with these want the library, certificates or a program round them."""


def blocks_of(page: str) -> list[str]:
    """The blocks of Python. One that is indented goes on with the one before it."""
    found: list[str] = []
    for block in re.findall(r"(?ms)^```python\n(.*?)^```$", page):
        if block.startswith(" "):
            found[-1] += block
        else:
            found.append(block)
    return [block for block in found if not any(word in block for word in LEFT_OUT)]


def comment_of(line: str) -> str:
    """What stands behind the last mark of a comment in a line."""
    found = re.search(r"  # (.*)$", line)
    return found[1] if found else ""


def wanted_of(comment: str, names: dict[str, Any]) -> list[Any]:
    """The value that a comment tells, before a comma or a colon with words; nothing where it is all words."""
    for end in [len(comment), *(found.start() for found in re.finditer(r"[,:] ", comment))]:
        with contextlib.suppress(Exception):
            return [eval(comment[:end].replace("..", "..."), dict(names))]  # pylint: disable=eval-used
    return []


def is_as_wanted(value: Any, wanted: Any) -> bool:
    """Whether this is the value; in a list `..` stands for any objects between two others."""
    if isinstance(value, list) and isinstance(wanted, list) and Ellipsis in wanted:
        place = wanted.index(Ellipsis)
        rest = len(wanted) - place - 1
        return value[:place] == wanted[:place] and value[len(value) - rest :] == wanted[place + 1 :]
    return bool(value == wanted and (isinstance(value, bool) == isinstance(wanted, bool)))


class Watched(ast.NodeTransformer):
    """Has the value of each expression that stands for itself looked at, but for those within a function."""

    def visit_FunctionDef(self, node: ast.FunctionDef) -> ast.FunctionDef:  # pylint: disable=invalid-name
        return node

    def visit_Expr(self, node: ast.Expr) -> ast.Expr:  # pylint: disable=invalid-name
        taken = ast.Lambda(ast.arguments([], [], None, [], [], None, []), node.value)
        call = ast.Call(ast.Name("look", ast.Load()), [ast.Constant(node.end_lineno), taken], [])
        return ast.fix_missing_locations(ast.copy_location(ast.Expr(call), node))


class Page(StoreTest):
    def setUp(self) -> None:
        super().setUp()
        before = os.getcwd()
        os.chdir(self.folder)
        self.addCleanup(os.chdir, before)
        self.compared = 0
        self.make_with_operators("store")

    def look_at(self, lines: list[str], names: dict[str, Any]) -> Callable[[int, Callable[[], Any]], None]:
        """What looks at the value of the expression that ends in a line: it has to be that of the comment."""

        def look(number: int, taken: Callable[[], Any]) -> None:
            line, after = lines[number - 1], (lines[number].strip() if number < len(lines) else "")
            try:
                value = taken()
            except StoreError as error:
                if not after.startswith("# "):
                    raise
                self.assertEqual(after[2:].replace(f" ({getattr(error, 'reason', None)})", ""), f"{type(error).__name__}: {said(error)}")
                self.compared += 1
                return
            if "print(" in line:
                self.assertTrue(comment_of(line).startswith(value), (line, value))
            for wanted in wanted_of(comment_of(line), names) if "print(" not in line else ():
                self.assertTrue(is_as_wanted(value, wanted), (line, value))
                self.compared += 1

        return look

    def test_each_block(self) -> None:
        with open(PAGE, encoding="utf-8") as file:
            blocks = blocks_of(file.read())
        names: dict[str, Any] = {name: getattr(pazturrok, name) for name in pazturrok.__all__}
        with self.node() as place:
            for block in blocks:
                text = textwrap.dedent(block).replace("/PATH/pazturrok", PROGRAM).replace(', options=["--operators"]', "")
                text = re.sub(r"unix:/[a-z./]+", place, text)
                names.update(look=self.look_at(text.split("\n"), names), print=lambda *words: " ".join(map(str, words)))
                exec(compile(Watched().visit(ast.parse(text)), PAGE, "exec"), names)  # pylint: disable=exec-used
        self.assertGreater(self.compared, 25)


if __name__ == "__main__":
    unittest.main()
