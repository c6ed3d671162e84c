"""The defaults of Python's calls are those of the table in README.md."""

import ast
import inspect
import re
import unittest

import polyover

from .inputs import ROOT

TABLE = re.compile(r"^\| \| Rattle \|.*?(?=\n\n)", re.M | re.S)
SAID = re.compile(r"`(\w+)=(.*?)`")


class Defaults(unittest.TestCase):
    """What a call takes where nothing is said."""

    def test_defaults_are_those_of_readme(self):
        rows = [line.split("|") for line in TABLE.search((ROOT / "README.md").read_text())[0].splitlines()]
        at = [cell.strip() for cell in rows[0]].index("Python")
        said = dict(SAID.search(row[at]).groups() for row in rows[2:])
        told = {name: ast.literal_eval(value) for name, value in said.items()}
        self.assertEqual(sorted(told), ["fill", "minimum_area", "ogc", "solver"])
        for call in (polyover.overlay, polyover.hierarchy, polyover.simplify):
            parameters = inspect.signature(call).parameters
            self.assertEqual({name: parameters[name].default for name in told}, told, call)


if __name__ == "__main__":
    unittest.main()
