"""Each recipe of docs/RECIPES.md, run as it is printed: lines with `$ ` by a shell, lines with `>>> ` by Python."""
from __future__ import annotations

import doctest
import os
import subprocess
import tempfile
import unittest
from dataclasses import dataclass
from pathlib import Path

from spqr_program import program_path

ROOT = Path(__file__).resolve().parent.parent.parent
RECIPES = ROOT / "docs" / "RECIPES.md"


@dataclass(frozen=True)
class Typed:
    """A command of a shell in the page: the number of its line, its words, and what is printed below it."""
    line: int
    command: str
    output: str


def typed(text: str) -> list[Typed]:
    """The commands: lines indented by four that begin with `$ `, each with the indented lines below it."""
    found: list[Typed] = []
    inside = False
    for number, line in enumerate(text.splitlines(), 1):
        if line.startswith("    $ "):
            found.append(Typed(number, line[6:], ""))
            inside = True
        elif inside and line.startswith("    "):
            found[-1] = Typed(found[-1].line, found[-1].command, found[-1].output + line[4:] + "\n")
        else:
            inside = False
    return found


class Recipes(unittest.TestCase):

    def setUp(self) -> None:
        """A folder like that of the repository, with the program as `spqr`, so that nothing is written into the repository."""
        folder = tempfile.TemporaryDirectory()
        self.addCleanup(folder.cleanup)
        self.folder = folder.name
        for name in ("tools", "examples"):
            os.symlink(ROOT / name, Path(self.folder, name))
        os.symlink(os.path.abspath(program_path()), Path(self.folder, "spqr"))

    def test_shell(self) -> None:
        commands = typed(RECIPES.read_text())
        self.assertGreater(len(commands), 15)
        for one in commands:
            with self.subTest(line=one.line):
                ran = subprocess.run(["bash", "-c", one.command], cwd=self.folder, capture_output=True, check=False)
                self.assertEqual((ran.stdout.decode(), ran.stderr.decode()), (one.output, ""))

    def test_python(self) -> None:
        here = os.getcwd()
        os.chdir(self.folder)
        try:
            result = doctest.testfile(str(RECIPES), module_relative=False, verbose=False)
        finally:
            os.chdir(here)
        self.assertGreater(result.attempted, 25)
        self.assertEqual(result.failed, 0)

    def test_each_recipe_has_something_to_run(self) -> None:
        for part in RECIPES.read_text().split("\n## ")[1:]:
            self.assertTrue("\n    $ " in part or "\n    >>> " in part, part[:40])


if __name__ == "__main__":
    unittest.main()
