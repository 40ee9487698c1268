"""`explain` on the refused examples, on the cases of cases.py, and on scripts that are refused."""
from __future__ import annotations

import os
import subprocess
import sys
import tempfile
import unittest
from pathlib import Path

from cases import CASES, MORE
from spqr_program import program_path

TOOLS = Path(__file__).resolve().parent.parent
EXAMPLES = TOOLS.parent / "examples"

EXAMPLE_PLACES = {
    "broken_bad": ("gml", 1, 5, "`12a` is not a number"),
    "broken_end": ("gml", 1, 9, "is not closed"),
    "broken_script": ("spqr", 2, 8, "`10001` is out of range"),
    "loop": ("gml", 7, 3, "edge 2 (counted from 0, in the order of the file; its own `id` does not count) is a loop"),
    "refused_edge_bad_end": ("gml", 4, 26, "the `target` of edge 0"),
    "refused_edge_no_end": ("gml", 5, 3, "has no `target`"),
    "refused_more": ("gml", 3, 1, "graph list 2 of the file"),
    "refused_node_bad_id": ("gml", 4, 13, "whole numbers are from"),
    "refused_node_no_id": ("gml", 4, 3, "node 1 (counted from 0, in the order of the file) has no `id`"),
    "refused_none": ("gml", 3, 9, "inside another list"),
    "refused_same_id": ("gml", 4, 13, "has the `id` of node 0"),
    "refused_start_genus": ("gml", 3, 28, "no drawing in the plane"),
    "refused_start_vertex": ("gml", 6, 28, "does not have the edges there, each once"),
    "refused_unknown_end": ("gml", 5, 17, "the id of no node"),
}

# A script, the line and column that are wrong in it, and a part of the explanation.
SCRIPTS = [
    (b"show 0\nShow 0\n", 2, 1, "lower case: show"),
    (b"shwo 0", 1, 1, "is it `show`?"),
    (b"show 0 # the first", 1, 8, "a comment after a command"),
    (b"\xef\xbb\xbfshow 0", 1, 1, "byte order mark"),
    ("show 0\n".encode("utf-16"), 1, 1, "UTF-16"),
    (b"show 0\rshow 1\r", 1, 1, "CR alone"),
    (b"list 0 0", 1, 8, "from 1 to 10000"),
    (b"list 0", 1, 7, "the form is: list B N"),
    (b"list 0 5 6", 1, 10, "takes nothing more"),
    (b"show", 1, 5, "the form is: show B"),
    (b"show -1", 1, 6, "decimal digits"),
    (b"show 4294967296", 1, 6, "out of range"),
    (b"goto 0 340282366920938463463374607431768211456", 1, 8, "out of range"),
    (b"flip 1", 1, 7, "without their block"),
    (b"permute 0 0 1,2", 1, 13, "no commas"),
    (b"undo 1", 1, 6, "takes nothing more"),
    (b"> show 0", 1, 1, "without a prompt"),
    (b"rotation 0 | 0: 1 2", 1, 1, "take B"),
    (b"take 0 | 0: 1 2", 1, 8, "leave `|` out"),
    (b"take 0 0: 1 2; 1: 0;", 1, 21, "only between two entries"),
    (b"take 0 1: 1 2; 0: 0", 1, 16, "not above the one before"),
    (b"take 0 0: 1, 2", 1, 8, "not an entry"),
    (b"take 0: 1", 1, 7, "not an entry"),
    (b"euler 0 1 2", 1, 7, "not an entry"),
    (b"convert 0 5", 1, 11, "`rank` or `to`"),
    (b"convert 0 rank", 1, 15, "convert B rank R"),
    (b"convert 0 to 0: 4294967296", 1, 14, "out of range"),
    ("show\u00a00".encode(), 1, 5, "no-break space"),
    (b"count " + b"9" * 5000, 1, 7, "out of range"),
    (b"whole", 1, 6, "the form is: whole C"),
    (b"whole 0 1", 1, 9, "takes nothing more"),
    (b"nextwole 0", 1, 1, "is it `nextwhole`?"),
    (b"regroup 0", 1, 10, "the form is: regroup V EDGES"),
    (b"regroup 0 1,2", 1, 11, "no commas"),
    (b"regroup 0 1 4294967296", 1, 13, "an edge is from 0"),
    (b"listwhole 0 0", 1, 13, "from 1 to 10000"),
    (b"convertwhole", 1, 13, "a component is missing"),
    (b"convertwhole 0: 1", 1, 15, "not an entry"),
    (b"convertwhole 0 1: 1 2; 0: 0", 1, 24, "not above the one before"),
]


def explained(graph: str, script: str = "") -> tuple[int, str]:
    ran = subprocess.run([sys.executable, TOOLS / "explain", graph, *([script] if script else []), "--program", program_path()], capture_output=True, check=False)
    return ran.returncode, (ran.stdout + ran.stderr).decode()


class Explained(unittest.TestCase):

    def test_refused_examples(self) -> None:
        refused = {path.stem: int(path.read_text()) for path in EXAMPLES.glob("*.status")}
        self.assertEqual(set(EXAMPLE_PLACES), set(refused))
        for name, (ending, line, column, said) in EXAMPLE_PLACES.items():
            with self.subTest(example=name):
                status, text = explained(f"{EXAMPLES}/{name}.gml", f"{EXAMPLES}/{name}.spqr")
                self.assertEqual(status, refused[name])
                self.assertTrue(text.startswith((EXAMPLES / f"{name}.out").read_text()))
                self.assertIn(f"{EXAMPLES}/{name}.{ending}:{line}:{column}: ", text)
                self.assertIn(said, text)

    def test_cases(self) -> None:
        with tempfile.TemporaryDirectory() as folder:
            path = Path(folder, "case.gml")
            for case in CASES + MORE:
                with self.subTest(case=case.kind):
                    path.write_bytes(case.data)
                    status, text = explained(str(path))
                    self.assertIn(status, (4, 5))
                    self.assertIn(case.said, text)
                    self.assertIn(f"{path}:{case.line}:" if case.line else f"{path}: ", text)
                    self.assertIn("\n  hint: ", text)

    def test_scripts(self) -> None:
        with tempfile.TemporaryDirectory() as folder:
            path = Path(folder, "case.spqr")
            for script, line, column, said in SCRIPTS:
                with self.subTest(script=script[:40]):
                    path.write_bytes(script)
                    status, text = explained(f"{EXAMPLES}/k4.gml", str(path))
                    self.assertEqual(status, 6, text)
                    self.assertIn(f"{path}:{line}:{column}: ", text)
                    self.assertIn(said, text)

    def test_files_that_cannot_be_read(self) -> None:
        with tempfile.TemporaryDirectory() as folder:
            for name, said in [("nothing", "No such file"), (".", "Is a directory")]:
                status, text = explained(os.path.join(folder, name))
                self.assertEqual(status, 2)
                self.assertIn(said, text)
            long = Path(folder, "long.spqr")
            long.write_bytes(b" " * 1_048_577)
            status, text = explained(f"{EXAMPLES}/k4.gml", str(long))
            self.assertEqual(status, 3)
            self.assertIn("1,048,577 bytes", text)

    def test_refused_commands_have_their_lines(self) -> None:
        for name in ("each_code_in_order", "codes_of_components"):
            status, text = explained(f"{EXAMPLES}/{name}.gml", f"{EXAMPLES}/{name}.spqr")
            self.assertEqual(status, 0)
            errors = [line for line in (EXAMPLES / f"{name}.out").read_text().splitlines() if line.startswith("error ")]
            for error in errors:
                self.assertIn(f": {error}\n", text)
            self.assertEqual(text.count("  hint: "), len(errors))

    def test_a_quote_that_is_read_silently(self) -> None:
        with tempfile.TemporaryDirectory() as folder:
            path = Path(folder, "quote.gml")
            path.write_bytes(b'graph [\n  node [ id 0 label "say "hi"" ]\n]\n')
            status, text = explained(str(path))
            self.assertEqual(status, 0)
            self.assertIn(f"{path}:2:27: a word directly follows a string", text)


if __name__ == "__main__":
    unittest.main()
