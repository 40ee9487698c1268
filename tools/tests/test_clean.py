"""What `clean` writes is accepted, it says each change, and it changes nothing in place."""
from __future__ import annotations

import os
import subprocess
import sys
import tempfile
import unittest
from pathlib import Path

from cases import CASES, MORE, Case
from spqr_client import Refused, Report, run

TOOLS = Path(__file__).resolve().parent.parent
EXAMPLES = TOOLS.parent / "examples"


def cleaned(*words: object) -> subprocess.CompletedProcess:
    return subprocess.run([sys.executable, TOOLS / "clean", *words], capture_output=True, check=False)


class Cleaned(unittest.TestCase):

    def setUp(self) -> None:
        folder = tempfile.TemporaryDirectory()
        self.addCleanup(folder.cleanup)
        self.source = Path(folder.name, "in.gml")
        self.target = Path(folder.name, "out.gml")

    def check(self, case: Case) -> bool:
        """Whether `clean` makes a graph of the case, which must be refused; and that it makes one where it is to."""
        with self.assertRaises(Refused):
            run(case.data)
        self.source.write_bytes(case.data)
        self.target.unlink(missing_ok=True)
        ran = cleaned(self.source, self.target)
        said = ran.stderr.decode()
        self.assertEqual(ran.returncode, 0 if case.size else 1, said)
        self.assertEqual(self.source.read_bytes(), case.data)
        self.assertEqual(self.target.exists(), case.size is not None)
        if case.size is None:
            self.assertIn(case.kept, said)
            return False
        text = self.target.read_bytes()
        report = run(text)
        self.assertEqual((len(report.ids), report.edge_count), case.size, text)
        self.assertIn(case.kept, text.decode())
        self.assertRegex(said, r"in\.gml:\d+: ")
        self.assertRegex(said, r"in\.gml: [1-9]\d* changes?\n$")
        self.assertEqual(cleaned(self.target).stdout, text, "a cleaned file needs no change")
        return True

    def test_45_cases(self) -> None:
        self.assertEqual(len(CASES), 45)
        accepted = 0
        for case in CASES:
            with self.subTest(case=case.kind):
                accepted += self.check(case)
        self.assertEqual(accepted, 39)

    def test_more_cases(self) -> None:
        for case in MORE:
            with self.subTest(case=case.kind):
                self.check(case)

    def test_refused_examples(self) -> None:
        for path in sorted(EXAMPLES.glob("*.status")):
            data = path.with_suffix(".gml").read_bytes()
            ran = cleaned(path.with_suffix(".gml"))
            with self.subTest(example=path.stem):
                if path.stem == "broken_bad":
                    self.assertEqual((ran.returncode, ran.stdout), (1, b""))
                    continue
                self.assertEqual(ran.returncode, 0, ran.stderr)
                if path.stem == "refused_start_genus":
                    self.assertEqual(ran.stdout, data)
                    continue
                self.assertIsInstance(run(ran.stdout), Report)
                self.assertEqual(path.with_suffix(".gml").read_bytes(), data)

    def test_accepted_examples_are_copied(self) -> None:
        for path in sorted(EXAMPLES.glob("*.gml")):
            if not path.with_suffix(".status").exists():
                with self.subTest(example=path.stem):
                    ran = cleaned(path)
                    self.assertEqual((ran.returncode, ran.stdout), (0, path.read_bytes()))
                    self.assertTrue(ran.stderr.endswith(b": 0 changes\n"))

    def test_a_quote_that_is_read_silently(self) -> None:
        self.source.write_bytes(b'graph [\n  node [ id 0 label "say "hi"" ]\n]\n')
        self.assertIn(b'label "say &quot;hi&quot;"\n', cleaned(self.source).stdout)

    def test_nothing_in_place(self) -> None:
        data = b"graph [ node [ id 0.0 ] ]"
        self.source.write_bytes(data)
        self.target.symlink_to(self.source)
        for target in (self.source, self.target, os.path.join(self.source.parent, ".", "in.gml")):
            ran = cleaned(self.source, target)
            self.assertEqual(ran.returncode, 1)
            self.assertIn(b"nothing is changed in place", ran.stderr)
            self.assertEqual(self.source.read_bytes(), data)

    def test_each_change_is_said(self) -> None:
        self.source.write_bytes(b'graph [\n  node [ id "a" ]\n  node [ id "b" label "B" ]\n  edge [ source "a" target "a" ]\n  edge [ source "a" target "c" ]\n]\n')
        said = cleaned(self.source, self.target).stderr.decode().replace(f"{self.source}:", "").splitlines()
        self.assertEqual(sorted(said[:-1]), sorted([
            '2: the id "a" of node 0 is written 0', '3: the id "b" of node 1 is written 1',
            '4: edge 0 is a loop at 0 and is left out: later edges get the number before theirs',
            '4: the source "a" of edge 0 is written 0', '4: the target "a" of edge 0 is written 0',
            '5: no node has the id "c": a node 2 is added',
            '5: the source "a" of edge 1 is written 0', '5: the target "c" of edge 1 is written 2']))
        text = self.target.read_text()
        for kept in ('label "a"', 'label "B"', 'name "b"', 'label "c"'):
            self.assertIn(kept, text)


if __name__ == "__main__":
    unittest.main()
