"""Runs the program `spqr`. Standard library alone.

The program is the path that is given, else the one in the environment variable SPQR, else `spqr` in the folder above this one."""
from __future__ import annotations

import os
import subprocess
import tempfile
from dataclasses import dataclass
from pathlib import Path
from typing import Optional


class Refused(ValueError):
    """The program refused the graph or the script before the head: `line` is what it printed."""

    def __init__(self, status: int, line: str) -> None:
        super().__init__(line)
        self.status = status
        self.line = line


class ProgramError(RuntimeError):
    """The program could not be started, or ended without a report and without a refusal."""


@dataclass(frozen=True)
class Ran:
    """How a run ended: its status and what was printed on standard output and on standard error."""
    status: int
    output: bytes
    complaint: bytes

    def report(self) -> bytes:
        """The report. Fails with Refused where the graph or the script was refused, with ProgramError where no report was printed."""
        line = self.output.decode("ascii", "replace").strip()
        if 1 <= self.status <= 6 and line.startswith("refused "):
            raise Refused(self.status, line)
        if self.status != 0:
            raise ProgramError(f"status {self.status}: {(self.complaint or self.output).decode('utf-8', 'replace').strip()[-300:]}")
        return self.output


def program_path(given: Optional[str] = None) -> str:
    """The path of the program."""
    beside = Path(__file__).resolve().parent.parent / "spqr"
    return given or os.environ.get("SPQR") or str(beside)


def run_files(graph: str, script: str, program: Optional[str] = None) -> Ran:
    """Runs the program on two files."""
    try:
        ran = subprocess.run([program_path(program), "run", graph, script], stdin=subprocess.DEVNULL, capture_output=True, check=False)
    except OSError as fault:
        raise ProgramError(f"{program_path(program)}: {fault.strerror}") from fault
    return Ran(ran.returncode, ran.stdout, ran.stderr)


def run_bytes(graph: bytes, script: bytes, program: Optional[str] = None) -> Ran:
    """Runs the program on the bytes of a graph file and of a script."""
    with tempfile.TemporaryDirectory(prefix="spqr-") as folder:
        paths = [Path(folder, "graph.gml"), Path(folder, "script.spqr")]
        paths[0].write_bytes(graph)
        paths[1].write_bytes(script)
        return run_files(str(paths[0]), str(paths[1]), program)
