"""Reports of `hdminet check` as objects."""

from __future__ import annotations

import json
import subprocess
from typing import Any, Dict, List, NamedTuple, Optional

from . import homes


class Refused(ValueError):
    """The program has refused the input: the line at fault, counted from 1, or 0; the cause; and its word, or ''. `text` is all that it said."""

    def __init__(self, text: str) -> None:
        self.text = text
        first = text.splitlines()[0] if text else ""
        where, _, self.cause = first.rpartition(": ")
        number = where.rpartition(" line ")[2]
        self.line = int(number) if number.isdecimal() else 0
        marked = [line for line in text.splitlines() if line.strip().startswith("`")]
        self.word = marked[0].strip().split("`")[1] if marked else ""
        super().__init__(first)


class Test(NamedTuple):
    """A test of a report: an expectation, or a refused event that none expects. `rounds` are the objects below one that fails: its window,
    and the rounds that were seen in it, or the state (docs/check.md)."""

    number: int
    script_line: int
    holds: bool
    expectation: Optional[str]
    refused: Optional[str]
    below: List[Dict[str, Any]]


class Stretch(NamedTuple):
    """A longest stretch of instants of a range at which the same tests hold."""

    first: int
    last: int
    holds: List[bool]


class Report(NamedTuple):
    """The tests of a script, or of a sweep its stretches; and the objects of the trace."""

    tests: List[Test]
    stretches: List[Stretch]
    trace: List[Dict[str, Any]]

    @property
    def failed(self) -> List[Test]:
        """The tests that do not hold."""
        return [test for test in self.tests if not test.holds]

    @property
    def holds(self) -> bool:
        """Whether all tests hold, at all instants."""
        return not self.failed and all(all(stretch.holds) for stretch in self.stretches)


def _report(objects: List[Dict[str, Any]]) -> Report:
    tests: List[Test] = []
    stretches: List[Stretch] = []
    trace: Optional[List[Dict[str, Any]]] = None
    for one in objects:
        kind = one["type"]
        if trace is not None:
            trace.append(one)
        elif kind == "trace":
            trace = []
        elif kind == "test":
            tests.append(Test(one["test"], one["script_line"], one["holds"], one["expectation"], one["refused"], []))
        elif kind == "stretch":
            stretches.append(Stretch(one["from"], one["to"], one["holds"]))
        elif kind not in ("version", "plan"):
            tests[-1].below.append(one)
    return Report(tests, stretches, trace or [])


def check(text: str, *words: str, program: Optional[str] = None) -> Report:
    """Whether a run is as its script expects: `text` is a topology, a line `script`, and a script with expectations. `words` are flags of
    `hdminet check`, as "--trace" or "--capture". A fault of the input is a Refused."""
    command = [program or homes.program(), "check", "--json", "--explain", *words]
    ran = subprocess.run(command, input=text.encode("latin-1"), stdout=subprocess.PIPE, stderr=subprocess.PIPE, check=False)
    if ran.returncode not in (0, 1) or not ran.stdout:
        raise Refused(ran.stderr.decode("latin-1").removeprefix("hdminet: "))
    return _report([json.loads(line) for line in ran.stdout.decode("latin-1").splitlines()])
