"""A plugin of pytest: files `.test` of hdminet as tests, a fixture `room`, and the suite over a device under test (docs/testing.md)."""

from __future__ import annotations

import os
import shlex
import subprocess
import sys
from typing import Any, Callable, Dict, Iterator, List, Optional

import pytest

from . import homes
from .reports import Refused, Test, check
from .rooms import Room

# How many lines of the trace stand before and after a failure's window.
AROUND = 3


def pytest_addoption(parser: Any) -> None:
    group = parser.getgroup("hdminet")
    group.addoption("--hdminet-dut", metavar="COMMAND", help="the suite over a device under test: a program and its arguments (docs/suite.md)")
    group.addoption("--kind", dest="hdminet_kind", metavar="KIND", help="what kind of device it is")
    group.addoption("--hdminet-suite", action="append", default=[], metavar="WORD", help="a further word for hdminet-suite, as --without=deck")


class Failed(Exception):
    """An expectation does not hold, or a test of the suite: what is shown."""


def _time(one: Dict[str, Any]) -> Optional[int]:
    """The instant of an object of a trace."""
    instant = one.get("begin", one.get("at"))
    return instant if isinstance(instant, int) else None


def _bare(one: Dict[str, Any]) -> str:
    """The line of an object below a test, without the sign of a comment."""
    line: str = one["line"]
    return line.removeprefix("# ")


def _around(test: Test, trace: List[Dict[str, Any]]) -> List[str]:
    """The lines of the trace around the window in which a test has looked."""
    windows = [one for one in test.below if one["type"] == "window" and one["from"] is not None]
    if not windows:
        return [_bare(one) for one in test.below]
    first, last = windows[0]["from"], windows[0]["to"]
    timed = [(instant, _bare(one)) for one in trace if (instant := _time(one)) is not None]
    before = [line for instant, line in timed if instant < first][-AROUND:]
    within = [line for instant, line in timed if first <= instant <= last]
    after = [line for instant, line in timed if instant > last][:AROUND]
    return [_bare(one) for one in test.below[:1]] + ["  " + line for line in before] + ["> " + line for line in within] + ["  " + line for line in after]


class Expectation(pytest.Item):
    """An expectation of a file."""

    def __init__(self, *, test: Test, trace: List[Dict[str, Any]], **rest: Any) -> None:
        super().__init__(**rest)
        self.test, self.trace = test, trace

    def runtest(self) -> None:
        if not self.test.holds:
            raise Failed

    def repr_failure(self, excinfo: Any, style: Any = None) -> Any:
        if not excinfo.errisinstance(Failed):
            return super().repr_failure(excinfo)
        said = self.test.expectation or "a refused event that nothing expects: %s" % self.test.refused
        lines = ["line %d: %s" % (self.test.script_line, said), *_around(self.test, self.trace)]
        lines += ["again: pytest %s" % shlex.quote(self.nodeid), "whole: hdminet check --trace < %s" % shlex.quote(str(self.path))]
        return "\n".join(lines)

    def reportinfo(self) -> Any:
        return self.path, None, self.name


class RoomFile(pytest.File):
    """A topology, a line `script`, and a script with expectations."""

    def collect(self) -> Iterator[pytest.Item]:
        with open(self.path, encoding="latin-1") as file:
            text = file.read()
        try:
            report = check(text)
            trace = check(text, "--trace").trace if report.failed else []
        except Refused as refused:
            raise self.CollectError("%s: %s" % (self.path, refused.text.strip())) from None
        for test in report.tests:
            yield Expectation.from_parent(self, name="line %d" % test.script_line, test=test, trace=trace)
        for stretch in report.stretches:
            yield Expectation.from_parent(self, name="%d..%d" % (stretch.first, stretch.last), trace=[], test=Test(
                0, 0, all(stretch.holds), "all tests hold from %d to %d" % (stretch.first, stretch.last), None, []))


def _is_of_the_suite(path: Any) -> bool:
    """Whether a file is a test for a device under test: its head says for which kinds."""
    with open(path, encoding="latin-1") as file:
        return any(line.startswith("# for:") for line in file)


def pytest_collect_file(file_path: Any, parent: Any) -> Optional[pytest.File]:
    if file_path.suffix != ".test" or _is_of_the_suite(file_path):
        return None
    made: pytest.File = RoomFile.from_parent(parent, path=file_path)
    return made


class OfSuite(pytest.Item):
    """A test of the suite over the device under test."""

    def command(self) -> List[str]:
        words = self.config.getoption("hdminet_suite")
        return [sys.executable, homes.tool("suite"), "--program", homes.program(), "--dut", self.config.getoption("hdminet_dut"), "--kind",
                self.config.getoption("hdminet_kind"), *words, self.name]

    def runtest(self) -> None:
        ran = subprocess.run(self.command(), stdout=subprocess.PIPE, stderr=subprocess.STDOUT, check=False)
        said = ran.stdout.decode("utf-8", "replace")
        if ran.returncode:
            raise Failed(said)
        skipped = said.partition("# SKIP ")[2].partition("\n")[0]
        if skipped:
            pytest.skip(skipped)

    def repr_failure(self, excinfo: Any, style: Any = None) -> Any:
        return str(excinfo.value) if excinfo.errisinstance(Failed) else super().repr_failure(excinfo)

    def reportinfo(self) -> Any:
        return os.path.join(homes.home(), "suite"), None, self.name


class Suite(pytest.Collector):
    """The suite over a device under test."""

    def collect(self) -> Iterator[pytest.Item]:
        ran = subprocess.run([sys.executable, homes.tool("suite"), "--list"], stdout=subprocess.PIPE, check=True)
        for line in ran.stdout.decode().splitlines():
            yield OfSuite.from_parent(self, name=line.split("\t")[0])


@pytest.hookimpl(tryfirst=True)  # type: ignore[misc]
def pytest_collection_modifyitems(session: Any, config: Any, items: List[pytest.Item]) -> None:
    if config.getoption("hdminet_dut") is None:
        return
    if config.getoption("hdminet_kind") is None:
        raise pytest.UsageError("--hdminet-dut needs --kind")
    items.extend(Suite.from_parent(session, name="hdminet-suite").collect())


@pytest.fixture
def room() -> Iterator[Callable[[str], Room]]:
    """Opens rooms: `room(topology)` is one, which is closed where the test ends."""
    opened: List[Room] = []

    def begin(topology: str) -> Room:
        opened.append(Room(topology))
        return opened[-1]

    yield begin
    for one in opened:
        one.close()
