"""An emulated room that a program drives: a session of docs/live.md."""

from __future__ import annotations

import subprocess
from types import TracebackType
from typing import Any, Iterator, List, NamedTuple, Optional, Type, Union

from . import calls, homes
from .reports import Refused

# The lines of a session that are none of its script.
_OWN = ("run", "wait", "show", "edge", "edges", "seats")
# What is said where a session is asked after its end.
_OVER = "the session is over"


class Edge(NamedTuple):
    """The line falls (level 0) or rises (level 1) at an instant."""

    t: int
    level: int


class LineRefused(ValueError):
    """A line was refused, and has changed nothing: its number, counted from 1, the cause as a word, and the line itself."""

    def __init__(self, line: int, cause: str, word: str) -> None:
        self.line, self.cause, self.word = line, cause, word
        super().__init__("line %d: %s: %s" % (line, cause, word))


class Answered(NamedTuple):
    """What a line was answered: the edges and the lines of the trace that were told, the answer, whether nothing comes any more, and the
    notes that were told, without their mark."""

    edges: List[Edge]
    told: List[str]
    answer: str
    is_idle: bool
    notes: List[str]


class _OfProgram:
    """A session of `hdminet live`, of a program."""

    def __init__(self, topology: bytes, program: str) -> None:
        # A topology at fault is refused here, and not at the first line.
        calls.emulate(topology, "end 1\n")
        self._live = subprocess.Popen([program, "live"], stdin=subprocess.PIPE, stdout=subprocess.PIPE, stderr=subprocess.PIPE)
        self._send(topology + (b"" if topology.endswith(b"\n") else b"\n") + b"script\n")

    def _send(self, text: bytes) -> None:
        try:
            assert self._live.stdin is not None
            self._live.stdin.write(text)
            self._live.stdin.flush()
        except (OSError, ValueError):
            raise self._over() from None

    def _over(self) -> Refused:
        """Why the session is over."""
        fault = b"" if self._live.stderr is None or self._live.stderr.closed else self._live.communicate()[1]
        return Refused(fault.decode("latin-1").removeprefix("hdminet: ") or _OVER)

    def answer(self, line: bytes) -> List[str]:
        self._send(line + b"\n")
        assert self._live.stdout is not None
        told: List[str] = []
        while not told or told[-1][:1] not in ("=", "!"):
            got = self._live.stdout.readline().decode("latin-1")
            if not got:
                raise self._over()
            told.append(got.rstrip("\n"))
        return told

    def close(self) -> None:
        if self._live.poll() is None:
            self._live.kill()
        self._live.communicate()


class _OfLibrary:
    """A session of the library."""

    def __init__(self, topology: bytes) -> None:
        self._session = calls.Session(topology)
        # As in `hdminet live` it comes before the first answer.
        self._first = self._session.first

    def answer(self, line: bytes) -> List[str]:
        try:
            told = self._session.answer(line)
        except calls.Error as error:
            raise Refused(_OVER) if error.code == calls.CLOSED else error
        told, self._first = self._first + told, ""
        return told.split("\n")[:-1]

    def close(self) -> None:
        self._session.close()


class Room:
    """A room with this topology, before its first microsecond: a session in the library, or in a program that is named, or that stands
    beside this module where the library has no sessions.

        with Room(topology) as room:
            room.press(1_000_000, "p1", "play")
            for edge in room.run_to(1_200_000):
                ...
            room.end(1_200_000)

    What is certain of the trace stands in `trace`, a text for each line; `horizon` is the instant up to which all was told, `script` the lines
    that were taken. A topology that is refused is an Error with its line, a number that does not fit its parameter a ValueError that names it, and a line
    that the session refuses a LineRefused."""

    def __init__(self, topology: str, program: Optional[str] = None) -> None:
        self.trace: List[str] = []
        self.script: List[str] = []
        self.horizon = 0
        text = calls.text_bytes("topology", topology)
        self._live: Union[_OfLibrary, _OfProgram]
        if program is None and calls.has_sessions():
            self._live = _OfLibrary(text)
        else:
            self._live = _OfProgram(text, program or homes.program())

    def _answered(self, line: str, got: List[str]) -> Answered:
        edges, told, notes = [], [], []
        for one in got[:-1]:
            words = one.split(" ")
            if words[0] == "~":
                edges.append(Edge(int(words[1]), int(words[2])))
            elif words[0] == "*":
                notes.append(one[2:])
            else:
                told.append(one)
        words = got[-1].split(" ")
        self.trace += told
        self.script.append("" if words[0] == "!" or line.split(" ")[0] in _OWN else line)
        if words[0] == "!":
            raise LineRefused(int(words[1]), " ".join(words[2:]), line)
        if words[1].isdecimal():
            self.horizon = int(words[1])
        return Answered(edges, told, got[-1], words[-1] == "idle", notes)

    @calls.taking
    def ask(self, line: Any) -> Answered:
        """Sends a line of a session. Returns what was told for it."""
        return self._answered(line.decode("latin-1"), self._live.answer(line))

    @calls.taking
    def press(self, time: int, name: str, key: str) -> None:
        """Somebody presses a key of a device, as `play`, or `port 2`."""
        self.ask("at %d press %s %s" % (time, name, key))

    @calls.taking
    def release(self, time: int, name: str, key: str) -> None:
        """Somebody lets it go."""
        self.ask("at %d release %s %s" % (time, name, key))

    @calls.taking
    def send(self, time: int, name: str, frame: Any) -> None:
        """A device sends a frame of these bytes."""
        self.ask("at %d send %s %s" % (time, name, calls.frame_text(frame)))

    @calls.taking
    def say(self, time: int, name: str, text: Any) -> None:
        """A device sends the frame of a text, as '4>0 image-view-on'."""
        self.ask("at %d send %s %s" % (time, name, text.decode("latin-1")))

    @calls.taking
    def plug(self, time: int, name: str, parent: str, port: int) -> None:
        """A device is plugged into a port of another one."""
        self.ask("at %d plug %s %s %d" % (time, name, parent, port))

    @calls.taking
    def unplug(self, time: int, name: str) -> None:
        """A device is unplugged."""
        self.ask("at %d unplug %s" % (time, name))

    @calls.taking
    def pulse(self, time: int, pulse_width: int) -> None:
        """A pulse from outside, while a round is on or not."""
        self.ask("pulse %d %d" % (time, pulse_width))

    @calls.taking
    def pull(self, time: int, pull_width: int) -> None:
        """The line is pulled low from outside for so long."""
        self.ask("pull %d %d" % (time, pull_width))

    @calls.taking
    def pin(self, time: int, level: int) -> None:
        """The pin pulls the line low from an instant on (0), or lets it go (1)."""
        self.ask("pin %d %d" % (time, level))

    @calls.taking
    def edge(self, time: int) -> List[Edge]:
        """Goes on up to the microsecond after the next edge, at most to an instant. Returns that edge, or none."""
        return self.ask("edge %d" % time).edges

    @calls.taking
    def run_to(self, time: int) -> Iterator[Edge]:
        """Goes on to an instant, edge by edge: each comes a microsecond after it was, so that a pin may follow it."""
        return self._edges_to(time)

    def _edges_to(self, time: int) -> Iterator[Edge]:
        while self.horizon < time:
            yield from self.edge(time)

    @calls.taking
    def go_to(self, time: int) -> None:
        """Goes on to an instant at once."""
        self.ask("run to %d" % time)

    def wait(self) -> bool:
        """Goes on by one turn, an event or a round. Returns whether there was one."""
        return not self.ask("wait").is_idle

    @calls.taking
    def wait_until(self, time: int) -> Answered:
        """Goes on by one turn, at most to an instant. Returns what was told."""
        return self.ask("wait %d" % time)

    @calls.taking
    def state(self, name: str) -> str:
        """The state line of a device."""
        return self.ask("show %s" % name).answer[len("= "):]

    @calls.taking
    def end(self, time: int) -> List[str]:
        """Ends the script. Returns the whole trace."""
        self.ask("end %d" % time)
        self.close()
        return self.trace

    def close(self) -> None:
        """Ends the session."""
        self._live.close()

    def __enter__(self) -> "Room":
        return self

    def __exit__(self, kind: Optional[Type[BaseException]], value: Optional[BaseException], trace: Optional[TracebackType]) -> None:
        self.close()
