"""The calls of libhdminet.so over ctypes: frames of the CEC line and their texts, EDIDs, the emulator, sessions, a receiver and a sender of
the line. The library is looked for where HDMINET_LIBRARY says, in home/release/lib beside this file, in ../../lib of it, and where the
system keeps libraries. Times are whole microseconds."""

import ctypes
import ctypes.util
import functools
import inspect
import operator
import os
import re
import sys
import threading
import weakref
from typing import Any, Callable, Dict, List, NamedTuple, Optional, Sequence, Tuple, TypeVar, Union, cast

Bytes = Union[bytes, bytearray, memoryview, Sequence[int]]
Text = Union[str, Bytes]
F = TypeVar("F", bound=Callable[..., Any])

__all__ = ["Counted", "Error", "Findings", "OldLibrary", "Reading", "Receiver", "Sender", "VERSION", "check_text", "edid_bytes", "edid_check",
           "edid_fault", "edid_meaning", "edid_port", "edid_read", "edid_text", "emulate", "emulate_edges", "frame_bytes", "frame_text",
           "library_version", "watch"]

# HDMINET_VERSION of the headers with which this module was written.
VERSION = 1001

# The numbers of answers, as include/hdminet_wire.h and include/hdminet.h have them.
CODES = {
    1: "room", 2: "state", 3: "late", 4: "absent", 5: "heard", 6: "closed", 7: "line",
    10: "frame: empty", 11: "frame: too-long",
    20: "frame: address", 21: "frame: name", 22: "frame: too-long", 23: "frame: count", 24: "frame: operand",
    30: "edid: length", 31: "edid: count", 32: "edid: base header", 33: "edid: base checksum", 34: "edid: base revision",
    35: "edid: base maker", 36: "edid: ext 1 checksum", 37: "edid: ext 2 checksum", 38: "edid: ext 3 checksum",
    39: "edid: no-hdmi-block",
    40: "text: syntax", 41: "text: field",
    50: "no memory",
    60: "topology: word", 61: "topology: number", 62: "topology: name", 63: "topology: full", 64: "topology: second-root",
    65: "topology: no-root", 66: "topology: port-range", 67: "topology: port-taken", 68: "topology: not-loose",
    69: "topology: loop", 70: "topology: hex",
    80: "script: word", 81: "script: number", 82: "script: name", 83: "script: width", 84: "script: order",
    85: "script: close", 86: "script: too-many", 87: "script: end", 88: "script: hex",
    90: "expect: word", 91: "expect: number", 92: "expect: label", 93: "expect: order",
    100: "edges: line", 101: "edges: order",
}
DONE, ROOM, ABSENT, CLOSED = 0, 1, 4, 6
FATES = (None, "delivered", "unacked", "lost", "broken")
ENDINGS = (None, "complete", "short", "silent", "bad-start", "long", "open")
MOST_BITS = 160
# The most bytes of a line of a session.
LONGEST_LINE = 4096


class Error(ValueError):
    """A call was refused. `code` is the number of the header, `line` the line at fault, counted from 1, or 0."""

    def __init__(self, code: int, line: int = 0) -> None:
        self.code, self.line = code, line
        super().__init__(CODES.get(code, "code %d" % code) + (", line %d" % line if line else ""))


class _Answer(ctypes.Structure):
    _fields_ = [("code", ctypes.c_uint32), ("line", ctypes.c_uint64), ("length", ctypes.c_size_t)]


class _Receiver(ctypes.Structure):
    _fields_ = [("was_low", ctypes.c_bool), ("is_low", ctypes.c_bool), ("place", ctypes.c_uint8), ("count", ctypes.c_uint8),
                ("begin", ctypes.c_uint64), ("fall", ctypes.c_uint64), ("bits", ctypes.c_bool * MOST_BITS)]


class _Sender(ctypes.Structure):
    _fields_ = [("begin", ctypes.c_uint64), ("last", ctypes.c_uint64), ("slot", ctypes.c_uint64), ("state", ctypes.c_uint8),
                ("count", ctypes.c_uint8), ("bytes", ctypes.c_uint8 * 16)]


class _Reading(ctypes.Structure):
    _fields_ = [("begin", ctypes.c_uint64), ("at", ctypes.c_uint64), ("ending", ctypes.c_uint8), ("count", ctypes.c_uint8),
                ("bits", ctypes.c_bool * MOST_BITS)]


class _Heard(ctypes.Structure):
    _fields_ = [("code", ctypes.c_uint32), ("kind", ctypes.c_uint8), ("ending", ctypes.c_uint8), ("bit", ctypes.c_bool),
                ("slot", ctypes.c_uint64)]


class _Instant(ctypes.Structure):
    _fields_ = [("code", ctypes.c_uint32), ("at", ctypes.c_uint64)]


class _Pull(ctypes.Structure):
    _fields_ = [("code", ctypes.c_uint32), ("is_low", ctypes.c_bool)]


class _Fate(ctypes.Structure):
    _fields_ = [("code", ctypes.c_uint32), ("fate", ctypes.c_uint8)]


class _Counts(ctypes.Structure):
    _fields_ = [("count", ctypes.c_uint64), ("failed", ctypes.c_uint64)]


class _Live(ctypes.Structure):
    _fields_ = [("is_open", ctypes.c_bool), ("at", ctypes.c_void_p)]


_BYTES: List[Any] = [ctypes.c_char_p, ctypes.c_size_t]
_CALLS: Dict[str, Tuple[Any, List[Any]]] = {
    "hdminet_version": (ctypes.c_uint32, []),
    "hdminet_frame_text": (_Answer, _BYTES * 2),
    "hdminet_frame_bytes": (_Answer, _BYTES * 2),
    "hdminet_edid_fault": (ctypes.c_uint32, _BYTES),
    "hdminet_edid_text": (_Answer, _BYTES * 2),
    "hdminet_edid_port": (_Answer, _BYTES + [ctypes.c_uint16, ctypes.c_bool] + _BYTES),
    "hdminet_edid_read": (_Answer, _BYTES + [ctypes.c_uint8, ctypes.c_uint8] + _BYTES),
    "hdminet_receiver_new": (_Receiver, []),
    "hdminet_receiver_hear": (_Heard, [ctypes.POINTER(_Receiver), ctypes.c_uint64, ctypes.c_bool, ctypes.POINTER(_Reading)]),
    "hdminet_receiver_wakes_at": (_Instant, [ctypes.POINTER(_Receiver)]),
    "hdminet_receiver_running": (ctypes.c_uint32, [ctypes.POINTER(_Receiver), ctypes.c_uint64, ctypes.POINTER(_Reading)]),
    "hdminet_reading_frame": (_Answer, [ctypes.POINTER(_Reading)] + _BYTES),
    "hdminet_sender_begin": (ctypes.c_uint32, [ctypes.POINTER(_Sender)] + _BYTES + [ctypes.c_uint64]),
    "hdminet_sender_heard": (ctypes.c_uint32, [ctypes.POINTER(_Sender), ctypes.POINTER(_Heard), ctypes.c_uint64]),
    "hdminet_sender_pulls": (_Pull, [ctypes.POINTER(_Sender), ctypes.c_uint64]),
    "hdminet_sender_next_change": (_Instant, [ctypes.POINTER(_Sender), ctypes.c_uint64]),
    "hdminet_sender_fate": (_Fate, [ctypes.POINTER(_Sender), ctypes.POINTER(_Reading)]),
    "hdminet_emulate": (_Answer, _BYTES * 3),
    "hdminet_emulate_edges": (_Answer, _BYTES * 3),
    "hdminet_check": (_Answer, _BYTES * 3 + [ctypes.POINTER(_Counts)]),
    "hdminet_live_open": (_Answer, [ctypes.POINTER(_Live)] + _BYTES * 2),
    "hdminet_live_line": (_Answer, [ctypes.POINTER(_Live)] + _BYTES * 2),
    "hdminet_live_again": (_Answer, [ctypes.POINTER(_Live)] + _BYTES),
    "hdminet_live_close": (None, [ctypes.POINTER(_Live)]),
    "hdminet_watch": (_Answer, _BYTES * 2),
    "hdminet_edid_bytes": (_Answer, _BYTES * 2),
    "hdminet_edid_check": (_Answer, _BYTES * 2 + [ctypes.POINTER(ctypes.c_bool)]),
    "hdminet_edid_meaning": (_Answer, _BYTES * 2),
}


def _load() -> Any:
    here = os.path.dirname(os.path.abspath(__file__))
    names = [os.environ.get("HDMINET_LIBRARY"), os.path.join(here, "home", "release", "lib", "libhdminet.so"),
             os.path.join(here, os.pardir, os.pardir, "lib", "libhdminet.so"), ctypes.util.find_library("hdminet")]
    for name in names:
        if name and (os.path.exists(name) or not os.path.isabs(name)):
            return ctypes.CDLL(name)
    raise ImportError("libhdminet.so is not there: tools/library makes it, and HDMINET_LIBRARY may name it")


class OldLibrary(ImportError):
    """The library at hand has another major version than this module."""


def library_version() -> int:
    """HDMINET_VERSION of the library at hand; 0 of one that is older than that call."""
    return int(_library.hdminet_version()) if hasattr(_library, "hdminet_version") else 0


_library = _load()
if library_version() // 1000 != VERSION // 1000:
    raise OldLibrary("%s has version %d, and this module is of version %d" % (_library._name, library_version(), VERSION))
for _name, (_result, _parameters) in _CALLS.items():
    if hasattr(_library, _name):
        _call = getattr(_library, _name)
        _call.restype, _call.argtypes = _result, _parameters


def has_sessions() -> bool:
    """Whether the library at hand has the calls of sessions, as it has from version 1001 on."""
    return hasattr(_library, "hdminet_live_open")


def _is_number(value: Any) -> bool:
    try:
        operator.index(value)
    except TypeError:
        return False
    return True


def _number(name: str, value: Any, most: int) -> int:
    if not _is_number(value):
        raise TypeError("%s is a whole number of 0 to %d, and not %r" % (name, most, value))
    number = operator.index(value)
    if not 0 <= number <= most:
        raise ValueError("%s is 0 to %d, and not %d" % (name, most, number))
    return number


def _up_to(most: int) -> Callable[[str, Any], int]:
    return lambda name, value: _number(name, value, most)


def _bytes(name: str, value: Any) -> bytes:
    if isinstance(value, bytes):
        return value
    # Of a number Python makes as many zeros.
    if _is_number(value):
        raise TypeError("%s is bytes, each 0 to 255, and not the number %d" % (name, value))
    try:
        return bytes(value)
    except ValueError:
        raise ValueError("%s is bytes, each 0 to 255" % name) from None
    except TypeError:
        raise TypeError("%s is bytes, each 0 to 255, and not %r" % (name, value)) from None


def text_bytes(name: str, value: Any) -> bytes:
    """The bytes of a text."""
    return value.encode("latin-1") if isinstance(value, str) else _bytes(name, value)


def _address(name: str, value: Any) -> int:
    if not isinstance(value, str):
        return _number(name, value, 0xffff)
    if not re.fullmatch(r"[0-9a-fA-F](\.[0-9a-fA-F]){3}", value):
        raise ValueError("%s has four nibbles of 0 to f, as 1.2.0.0, and is not %r" % (name, value))
    return int(value.replace(".", ""), 16)


def _word(name: str, value: Any) -> str:
    if not isinstance(value, str):
        raise TypeError("%s is a word, and not %r" % (name, value))
    if not re.fullmatch(r"[!-~]+( [!-~]+)*", value):
        raise ValueError("%s is a word of printable characters, and not %r" % (name, value))
    return value


def _line(name: str, value: Any) -> bytes:
    line = text_bytes(name, value)
    if b"\n" in line or len(line) > LONGEST_LINE:
        raise ValueError("%s is a line of at most %d bytes with no end in it" % (name, LONGEST_LINE))
    return line


def _bits(name: str, value: Any) -> List[int]:
    bits = [_number("a bit of " + name, bit, 1) for bit in value]
    _number("the number of " + name, len(bits), MOST_BITS)
    return bits


# What a call takes, by the name of its parameter. ctypes would cut a number to the bits of its C type.
_INSTANT = _up_to(2 ** 64 - 1)
_TAKES: Dict[str, Callable[[str, Any], Any]] = {
    "frame": _bytes, "edid": _bytes,
    "text": text_bytes, "topology": text_bytes, "script": text_bytes, "edges": text_bytes,
    "address": _address, "segment": _up_to(0xff), "offset": _up_to(0xff), "count": _up_to(sys.maxsize),
    "begin": _INSTANT, "at": _INSTANT, "t": _INSTANT, "bits": _bits,
    "time": _up_to(1_000_000_000_000), "level": _up_to(1), "port": _up_to(15), "pulse_width": _up_to(10_000), "pull_width": _up_to(10_000_000),
    "name": _word, "parent": _word, "key": _word, "line": _line,
}


def taking(call: F) -> F:
    """The call, whose arguments are taken as _TAKES has it."""
    takes = {name: _TAKES.get(name, lambda _, value: value) for name in inspect.signature(call).parameters}
    parameters = list(takes.items())

    @functools.wraps(call)
    def checked(*given: Any, **named: Any) -> Any:
        front = [take(name, value) for (name, take), value in zip(parameters, given)]
        if named:
            named = {name: takes[name](name, value) if name in takes else value for name, value in named.items()}
        return call(*front, *given[len(front):], **named)

    return cast(F, checked)


def _filled(call: Any, *arguments: Any, room: int = 512) -> bytes:
    # The answer says how much room is needed: a second call has that much.
    while True:
        buffer = ctypes.create_string_buffer(room)
        answer = call(*arguments, buffer, room)
        if answer.code == DONE:
            return buffer.raw[:answer.length]
        if answer.code != ROOM:
            raise Error(answer.code, answer.line)
        room = answer.length


@taking
def frame_text(frame: Bytes) -> str:
    """The one text of a frame of 1 to 16 bytes, as '4>f active-source 1.0.0.0'."""
    return _filled(_library.hdminet_frame_text, frame, len(frame), room=96).decode("ascii")


@taking
def frame_bytes(text: Text) -> bytes:
    """The bytes of the frame that has exactly this text."""
    return _filled(_library.hdminet_frame_bytes, text, len(text), room=16)


@taking
def edid_fault(edid: Bytes) -> Optional[str]:
    """Why bytes are no EDID, as 'edid: base checksum'; None where they are one."""
    code = _library.hdminet_edid_fault(edid, len(edid))
    return CODES[code] if code else None


@taking
def edid_text(edid: Bytes) -> str:
    """The text of an EDID, a line for each part of it."""
    return _filled(_library.hdminet_edid_text, edid, len(edid), room=4096).decode("latin-1")


@taking
def edid_port(edid: Bytes, address: Union[int, str], from_amplifier: bool = False) -> bytes:
    """The EDID that a port passes on of one. The address is 0x1200 or '1.2.0.0'; an amplifier on the way has its own audio."""
    return _filled(_library.hdminet_edid_port, edid, len(edid), address, from_amplifier)


@taking
def edid_read(edid: Bytes, segment: int, offset: int, count: int) -> Optional[bytes]:
    """What a reader reads over DDC: so many bytes from an offset of a segment on; None where that is not acknowledged."""
    buffer = ctypes.create_string_buffer(count)
    answer = _library.hdminet_edid_read(edid, len(edid), segment, offset, buffer, count)
    if answer.code == ABSENT:
        return None
    if answer.code:
        raise Error(answer.code)
    return buffer.raw


@taking
def edid_bytes(text: Text) -> bytes:
    """The bytes of the EDID that has exactly this text, as `edid_text` gives it."""
    return _filled(_library.hdminet_edid_bytes, text, len(text))


class Findings(NamedTuple):
    """The rules that an EDID breaks, a line each, and whether one of them is a failure."""

    text: str
    fails: bool


@taking
def edid_check(edid: Bytes) -> Findings:
    """The rules that the EDID of a display breaks: a line for each, and whether one of them is a failure."""
    fails = ctypes.c_bool()

    def call(*arguments: Any) -> Any:
        return _library.hdminet_edid_check(*arguments, ctypes.byref(fails))

    text = _filled(call, edid, len(edid), room=4096).decode("latin-1")
    return Findings(text, fails.value)


@taking
def edid_meaning(edid: Bytes) -> str:
    """The text of an EDID, and below each line, after two spaces, what it means."""
    return _filled(_library.hdminet_edid_meaning, edid, len(edid), room=1 << 14).decode("latin-1")


@taking
def emulate(topology: Text, script: Text) -> str:
    """The trace of the run of a script on a topology, both in the words of docs/run.md."""
    return _filled(_library.hdminet_emulate, topology, len(topology), script, len(script), room=1 << 16).decode("latin-1")


@taking
def emulate_edges(topology: Text, script: Text) -> str:
    """The falls and rises of the line of that run, as `watch` reads them."""
    return _filled(_library.hdminet_emulate_edges, topology, len(topology), script, len(script), room=1 << 18).decode("latin-1")


class Counted(NamedTuple):
    """A report as text, how many tests it has, and how many failed."""

    text: str
    count: int  # type: ignore[assignment]
    failed: int


@taking
def check_text(topology: Text, script: Text) -> Counted:
    """Whether the run of a script is as its expectations have it: the report, how many tests it has, and how many failed."""
    counts = _Counts()

    def call(*arguments: Any) -> Any:
        return _library.hdminet_check(*arguments, ctypes.byref(counts))

    text = _filled(call, topology, len(topology), script, len(script), room=1 << 16).decode("latin-1")
    return Counted(text, counts.count, counts.failed)


@taking
def watch(edges: Text) -> str:
    """What was read on a line of these falls and rises, a line each."""
    return _filled(_library.hdminet_watch, edges, len(edges), room=1 << 16).decode("latin-1")


class Session:
    """A session of docs/live.md in memory of the library. Threads may each have theirs, and where they share one they wait for each other."""

    @taking
    def __init__(self, topology: Text) -> None:
        self._live, self._turn = _Live(), threading.Lock()
        self._at = ctypes.byref(self._live)
        self._room = ctypes.create_string_buffer(4096)
        self._end = weakref.finalize(self, _library.hdminet_live_close, self._at)
        self.first = self._text(_library.hdminet_live_open(self._at, topology, len(topology), self._room, len(self._room)))

    def _text(self, answer: _Answer) -> str:
        # What does not fit was taken, and is put once more.
        if answer.code == ROOM:
            self._room = ctypes.create_string_buffer(answer.length)
            answer = _library.hdminet_live_again(self._at, self._room, len(self._room))
        if answer.code != DONE:
            raise Error(answer.code, answer.line)
        return ctypes.string_at(self._room, answer.length).decode("latin-1")

    @taking
    def answer(self, line: Any) -> str:
        """What `hdminet live` writes for a line, up to its answer and with that."""
        with self._turn:
            return self._text(_library.hdminet_live_line(self._at, line, len(line), self._room, len(self._room)))

    def close(self) -> None:
        """Ends the session, and gives its memory back."""
        with self._turn:
            self._end()


class Reading(NamedTuple):
    """A reading of the line: its fall, the instant of its ending, how it ended, and the bits that were sampled."""

    begin: int
    at: int
    ending: str
    bits: Tuple[int, ...]

    def _parts(self) -> Any:
        return _reading_parts(*self)

    def frame(self) -> Optional[bytes]:
        """The bytes of the frame of a complete reading, and None of another one."""
        parts = self._parts()
        try:
            return _filled(_library.hdminet_reading_frame, ctypes.byref(parts), room=16)
        except Error as error:
            if error.code == ABSENT:
                return None
            raise

    def acknowledged(self) -> bool:
        """Whether a complete reading was acknowledged or, of a frame to all, not refused."""
        frame = self.frame()
        return frame is not None and bool(self.bits[-1]) == (frame[0] % 16 == 15)


@taking
def _reading_parts(begin: int, at: int, ending: str, bits: Any) -> Any:
    return _Reading(begin, at, ENDINGS.index(ending), len(bits), (ctypes.c_bool * MOST_BITS)(*bits))


def _reading(parts: Any) -> "Reading":
    return Reading(parts.begin, parts.at, cast(str, ENDINGS[parts.ending]), tuple(int(bit) for bit in parts.bits[:parts.count]))


class Receiver:
    """A receiver of the line.

        receiver = Receiver()
        for t, is_low in edges:
            for reading in receiver.edge(t, is_low): ...
        for reading in receiver.until(end): ...
    """

    def __init__(self) -> None:
        self.state = _library.hdminet_receiver_new()
        self.heard = _Heard()

    @taking
    def hear(self, t: int, is_low: bool) -> Optional["Reading"]:
        """Instant t has come, an edge or a wake; the reading that it ends, or None. `heard` has what it told."""
        parts = _Reading()
        self.heard = _library.hdminet_receiver_hear(ctypes.byref(self.state), t, is_low, ctypes.byref(parts))
        if self.heard.code:
            raise Error(self.heard.code)
        return _reading(parts) if self.heard.kind >= 2 else None

    def wakes_at(self) -> Optional[int]:
        """The instant at which it is to hear again, where no edge comes first, or None."""
        instant = _library.hdminet_receiver_wakes_at(ctypes.byref(self.state))
        if instant.code == ABSENT:
            return None
        if instant.code:
            raise Error(instant.code)
        return int(instant.at)

    @taking
    def until(self, t: int) -> List["Reading"]:
        """The readings that have ended by t, t itself too, where no edge comes: a list of one at most."""
        return self._before(t + 1)

    @taking
    def edge(self, t: int, is_low: bool) -> List["Reading"]:
        """The line falls or rises at t. A list of the readings that have ended since the edge before, at this edge too."""
        readings = self._before(t) + [self.hear(t, is_low)]
        return [reading for reading in readings if reading is not None]

    def _before(self, t: int) -> List["Reading"]:
        readings = []
        while (wake := self.wakes_at()) is not None and wake < t:
            readings.append(self.hear(wake, self.state.is_low))
        return [reading for reading in readings if reading is not None]

    @taking
    def running(self, t: int) -> Optional["Reading"]:
        """The reading that runs, open at t, or None."""
        parts = _Reading()
        code = _library.hdminet_receiver_running(ctypes.byref(self.state), t, ctypes.byref(parts))
        if code == ABSENT:
            return None
        if code:
            raise Error(code)
        return _reading(parts)


class Sender:
    """A sender of one frame, which begins at an instant. It hears what a receiver told of the line: `receiver.heard`."""

    @taking
    def __init__(self, frame: Bytes, begin: int) -> None:
        self.state = _Sender()
        self._check(_library.hdminet_sender_begin(ctypes.byref(self.state), frame, len(frame), begin))

    @staticmethod
    def _check(code: int) -> None:
        if code:
            raise Error(code)

    @taking
    def hear(self, heard: Any, t: int) -> None:
        """What a receiver told at t of the reading that this sender began."""
        self._check(_library.hdminet_sender_heard(ctypes.byref(self.state), ctypes.byref(heard), t))

    @taking
    def pulls(self, t: int) -> bool:
        """Whether it pulls the line low in microsecond t."""
        pull = _library.hdminet_sender_pulls(ctypes.byref(self.state), t)
        self._check(pull.code)
        return bool(pull.is_low)

    @taking
    def next_change(self, t: int) -> Optional[int]:
        """The first instant after t at which its pull changes, or None."""
        instant = _library.hdminet_sender_next_change(ctypes.byref(self.state), t)
        if instant.code == ABSENT:
            return None
        self._check(instant.code)
        return int(instant.at)

    def is_sending(self) -> bool:
        """Whether it has not stopped yet."""
        return bool(self.state.state == 0)

    def fate(self, reading: "Reading") -> Optional[str]:
        """What became of the frame, by the reading that it began: 'delivered', 'unacked', 'lost' or 'broken'; None while it sends."""
        fate = _library.hdminet_sender_fate(ctypes.byref(self.state), ctypes.byref(reading._parts()))
        if fate.code == ABSENT:
            return None
        self._check(fate.code)
        return FATES[fate.fate]

    def slot(self) -> Optional[int]:
        """The slot at which it went out, or None."""
        return int(self.state.slot) if self.state.state == 1 else None
