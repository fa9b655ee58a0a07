"""hdminet: an emulated HDMI network for tests of CEC firmware.

    >>> import hdminet
    >>> hdminet.frame_text(b"\\x4f\\x82\\x10\\x00")
    '4>f active-source 1.0.0.0'
    >>> with hdminet.Room("device tv tv 4\\ndevice p1 player 0\\nplug p1 tv 1\\n") as room:
    ...     room.press(1_000_000, "p1", "play")
    ...     edges = list(room.run_to(1_200_000))

`Room` is a session that a program drives, `check` a report as objects, and the other calls are those of libhdminet.so, which are proved
(docs/library.md). Times are whole microseconds."""

from .calls import (Counted, Error, Findings, OldLibrary, Reading, Receiver, Sender, VERSION, check_text, edid_bytes, edid_check, edid_fault,
                    edid_meaning, edid_port, edid_read, edid_text, emulate, emulate_edges, frame_bytes, frame_text, library_version, watch)
from .reports import Refused, Report, Stretch, Test, check
from .rooms import Edge, LineRefused, Room

__all__ = ["Counted", "Edge", "Error", "Findings", "LineRefused", "OldLibrary", "Reading", "Receiver", "Refused", "Report", "Room", "Sender",
           "Stretch", "Test", "VERSION", "check", "check_text", "edid_bytes", "edid_check", "edid_fault", "edid_meaning", "edid_port",
           "edid_read", "edid_text", "emulate", "emulate_edges", "frame_bytes", "frame_text", "library_version", "watch"]
