"""library.py TOP COUNT [PROGRAM]: what a caller of the library sees, over Python: COUNT random frames both ways, EDIDs,
refusals, a sender and a receiver, and with PROGRAM that each example's trace and edges are the program's."""

import glob
import inspect
import os
import random
import re
import subprocess
import sys
import time

import hdminet

top, count, program = sys.argv[1], int(sys.argv[2]), sys.argv[3] if len(sys.argv) > 3 else ""
# examples/c/receiver.c as a program: from the edges of each example it reports the readings.
receiver = os.environ.get("HDMINET_RECEIVER")


def refused(code, line, call, *arguments):
    try:
        call(*arguments)
    except hdminet.Error as error:
        assert (error.code, error.line) == (code, line), (error.code, error.line, str(error))
    else:
        raise AssertionError("%s was not refused" % call.__name__)


def read(name):
    with open(os.path.join(top, "examples", name), "rb") as file:
        return file.read()


def frames():
    assert hdminet.frame_text(b"\x4f\x82\x10\x00") == "4>f active-source 1.0.0.0"
    assert hdminet.frame_bytes("0>4 standby") == b"\x04\x36"
    refused(10, 0, hdminet.frame_text, b"")
    refused(11, 0, hdminet.frame_text, bytes(17))
    refused(21, 0, hdminet.frame_bytes, "4>0 frob")
    generator, begin = random.Random(1), time.time()
    for _ in range(count):
        frame = generator.randbytes(generator.randint(1, 16))
        assert hdminet.frame_bytes(hdminet.frame_text(frame)) == frame
    print("%d random frames to text and back in Python: %.1f microseconds each" % (count, (time.time() - begin) / max(count, 1) * 1e6))
    # A text with one byte turned is refused, or is the text of a frame itself.
    taken = 0
    for _ in range(count // 10):
        text = bytearray(hdminet.frame_text(generator.randbytes(generator.randint(1, 16))).encode())
        text[generator.randrange(len(text))] ^= generator.randint(1, 255)
        try:
            assert hdminet.frame_text(hdminet.frame_bytes(bytes(text))).encode() == text
            taken += 1
        except hdminet.Error as error:
            assert 20 <= error.code <= 24 and error.line == 0
    assert count < 10000 or 0 < taken < count // 10
    texts, dumps = read("frames.txt").decode().splitlines(), read("frames.hex").decode().split()
    assert [hdminet.frame_bytes(text).hex() for text in texts if text and not text.startswith("#")] == dumps


def edids():
    for name in ("living-room", "monitor-1.4", "overscan"):
        edid = read(name + ".edid")
        assert hdminet.edid_fault(edid) is None and hdminet.edid_text(edid) == read(name + ".edid.txt").decode("latin-1")
    edid = read("living-room.edid")
    assert hdminet.edid_fault(edid[:-1]) == "edid: length"
    refused(30, 0, hdminet.edid_text, edid[:-1])
    refused(30, 0, hdminet.edid_port, edid[:-1], 0x1200)
    for turned, code in ((3, 32), (40, 33), (200, 36)):
        other = edid[:turned] + bytes([edid[turned] ^ 16]) + edid[turned + 1:]
        assert hdminet.edid_fault(other) == hdminet.calls.CODES[code]
        refused(code, 0, hdminet.edid_text, other)
        refused(code, 0, hdminet.edid_port, other, "1.0.0.0")
    passed = hdminet.edid_port(edid, "1.2.0.0")
    assert passed == hdminet.edid_port(edid, 0x1200) and len(passed) == len(edid) and b"\x03\x0c\x00\x12\x00" in passed
    assert hdminet.edid_port(edid, "1.2.0.0", True) != passed
    assert hdminet.edid_read(edid, 0, 126, 200) == (edid + edid)[126:326] and hdminet.edid_read(edid, 1, 0, 1) is None
    refused(30, 0, hdminet.edid_read, edid[:-1], 0, 0, 1)


def judged_edids():
    for name in ("lg-oled55b6v", "denon-avr-x2300w"):
        edid, text = read(name + ".edid"), read(name + ".edid.txt")
        assert hdminet.edid_bytes(text) == hdminet.edid_bytes(text.decode("latin-1")) == edid
        assert hdminet.edid_check(edid) == (read(name + ".findings").decode("latin-1"), True)
        assert hdminet.edid_meaning(edid) == read(name + ".meaning").decode("latin-1")
    refused(40, 1, hdminet.edid_bytes, "")
    refused(41, 2, hdminet.edid_bytes, "edid 1.3\nmaker sam\n")
    refused(40, 2, hdminet.edid_bytes, "edid 1.3\n  what it means\nmaker SAM\n")
    refused(30, 0, hdminet.edid_check, edid[:-1])
    refused(36, 0, hdminet.edid_meaning, edid[:130] + bytes([edid[130] ^ 1]) + edid[131:])


def lines():
    frame, receiver, sender = b"\x40\x44\x41", hdminet.Receiver(), hdminet.Sender(b"\x40\x44\x41", 1000)
    found, was_low = [], False
    for t in range(1000, 90000):
        # A follower acknowledges each block in its tenth slot.
        since = t - 1000 - 4500 - 9 * 2400
        follower = since >= 0 and since % 24000 < 1500 and sender.is_sending()
        is_low = sender.pulls(t) or follower
        if is_low != was_low or receiver.wakes_at() == t:
            reading = receiver.hear(t, is_low)
            sender.hear(receiver.heard, t)
            found += [reading] if reading else []
        was_low = is_low
    assert [(reading.begin, reading.ending, reading.frame(), reading.acknowledged()) for reading in found] == [(1000, "complete", frame, True)]
    assert not sender.is_sending() and sender.slot() is None
    assert sender.fate(found[0]) == "delivered" and hdminet.Sender(frame, 1000).fate(found[0]) is None
    # A spoilt state is refused, and stays as it is.
    receiver.state.place, sender.state.state = 9, 9
    spoilt = bytes(receiver.state), bytes(sender.state)
    refused(2, 0, receiver.hear, 200000, True)
    refused(2, 0, receiver.wakes_at)
    refused(2, 0, receiver.running, 200000)
    refused(2, 0, sender.pulls, 200000)
    refused(2, 0, sender.next_change, 200000)
    refused(2, 0, sender.hear, receiver.heard, 200000)
    refused(2, 0, sender.fate, found[0])
    assert spoilt == (bytes(receiver.state), bytes(sender.state))
    refused(3, 0, hdminet.Receiver().hear, 3000000000001, True)
    refused(3, 0, hdminet.Sender, frame, 3000000000001)
    refused(10, 0, hdminet.Sender, b"", 1)


def runs():
    refused(60, 1, hdminet.emulate, "frob\n", "end 1\n")
    refused(80, 1, hdminet.emulate, "device tv tv 1\n", "at 1 frob\nend 5\n")
    refused(21, 1, hdminet.emulate, "device tv tv 1\n", "at 1 send tv 4>0 frob\nend 5\n")
    refused(87, 2, hdminet.emulate, "device tv tv 1\n", "at 1 press tv play\n")
    refused(100, 1, hdminet.watch, "frob\n")
    refused(60, 1, hdminet.check_text, "frob\n", "end 1\n")
    refused(90, 1, hdminet.check_text, "device tv tv 1\n", "expect frob\nend 5\n")
    # The key of the player is pressed at 1000000; the rounds after it are those of examples/first-path.trace.
    topology = "device tv tv 4\ndevice p1 player 0\nplug p1 tv 1\n"
    script = """label film at 1000000 press p1 play
label on expect within 60000 of film 4>0 image-view-on ack
expect none within 200000 of film 4>f active-source
end 1500000
"""
    assert hdminet.check_text(topology, script) == ("""TAP version 13
ok 1 - line 2: label on expect within 60000 of film 4>0 image-view-on ack
not ok 2 - line 3: expect none within 200000 of film 4>f active-source
# seen 1 from 1000000 to 1200000
# 1068400 1167550 complete 4>f active-source 1.0.0.0 ok by p1 out -
1..2
""", 2, 1)
    assert hdminet.watch(read("capture.edges")).encode() == read("capture.readings")
    for name in sorted(glob.glob(os.path.join(top, "examples", "*.net"))):
        text = read(os.path.basename(name))
        topology, script = text.split(b"script\n", 1)
        begin = time.time()
        trace, edges = hdminet.emulate(topology, script), hdminet.emulate_edges(topology, script)
        took = time.time() - begin
        expected = name[:-3] + "trace"
        assert trace.encode("latin-1") == read(os.path.basename(expected)), name
        if program:
            assert trace.encode("latin-1") == subprocess.run([program, "run"], input=text, capture_output=True, check=True).stdout, name
            assert edges.encode() == subprocess.run([program, "run", "--edges"], input=text, capture_output=True, check=True).stdout, name
            assert hdminet.watch(edges).encode() == subprocess.run([program, "mon"], input=edges.encode(), capture_output=True, check=True).stdout, name
            ran, report = subprocess.run([program, "check"], input=text, capture_output=True), hdminet.check_text(topology, script)
            assert (ran.stdout, ran.returncode) == (report.text.encode("latin-1"), min(report.failed, 1)), name
        if receiver:
            assert subprocess.run([receiver], input=edges.encode(), capture_output=True, check=True).stdout == hdminet.watch(edges).encode(), name
        print("%s: trace and edges in %.1f milliseconds each" % (os.path.basename(name), took * 1000 / 2))
    for name in sorted(glob.glob(os.path.join(top, "examples", "*.test"))):
        text = read(os.path.basename(name))
        report = hdminet.check_text(*text.split(b"script\n", 1))
        kept = name[:-4] + ("failures" if report.failed else "report")
        assert report.text.encode("latin-1") == read(os.path.basename(kept)), name
        assert report.count == len(re.findall("^(?:not )?ok ", report.text, re.M)) and report.failed == len(re.findall("^not ok ", report.text, re.M))
        if program:
            ran = subprocess.run([program, "check"], input=text, capture_output=True)
            assert (ran.stdout, ran.returncode) == (report.text.encode("latin-1"), min(report.failed, 1)), name


# Of each number of each call: the call as it is right, and the most of the number. The least is 0.
INSTANT = 18446744073709551615
EDID, SENT = read("living-room.edid"), (b"\x40\x44\x41", 1000)
READING = hdminet.Reading(1000, 90000, "complete", (0,) * 160)
NUMBERS = [
    ("edid_port", hdminet.edid_port, {"edid": EDID, "address": 0x1200}, {"address": 65535}),
    ("edid_read", hdminet.edid_read, {"edid": EDID, "segment": 0, "offset": 126, "count": 2}, {"segment": 255, "offset": 255, "count": sys.maxsize}),
    ("Receiver.hear", hdminet.Receiver().hear, {"t": 5, "is_low": True}, {"t": INSTANT}),
    ("Receiver.until", hdminet.Receiver().until, {"t": 5}, {"t": INSTANT}),
    ("Receiver.edge", hdminet.Receiver().edge, {"t": 5, "is_low": True}, {"t": INSTANT}),
    ("Receiver.running", hdminet.Receiver().running, {"t": 5}, {"t": INSTANT}),
    ("Sender", hdminet.Sender, {"frame": SENT[0], "begin": 7}, {"begin": INSTANT}),
    ("Sender.hear", hdminet.Sender(*SENT).hear, {"heard": hdminet.Receiver().heard, "t": 5}, {"t": INSTANT}),
    ("Sender.pulls", hdminet.Sender(*SENT).pulls, {"t": 5}, {"t": INSTANT}),
    ("Sender.next_change", hdminet.Sender(*SENT).next_change, {"t": 5}, {"t": INSTANT}),
    ("Reading.frame", lambda **parts: READING._replace(**parts).frame(), {}, {"begin": INSTANT, "at": INSTANT}),
    ("Reading.acknowledged", lambda **parts: READING._replace(**parts).acknowledged(), {}, {"begin": INSTANT, "at": INSTANT}),
    ("Sender.fate", lambda **parts: hdminet.Sender(*SENT).fate(READING._replace(**parts)), {}, {"begin": INSTANT, "at": INSTANT}),
]
# The calls that take bytes, and those that take a text, by the parameter.
OF_BYTES = [
    ("frame_text", hdminet.frame_text, {"frame": b"\x44"}, "frame"),
    ("Sender", hdminet.Sender, {"frame": b"\x44", "begin": 7}, "frame"),
    ("edid_fault", hdminet.edid_fault, {"edid": EDID}, "edid"),
    ("edid_text", hdminet.edid_text, {"edid": EDID}, "edid"),
    ("edid_port", hdminet.edid_port, {"edid": EDID, "address": "1.0.0.0"}, "edid"),
    ("edid_read", hdminet.edid_read, {"edid": EDID, "segment": 0, "offset": 0, "count": 1}, "edid"),
    ("edid_check", hdminet.edid_check, {"edid": EDID}, "edid"),
    ("edid_meaning", hdminet.edid_meaning, {"edid": EDID}, "edid"),
    ("frame_bytes", hdminet.frame_bytes, {"text": "4>4"}, "text"),
    ("edid_bytes", hdminet.edid_bytes, {"text": "edid 1.3"}, "text"),
    ("emulate", hdminet.emulate, {"topology": "", "script": ""}, "topology"),
    ("emulate", hdminet.emulate, {"topology": "", "script": ""}, "script"),
    ("emulate_edges", hdminet.emulate_edges, {"topology": "", "script": ""}, "topology"),
    ("emulate_edges", hdminet.emulate_edges, {"topology": "", "script": ""}, "script"),
    ("check_text", hdminet.check_text, {"topology": "", "script": ""}, "topology"),
    ("check_text", hdminet.check_text, {"topology": "", "script": ""}, "script"),
    ("watch", hdminet.watch, {"edges": ""}, "edges"),
]
# What is neither: flags, and what a receiver gave. The parts of a reading are asked of the calls that take it.
NEITHER = {"self", "is_low", "from_amplifier", "heard", "reading"}


def outcome(call, arguments, name, value):
    """What a call does with another value of one argument: 'taken', also where the library itself refuses it, or the class of the refusal."""
    try:
        call(**{**arguments, name: value})
    except (hdminet.Error, MemoryError):
        return "taken"
    except (ValueError, TypeError) as error:
        assert str(error).startswith((name + " ", "a bit of " + name, "the number of " + name)), error
        return type(error).__name__
    return "taken"


def ranges():
    """Each number of each call is taken from 0 to its most, and refused by its name past them; so is each byte."""
    for called, call, arguments, numbers in NUMBERS:
        for name, most in numbers.items():
            got = [outcome(call, arguments, name, value) for value in (0, most, True, -1, most + 1, most + 8, 2 ** 64 + 7, 1.5, None)]
            assert got == ["taken"] * 3 + ["ValueError"] * 4 + ["TypeError"] * 2, (called, name, got)
    for called, call, arguments, name in OF_BYTES:
        got = [outcome(call, arguments, name, value) for value in ([0, 255], bytearray(2), [-1], [256], 3, 2 ** 64 + 7, True, 1.5, None, ["a"])]
        assert got == ["taken"] * 2 + ["ValueError"] * 2 + ["TypeError"] * 6, (called, name, got)
    for called, call, arguments, _ in NUMBERS[-3:]:
        got = [outcome(call, arguments, "bits", bits) for bits in ((0, 1) * 80, (), (0, 1) * 80 + (0,), (2,), (-1,), (0.0,))]
        assert got == ["taken"] * 2 + ["ValueError"] * 3 + ["TypeError"], (called, got)
    for address in ("f.f.f.f", "0.0.0.0"):
        assert outcome(hdminet.edid_port, {"edid": EDID}, "address", address) == "taken"
    for address in ("10.0.0.0", "-1.0.0.0", "1.2.0", "1.2.0.0.0", "1.2.0.g", ""):
        assert outcome(hdminet.edid_port, {"edid": EDID}, "address", address) == "ValueError", address
    # No number and no bytes of a call are left out above.
    calls = {name: getattr(hdminet, name) for name in hdminet.__all__ if name[0].islower() and name not in ("check", "library_version")}
    calls.update({"%s.%s" % (kind.__name__, name): method for kind in (hdminet.Receiver, hdminet.Sender, hdminet.Reading)
                  for name, method in vars(kind).items() if inspect.isfunction(method) and not name.startswith("_")})
    calls["Sender"] = hdminet.Sender
    tried = {(called, name) for called, _, _, numbers in NUMBERS for name in numbers} | {(called, name) for called, _, _, name in OF_BYTES}
    left = {(called, name) for called, call in calls.items() for name in inspect.signature(call).parameters if name not in NEITHER} - tried
    assert not left, left


def said(topology, program_of):
    """What a room says of some lines, and of what it refuses."""
    told = []
    with hdminet.Room(topology, program_of) as room:
        for line in ("edges on", "run to 400000", "wait", "frob", "show tv", "at 1000000 press p1 play", "run to 5", "edge 1100000", "pulse 1200000 600",
                     "end 1500000", "wait"):
            try:
                told.append(room.ask(line))
            except hdminet.LineRefused as refusal:
                told.append((refusal.line, refusal.cause, refusal.word))
            except hdminet.Refused as refusal:
                told.append(str(refusal))
        return told, room.trace, room.script, room.horizon


def rooms():
    """A room of the library says what one of the program says, also before its first line."""
    plain = "device tv tv 4\ndevice p1 player 0\nplug p1 tv 1\n"
    for topology in (plain, plain + "edid %s\n" % EDID.hex()):
        of_library, of_program = said(topology, None), said(topology, program)
        assert of_library == of_program and len(of_library[1]) > 10, (of_library, of_program)
    try:
        hdminet.Room(plain + "frob\n")
    except hdminet.Error as fault:
        assert (fault.code, fault.line) == (60, 4), fault
    else:
        raise AssertionError("taken")


frames()
edids()
lines()
ranges()
if program and hdminet.calls.has_sessions():
    rooms()
if hasattr(hdminet.calls._library, "hdminet_emulate"):
    judged_edids()
    runs()
print("library.py: ok")
