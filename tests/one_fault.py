#!/usr/bin/env python3
"""tests/one_fault.py [PROGRAM..]: lines on which one width is out of its window, of which `mon --audit` has one remark.

A line has twelve frames, each after seven bit periods or more, with the widths that the standard names (CEC 5.2). In one of them
one width is out of its window by 1 to 60 microseconds: the start bit's low time or total, or a slot's. None of the messages asks for an
answer, so that a frame which breaks leaves nobody waiting. The remark has the kind, the slot and the width, also with --margin 200.

PROGRAM is crates/hdminet/out/hdminet, and what Rattle's own compiler makes of the same sources, hdminet.by-rattle beside it, where none
is given. The last line is 'one fault: N passed, M failed', and the status is 0 where M is 0."""
import random
import sys

from built import objects, programs, told
from line_maker import MESSAGES, PERIOD, PRESENT_INITIATOR, WINDOWS, Slots, edge_file

LINES, FRAMES = 400, 12


def out_of(drawn, kind):
    """A width that is a little out of the window of another."""
    least, most = WINDOWS[kind]
    by = drawn.randint(1, 60)
    return drawn.choice((least - by, most + by))


def fault_of(drawn, slots):
    """What is out in a frame: the kind, the slot, the width."""
    count, kind = len(slots.bits), drawn.choice(("start-low", "start-total", "bit-low", "bit-total", "bit-total"))
    if kind.startswith("start"):
        return kind, None, out_of(drawn, "start" if kind == "start-low" else "start total")
    if kind == "bit-low":
        slot = drawn.randint(1, count)
        return kind, slot, out_of(drawn, "zero" if slots.is_low_long(slot) else "one")
    return kind, drawn.randint(1, count - 1), out_of(drawn, "total")


def stretches(slots, at, fault):
    """The low stretches of a frame that begins at an instant, with a fault or none, and the fall of its last slot."""
    kind, slot, width = fault or ("", 0, 0)
    out = {slot or 0: width} if fault else {}
    return slots.stretches(at, lows=out if kind.endswith("low") else {}, totals=out if kind.endswith("total") else {})


def line_of(number):
    """The edge file of a line, and its fault."""
    drawn = random.Random(number)
    at, bad, made, fault = 60_000, drawn.randrange(FRAMES), [], None
    for place in range(FRAMES):
        slots = Slots(drawn.choice(MESSAGES))
        here = fault_of(drawn, slots) if place == bad else None
        fault = fault or here
        more, last = stretches(slots, at, here)
        made += more
        at = last + PERIOD + PRESENT_INITIATOR + drawn.randint(0, 20_000)
    return edge_file(made, made[-1][1] + 30_000), fault


def remarks(program, flags, edges):
    """The remarks of an audit: the kind, the slot, the width."""
    found, _ = objects(program, ["mon", "--audit", "--json", *flags], edges)
    return [(it["remark"], it.get("slot"), it.get("width")) for it in found if it["type"] == "remark"]


def main():
    passed, failed = 0, []
    for program in programs():
        for number in range(LINES):
            edges, fault = line_of(number)
            for flags in ([], ["--margin", "200"]):
                found = remarks(program, flags, edges)
                if found == [fault]:
                    passed += 1
                else:
                    failed.append("line %d %s: %s, and there is %s" % (number, " ".join(flags), fault, found))
    return told("one fault", passed, failed)


sys.exit(main())
