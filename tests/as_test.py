#!/usr/bin/env python3
"""tests/as_test.py [PROGRAM..]: captures as their own tests, which `mon --as-test` writes and `check --capture` judges.

A dialogue of a television, an amplifier and two players is laid as an edge file, with the widths that the standard names (CEC 5.2). The test
that the program writes of it holds of it. Of each of 20 mutations of the dialogue it does not: a frame is left out, two are exchanged, an
operand is another one, a verdict is turned, an answer comes a second late. It also holds of the same dialogue two seconds later, and with
each answer 20 milliseconds later, which stays within the standard's 200 (CEC 9.2). A test of a name with more `*` than a pattern has is
taken, and holds too. The line `capture` ends each test. And what `mon --replay` writes of a player has an emulated room meet that player
again: the rounds are those of the trace that README.md explains.

PROGRAM is crates/hdminet/out/hdminet, and what Rattle's own compiler makes of the same sources, hdminet.by-rattle beside it, where none
is given. The last line is 'as test: N passed, M failed', and the status is 0 where M is 0."""
import os
import sys

from built import TOP, programs, ran, told
from line_maker import PERIOD, PRESENT_INITIATOR, Slots, edge_file, is_to_all

SECOND = 1_000_000
# A frame: the pause before it, what it says, and whether its last block reads as acknowledged (of a broadcast: as not refused).
DIALOGUE = (
    (PRESENT_INITIATOR, "4f84100004", True),         # player 1 reports its address
    (PRESENT_INITIATOR, "8f84200004", True),         # player 2 reports its own
    (30_000_000, "40" "04", True),      # the film begins
    (PRESENT_INITIATOR, "4f821000", True),
    (40_000, "0f80" "00001000", True),  # the television goes there
    (PRESENT_INITIATOR, "0446", True),               # and asks for a name
    (24_000, "4047" "416c7068612d", True),
    (PRESENT_INITIATOR, "048f", True),               # for the power
    (31_000, "409000", True),
    (5_000_000, "0544" "41", True),     # louder
    (70_000, "0545", True),
    (PRESENT_INITIATOR, "0571", True),               # how loud is it?
    (26_000, "507a" "32", True),
    (2_000_000, "0883", False),         # nobody answers at 8
    (PRESENT_INITIATOR, "0883", False),
    (400_000, "0f36", True),            # all is off
)


def edges_of(dialogue, start=60_000):
    """The edge file of a dialogue, whose last blocks alone may be otherwise acknowledged."""
    at, made = start, []
    for pause, text, taken in dialogue:
        frame = bytes.fromhex(text)
        pulled = [answer != is_to_all(frame) for answer in [True] * (len(frame) - 1) + [taken]]
        more, fall = Slots(frame, pulled).stretches(at + pause)
        made, at = made + more, fall + PERIOD
    return edge_file(made, at + 30_000)


def without(place):
    return DIALOGUE[:place] + DIALOGUE[place + 1:]


def exchanged(place):
    """Two frames in a row, each with the pause of its place."""
    (before, first, one), (after, second, other) = DIALOGUE[place:place + 2]
    return DIALOGUE[:place] + ((before, second, other), (after, first, one)) + DIALOGUE[place + 2:]


def altered(place, text):
    pause, _, taken = DIALOGUE[place]
    return DIALOGUE[:place] + ((pause, text, taken),) + DIALOGUE[place + 1:]


def turned(place):
    pause, text, taken = DIALOGUE[place]
    return DIALOGUE[:place] + ((pause, text, not taken),) + DIALOGUE[place + 1:]


def late(place, by=SECOND):
    pause, text, taken = DIALOGUE[place]
    return DIALOGUE[:place] + ((pause + by, text, taken),) + DIALOGUE[place + 1:]


MUTATIONS = (
    [("without frame %d" % (it + 1), without(it)) for it in (0, 5, 13, 15)]
    + [("frames %d and %d exchanged" % (it + 1, it + 2), exchanged(it)) for it in (0, 2, 7, 14 - 2)]
    + [("operand of frame %d" % (it + 1), altered(it, text)) for it, text in ((1, "8f84300004"), (6, "4047416c7068612b"), (8, "409001"), (12, "507a33"))]
    + [("verdict of frame %d" % (it + 1), turned(it)) for it in (3, 6, 9, 13)]
    + [("frame %d a second late" % (it + 1), late(it)) for it in (4, 6, 8, 12)])
SAME = [
    ("as it is", DIALOGUE),
    ("two seconds later", late(0, 2 * SECOND)),
    ("answers 20 milliseconds later", tuple((pause + 20_000 if pause in (24_000, 31_000, 26_000) else pause, text, taken) for pause, text, taken in DIALOGUE)),
]


def verdict(program, test, dialogue):
    """The status, and the lines of the report that do not hold. A fault in the test itself has status 1 and no report."""
    report, fault, status = ran(program, ["check", "--capture"], test + edges_of(dialogue))
    lines = report.splitlines()
    if not lines or lines[0] != "TAP version 13":
        return "no report: %s" % fault.strip(), []
    return status, [it for it in lines if it.startswith("not ok")]


# A name of nine stars.
STARRED = ((PRESENT_INITIATOR, "0446", True), (24_000, "4047" + "2a" * 9, True), (PRESENT_INITIATOR, "048f", True))


# The rounds of examples/first-path.net, of which the television of a room without the player hears those of the player by its pin alone.
ROUNDS = """\
12000 39150 complete 0>0 nack by tv out -
50705 77855 complete 4>4 nack by - out -
89405 212555 complete 0>f report-physical-address 0.0.0.0 tv ok by tv out -
224105 347255 complete 4>f report-physical-address 1.0.0.0 playback ok by - out -
1000000 1051150 complete 4>0 image-view-on ack by - out -
1068400 1167550 complete 4>f active-source 1.0.0.0 ok by - out -
"""


def replayed(program):
    """Why a room does not meet the player again by what it drove (`mon --replay`): the rounds are those of the room that had it."""
    with open(os.path.join(TOP, "examples/first-path.net"), encoding="utf-8") as file:
        line = ran(program, ["run", "--edges"], file.read())[0]
    pins = ran(program, ["mon", "--replay", "4"], line)[0]
    trace = ran(program, ["run"], "device tv tv 4\nscript\n" + pins)[0]
    rounds = "".join(it for it in trace.splitlines(True) if " complete " in it)
    return None if rounds == ROUNDS else "a replay: %s" % rounds


def main():
    passed, failed = 0, []
    assert len(MUTATIONS) == 20
    for program in programs():
        test, fault, status = ran(program, ["mon", "--as-test"], edges_of(DIALOGUE))
        if status or not test.endswith("\ncapture\n") or test.count("\n") != len(DIALOGUE) + 2 + ("expect no-remark" in test):
            failed.append("%s: status %s, %s\n%s" % (program, status, fault, test))
            continue
        for name, dialogue in SAME:
            status, missed = verdict(program, test, dialogue)
            if status == 0 and not missed:
                passed += 1
            else:
                failed.append("%s: status %s, %s" % (name, status, missed))
        starred = ran(program, ["mon", "--as-test"], edges_of(STARRED))[0]
        status, missed = verdict(program, starred, STARRED)
        if status == 0 and not missed and starred.endswith("\ncapture\n"):
            passed += 1
        else:
            failed.append("a name of stars: status %s, %s\n%s" % (status, missed, starred))
        for name, dialogue in MUTATIONS:
            status, missed = verdict(program, test, dialogue)
            if status == 1 and missed:
                passed += 1
            else:
                failed.append("%s: status %s, %s" % (name, status, missed))
        fault = replayed(program)
        passed += not fault
        failed += [fault] if fault else []
    return told("as test", passed, failed)


if __name__ == "__main__":
    sys.exit(main())
