#!/usr/bin/env python3
"""tests/verdicts.py [PROGRAM..]: captures that are wrong in a known way, and legal lines, of which `mon --verdict` says so.

A line has a dozen frames, each after seven bit periods or more, with widths within the standard's windows (CEC 5.2). A legal one is fine.
It is then read through a probe that turns it, by another unit of time, with chatter at its edges, by a clock that is off, from the middle
of a frame, or in samples that are too far apart; or it is no line of CEC at all: noise, hum, a line that hangs, one that is silent. Of a
verdict with a hint the program reads more complete frames where it is run with that flag.

PROGRAM is crates/hdminet/out/hdminet, and what Rattle's own compiler makes of the same sources, hdminet.by-rattle beside it, where none
is given. The last line is 'verdicts: N passed, M failed', and the status is 0 where M is 0."""
import json
import random
import sys

from built import programs, ran, told
from line_maker import MESSAGES, PERIOD, PRESENT_INITIATOR, WINDOWS, Slots, is_to_all

EACH, FRAMES = 20, 12
# The messages, and a poll that nobody takes.
SAID = MESSAGES + [b"\x44"]


def legal(drawn, narrow=False):
    """The stretches of a line, and its end. A narrow one has the standard's nominal widths, a few microseconds off."""
    def width(kind):
        least, most = WINDOWS[kind]
        middle = (least + most) // 2
        return drawn.randint(middle - 20, middle + 20) if narrow else drawn.randint(least, most)
    at, made = 60_000, []
    for _ in range(FRAMES):
        frame = drawn.choice(SAID)
        more, fall = Slots(frame, [not is_to_all(frame) and len(frame) > 1] * len(frame)).stretches(at, width)
        made += more
        at = fall + PERIOD + PRESENT_INITIATOR + drawn.randint(0, 20_000)
    return made, at + 30_000


def edges_of(made):
    return [edge for fall, rise in made for edge in ((fall, 0), (rise, 1))]


def text_of(edges, end):
    """An edge file: levels that are told again are left out, and edges at one instant."""
    level, kept = 1, []
    for at, low in edges:
        if kept and kept[-1][0] == at:
            kept.pop()
            level = 1 - level
        if low != level:
            kept.append((at, low))
            level = low
    return "".join("%d %d\n" % it for it in kept) + "%d end\n" % max(end, kept[-1][0] if kept else 0)


def turned(edges):
    return ([(0, 0)] if not edges or edges[0][0] > 0 else []) + [(at, 1 - level) for at, level in edges if at > 0]


def sampled(edges, end, each):
    """The level at each sample, as edges at the first sample that has them."""
    return [(-(-at // each) * each, level) for at, level in edges], end // each * each


def chattering(drawn, edges, widest):
    made = []
    for at, level in edges:
        made.append((at, level))
        if drawn.random() < 0.3:
            gap, pulse = drawn.randint(1, widest), drawn.randint(1, widest)
            made += [(at + gap, 1 - level), (at + gap + pulse, level)]
    return made


def scaled(edges, end, factor):
    return [(int(at * factor), level) for at, level in edges], int(end * factor)


def noise(drawn, mean, count):
    at, made = 1_000, []
    for place in range(count):
        made.append((at, place % 2))
        at += 1 + int(drawn.expovariate(1 / mean))
    return made, at + 1_000


def hum(drawn, period, count):
    at, made = 5_000, []
    for _ in range(count):
        made += [(at, 0), (at + period // 2 + drawn.randint(-300, 300), 1)]
        at += period + drawn.randint(-300, 300)
    return made, at


def cases(number):
    """What is made of a line, and the words of which its verdict has one."""
    drawn = random.Random(number)
    made, end = legal(drawn)
    edges = edges_of(made)
    plain, plain_end = legal(drawn, narrow=True)
    narrow = edges_of(plain)
    yield "legal", text_of(edges, end), {"fine"}
    yield "turned", text_of(turned(edges), end), {"inverted"}
    for factor in (0.02, 0.1, 0.5, 2, 10, 1000):
        yield "times by %g" % factor, text_of(*scaled(edges, end, factor)), {"unit"}
    for factor in (0.94, 1.06):
        yield "clock by %g" % factor, text_of(*scaled(narrow, plain_end, factor)), {"nearly"}
    for factor in (0.83, 1.18):
        yield "clock by %g" % factor, text_of(*scaled(narrow, plain_end, factor)), {"clock"}
    for widest in (10, 40):
        yield "chatter of %d" % widest, text_of(chattering(drawn, edges, widest), end), {"chatter"}
    for each in (500, 700, 1000):
        yield "sampled each %d" % each, text_of(*sampled(edges, end, each)), {"rate"}
    cut = drawn.randrange(2, 10)
    since = made[cut][0] - 100
    yield "from the middle", text_of([(at - since, level) for at, level in edges if at > since], end - since), {"mid-frame"}
    yield "noise", text_of(*noise(drawn, 900, 2_000)), {"noise"}
    yield "a fast bus", text_of(*noise(drawn, 20, 2_000)), {"other-wire"}
    yield "few pulses", text_of(*noise(drawn, 900, 20)), {"short"}
    for period in (20_000, 16_667, 10_000, 8_333):
        yield "hum of %d" % period, text_of(*hum(drawn, period, 50)), {"other-wire"}
    yield "stuck", text_of([(1_000, 0)], 5_000_000), {"stuck"}
    yield "stuck in the end", text_of(edges + [(end, 0)], 3 * end), {"stuck"}
    yield "silent", text_of([], 5_000_000), {"idle"}
    yield "nothing", text_of([], 0), {"empty"}


def run(program, flags, text):
    return ran(program, ["mon", *flags], text)[0]


def complete(program, flags, text):
    return sum(line.split()[2:3] == ["complete"] for line in run(program, flags, text).splitlines())


def fault_of(program, name, text, words):
    """What is not as it should be, or nothing."""
    line = run(program, ["--verdict"], text).strip()
    told_so = json.loads(run(program, ["--verdict", "--json"], text))
    if not line.startswith("verdict ") or told_so["line"] != line or told_so["type"] != "verdict":
        return "%s: no verdict, %r" % (name, line)
    if told_so["word"] not in words:
        return "%s: not one of %s: %s" % (name, ", ".join(sorted(words)), line)
    if told_so["hint"]:
        flags = [told_so["hint"]] + ([str(told_so["value"])] if told_so["value"] is not None else [])
        more = complete(program, flags, text) - complete(program, [], text)
        if more != told_so["more"]:
            return "%s: %s reads %d more: %s" % (name, " ".join(flags), more, line)
    return None


def main():
    passed, failed = 0, []
    for program in programs():
        for number in range(EACH):
            for name, text, words in cases(number):
                fault = fault_of(program, name, text, words)
                if fault:
                    failed.append("line %d, %s" % (number, fault))
                else:
                    passed += 1
    return told("verdicts", passed, failed)


if __name__ == "__main__":
    sys.exit(main())
