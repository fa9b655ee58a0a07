#!/usr/bin/env python3
"""tests/wrong_captures.py [PROGRAM..]: captures that are wrong in a known way, each with its one verdict, and captures that are not wrong.

What `mon --verdict` says of each is worked out by docs/mon.md ("The verdict"): the first row of its table that holds. Where the verdict
names a flag, `mon` reads as many more complete frames with this flag as it says, and at least one; where the flag ends what was wrong, the
verdict with it is the one that is due then, so that a capture which is wrong in two ways is read after two flags. Where it says that a
bit lasts about N, `mon --scale` reads by 2400 / N what it reads of the capture whose times are right.

PROGRAM is crates/hdminet/out/hdminet, and what Rattle's own compiler makes of the same sources, hdminet.by-rattle beside it, where none
is given. The last line is 'wrong captures: N passed, M failed', and the status is 0 where M is 0."""
import collections
import json
import random
import sys

from built import ran, rows_told
from line_maker import PRESENT_INITIATOR, Slots, WINDOWS, middle

# Frames that ask for no answer; each broken one of fourteen counts for less than a tenth, and two of them for more.
FRAMES = 14
MESSAGES = [bytes.fromhex(it) for it in (
    '4004', '4f821100', '404742442d50', '5f7201', '507a14', '4f84110004', '044441', '0445', '40900000', '0f8010002000', '0f32656e67', '409000', '547e01', '40')]
HIGH, LOW = 1, 0
# After a verdict that says how long a bit lasts: the capture whose times are right.
ScaledAs = collections.namedtuple('ScaledAs', 'right')


def within(drawn):
    """widths anywhere within their windows"""
    return lambda kind: drawn.randint(*WINDOWS[kind])


def capture(number=0, width=None, frames=FRAMES, hows=None):
    """The edges of a line of so many frames, seven bit periods or more apart, and its end. `width` has the widths, those that the standard
    names where none are given, and `hows` for single frames how they are sent."""
    drawn = random.Random(number)
    at, made = 60_000, []
    for place in range(frames):
        how = dict((hows or {}).get(place, {}))
        slots = Slots(how.pop('frame', MESSAGES[place % len(MESSAGES)]), how.pop('pulled', None), how.pop('goes_on', False), how.pop('eom', None))
        more, fall = slots.stretches(at, width or middle, **how)
        made += more
        at = fall + PRESENT_INITIATOR + drawn.randint(0, 20_000)
    return [edge for fall, rise in made for edge in ((fall, LOW), (rise, HIGH))], at + 30_000


def legal(number=0, frames=FRAMES):
    return capture(number, within(random.Random(number + 1_000)), frames)


# What a capture may be made of, by a wrong probe or a wrong clock.
def times(factor, edges, end):
    return [(round(at * factor), level) for at, level in edges], round(end * factor)


def turned(edges, end):
    """the levels the other way round, from instant 0 on"""
    return [(0, LOW)] + [(at, 1 - level) for at, level in edges], end


def sampled(each, edges, end):
    """a level that is looked at so rarely; of changes between two samples the last one counts"""
    return [(-(-at // each) * each, level) for at, level in edges], -(-end // each) * each


def since(begin, edges, end):
    """what is left where a capture begins at an instant"""
    return [(at - begin, level) for at, level in edges if at > begin], end - begin


def until(end, edges):
    return [edge for edge in edges if edge[0] <= end], end


def pulses(places, width, edges, end):
    """a short pulse of the other level, 200 after each of these edges"""
    made = []
    for place, (at, level) in enumerate(edges):
        made.append((at, level))
        if place in places:
            made += [(at + 200, 1 - level), (at + 200 + width, level)]
    return made, end


# How a capture is written.
def kept(edges):
    """the changes alone: a level that is told again is none, and of several at one instant the last one counts"""
    at_once, level, told_edges = {}, HIGH, []
    for at, one in edges:
        at_once[at] = one
    for at, one in sorted(at_once.items()):
        if one != level:
            told_edges.append((at, one))
            level = one
    return told_edges


def as_edges(edges, end):
    return ''.join('%d %d\n' % edge for edge in kept(edges)) + '%d end\n' % end


def as_vcd(edges, end):
    head = '$timescale 1 us $end\n$var wire 1 ! CEC $end\n$enddefinitions $end\n'
    return head + ''.join('#%d\n%d!\n' % edge for edge in [(0, HIGH)] * (not edges or edges[0][0] > 0) + edges) + '#%d\n' % end


def as_csv(edges, end):
    rows = [(0, HIGH)] * (not edges or edges[0][0] > 0) + edges
    return 'Time [s],CEC\n' + ''.join('%d.%06d,%d\n' % (at // 1_000_000, at % 1_000_000, level) for at, level in rows + [(end, rows[-1][1])])


def as_pin(edges, end):
    rows = [(0, HIGH)] * (not edges or edges[0][0] > 0) + edges
    return '# cec-ctl --store-pin\n# start_monotonic 5.000000000\n' + ''.join(
        '%d.%06d000 %d\n' % (5 + at // 1_000_000, at % 1_000_000, level) for at, level in rows + [(end, rows[-1][1])])


FORMS = (as_edges, as_vcd, as_csv, as_pin)


# The captures: what each is, its text, and the words of its verdicts, of which one after another comes as the flags are followed. A number
# after the word is the value of the flag.
def silent():
    yield 'nothing', as_edges([], 0), ['empty']
    yield 'nothing, as a dump', as_vcd([], 0), ['empty']
    for end in (1, 12_000, 5_000_000, 2_000_000_000_000):
        yield 'idle for %d' % end, as_edges([], end), ['idle']
    for form in FORMS[1:]:
        yield 'idle, %s' % form.__name__, form([], 3_000_000), ['idle']


def right():
    for number in range(8):
        yield 'legal line %d' % number, as_edges(*legal(number)), ['fine']
    for form in FORMS[1:]:
        yield 'a legal line, %s' % form.__name__, form(*legal(20)), ['fine']
    yield 'one frame', as_edges(*legal(30, 1)), ['fine']
    yield 'one of ten frames with a bit that is too long', as_edges(*capture(31, frames=10, hows={4: {'totals': {3: 2_800}}})), ['fine']
    for each in (10, 25, 50):
        # The borders of all windows are multiples of fifty.
        for number in (32, 33):
            yield 'sampled each %d, line %d' % (each, number), as_edges(*sampled(each, *legal(number))), ['fine']
    for number in range(6):
        edges, _ = legal(40 + number)
        cut = edges[-9 - 6 * number][0] + 100
        yield 'cut at %d' % cut, as_edges(*until(cut, edges)), ['fine']
    for place, how in ((3, {'frame': b'\x48', 'pulled': [0]}), (4, {'frame': b'\x48\x8f', 'pulled': [0, 0]}), (5, {'frame': b'\x4f\x36', 'pulled': [1, 0]}),
                       (6, {'frame': b'\x40\x04', 'stop': 1})):
        yield 'a frame that ends as it may, %d' % place, as_edges(*capture(50, frames=8, hows={place: how})), ['fine']


def within_a_frame():
    for number in range(12):
        edges, end = legal(60 + number)
        # Within the second frame, which has four blocks: from its fourth slot on.
        first = len(Slots(MESSAGES[0]).bits) + 1
        begin = edges[2 * (first + 4 + 3 * number)][0]
        yield 'from %d' % begin, as_edges(*since(begin - 90, edges, end)), ['mid-frame']


def slot_falls(edges, slot):
    """for each frame the place of the edge with which a slot falls"""
    return [at + 2 * slot for at, (one, other) in enumerate(zip(edges, edges[1:])) if one[1] == LOW and other[0] - one[0] > 3_000]


def levels_turned():
    for number in range(6):
        yield 'turned, line %d' % number, as_edges(*turned(*legal(80 + number))), ['inverted', 'fine']
    for form in FORMS[1:]:
        yield 'turned, %s' % form.__name__, form(*turned(*legal(90))), ['inverted', 'fine']
    edges, end = capture(91)
    for count in (2, 7, 8, 12):
        places = slot_falls(edges, 3)[:count]
        word = 'chatter' if count >= 8 else 'glitches'
        yield 'turned, with %d pulses' % count, as_edges(*turned(*pulses(places, 40, edges, end))), ['inverted', (word, 50), 'fine']


def short_pulses():
    """The lowest multiple of ten above the width smooths them. Eight are chatter."""
    for width in (5, 12, 40, 90, 150, 170):
        edges, end = capture(100 + width)
        for count in (2, 5, 7, 8, 14):
            places = slot_falls(edges, 3)[:count]
            word = 'chatter' if count >= 8 else 'glitches'
            yield '%d gaps of %d' % (count, width), as_edges(*pulses(places, width, edges, end)), [(word, width // 10 * 10 + 10), 'fine']
        rises = [at + 1 for at in slot_falls(edges, 5)[:9]]
        yield '9 pulses of %d' % width, as_edges(*pulses(rises, width, edges, end)), [('chatter', width // 10 * 10 + 10), 'fine']
    yield 'one gap', as_edges(*pulses(slot_falls(edges, 3)[:1], 40, edges, end)), ['fine']


def other_units():
    """ticks of other clocks: falls stand as in frames, and the shortest time from fall to fall is none of a bit"""
    for factor in (0.02, 0.032768, 0.05, 0.1, 0.25, 0.5, 0.75, 2, 2.5, 3, 4, 5, 6, 8, 10, 12, 14.31818, 16, 20, 24, 25, 32, 48, 50, 100, 500, 1_000):
        yield 'legal, times by %g' % factor, as_edges(*times(factor, *legal(130))), ['unit']
        # Three quarters of a bit of 2,400 are 1,800, which may be a bit's. Four or eight are as long as a period of hum, which has no frames.
        if factor != 0.75:
            yield 'nominal, times by %g' % factor, as_edges(*times(factor, *capture(131))), ['unit', ScaledAs(as_edges(*capture(131)))]


def clocks_off():
    """A start bit of 4,500 lacks what it is beyond 4,300 to 4,700, up to 300 (CEC 5.2.1); of a bit of 2,400 no time is as long as one of 2,050 to
    2,750 where the clock is below 0.854 or above 1.146 of what it should be."""
    for factor, words in ((0.8, ['clock']), (0.83, ['clock']), (0.85, ['clock']), (0.9, [('nearly', 250)]), (0.91, [('nearly', 210)]), (0.92, [('nearly', 160)]),
                          (0.94, [('nearly', 70)]), (0.97, ['fine']), (1, ['fine']), (1.03, ['fine']), (1.06, [('nearly', 70)]), (1.08, [('nearly', 160)]),
                          (1.09, [('nearly', 210)]), (1.1, [('nearly', 250)]), (1.15, ['clock']), (1.18, ['clock']), (1.2, ['clock'])):
        for number in (140, 141):
            then = [ScaledAs(as_edges(*capture(number)))] * (words == ['clock'])
            yield 'clock by %g, %d' % (factor, number), as_edges(*times(factor, *capture(number))), words + then
    # Neither reads a margin of 300 such a start bit, nor are its bits out of the window of a bit: its blocks are read, and nothing is in order.
    for factor in (0.87, 0.88, 1.12, 1.13):
        yield 'clock by %g' % factor, as_edges(*times(factor, *capture(142))), ['odd']


def margins():
    """One of four devices is nearly right: its frames lack so much."""
    for name, how, value in (
            ('start bits of 4,740', {'totals': {0: 4_740}}, 40), ('start bits of 4,250', {'totals': {0: 4_250}}, 50), ('start bits low for 3,440', {'lows': {0: 3_440}}, 60),
            ('start bits low for 4,150', {'lows': {0: 4_150}}, 250), ('start bits of 4,995', {'totals': {0: 4_995}}, 300), ('start bits of 4,000', {'totals': {0: 4_000}}, 300),
            ('bits of 2,795', {'totals': {2: 2_795}}, 50), ('bits of 2,900', {'totals': {5: 2_900}}, 150), ('bits of 3,050', {'totals': {9: 3_050}}, 300),
            ('bits of 2,049', {'totals': {4: 2_049}}, 10), ('bits of 1,951', {'totals': {7: 1_951}}, 100), ('bits of 1,750', {'totals': {8: 1_750}}, 300)):
        yield name, as_edges(*capture(150, hows={place: how for place in (1, 4, 6, 9)})), [('nearly', value)]


def rates():
    """Samples at more than 250 do not tell a one from a zero."""
    for each in (300, 400, 500, 600, 700, 800, 900, 1_000):
        for number in (160, 161):
            yield 'sampled each %d, line %d' % (each, number), as_edges(*sampled(each, *legal(number))), ['rate']


def stuck_lines():
    yield 'low from the start on', as_edges([(1_000, LOW)], 5_000_000), ['stuck']
    yield 'low throughout', as_edges([(0, LOW)], 5_000_000), ['stuck']
    yield 'low twice', as_edges([(1_000, LOW), (800_000, HIGH), (900_000, LOW), (1_500_000, HIGH)], 1_600_000), ['stuck']
    for form in FORMS[1:]:
        yield 'low throughout, %s' % form.__name__, form([(0, LOW)], 5_000_000), ['stuck']
    for frames in (1, 4, 8):
        edges, end = legal(170, frames)
        yield 'a line that hangs after %d frames' % frames, as_edges(edges + [(end, LOW)], 3 * end), ['stuck']


def other_wires():
    for period in (20_000, 16_667, 10_000, 8_333):
        for jitter in (100, 500):
            drawn = random.Random(period + jitter)
            edges = [edge for at in range(5_000, 49 * period, period) for begin in [at + drawn.randint(0, jitter)]
                     for edge in ((begin, LOW), (begin + period * 2 // 5 + drawn.randint(0, jitter), HIGH))]
            yield 'hum of %d, jitter %d' % (period, jitter), as_edges(edges, 50 * period), ['other-wire']
    for name, bit in (('I2C at 100 kHz', 10), ('I2C at 400 kHz', 3), ('a serial line of 115,200', 9), ('a serial line of 57,600', 17)):
        drawn = random.Random(bit)
        edges, at, level = [], 10_000, LOW
        for byte in range(300):
            for _ in range(9):
                if drawn.random() < 0.7:
                    edges.append((at, level))
                    level = 1 - level
                at += bit
            at += drawn.choice((bit, bit, 5_000))
        yield name, as_edges(edges + [(at, HIGH)] * (level == HIGH), at + 1_000), ['other-wire']
    yield 'a line of CEC in milliseconds, whose ones are gone', as_edges(*times(0.001, *capture(180))), ['other-wire']


def noises():
    for mean in (300, 600, 900, 1_500):
        for number in (190, 191, 192):
            drawn, edges, at = random.Random(number), [], 1_000
            for place in range(2_000):
                edges.append((at, place % 2))
                at += 1 + int(drawn.expovariate(1 / mean))
            yield 'noise of %d, %d' % (mean, number), as_edges(edges, at + 1_000), ['noise']
    # A key of a remote control, without its carrier (NEC): 9,000 and 4,500, then bits of 560 and 560 or 1,690.
    drawn, edges, at = random.Random(193), [], 50_000
    for _ in range(12):
        for low, high in [(9_000, 4_500)] + [(560, drawn.choice((560, 1_690))) for _ in range(32)] + [(560, 40_000)]:
            edges += [(at, LOW), (at + low, HIGH)]
            at += low + high
    yield 'infrared light', as_edges(edges, at), ['noise']


def short_ones():
    for count in (1, 2, 20, 90, 161):
        edges = [edge for place in range(count) for edge in ((5_000 + 1_810 * place, LOW), (5_901 + 1_810 * place, HIGH))]
        yield '%d pulses' % count, as_edges(edges, edges[-1][0] + 9_000), ['short']
    for slots in (0, 1, 5, 9):
        edges, _ = legal(200)
        yield 'cut after %d slots' % slots, as_edges(*until(edges[2 * slots + 1][0] + 100, edges)), ['short']


def odd_ones():
    """More than a tenth of the frames is not in order, and no flag reads more."""
    for name, how in (('ones low for 850', {'lows': {2: 850}}), ('zeros low for 1,250', {'lows': {1: 1_250}}), ('zeros low for 1,800', {'lows': {3: 1_800}}),
                      ('acknowledges low for 1,200', {'frame': b'\x40\x04', 'lows': {10: 1_200}}), ('blocks without EOM', {'frame': b'\x40', 'eom': {0: 0}}),
                      ('goes on', {'frame': b'\x40\x04', 'pulled': [0, 1], 'goes_on': True}), ('stops', {'frame': b'\x40\x04', 'stop': 13})):
        yield name, as_edges(*capture(210, hows={place: how for place in (1, 4, 6, 9)})), ['odd']


KINDS = (silent, right, within_a_frame, levels_turned, short_pulses, other_units, clocks_off, margins, rates, stuck_lines, other_wires, noises, short_ones, odd_ones)


def run(program, flags, text):
    return ran(program, ['mon', *flags], text)[0]


def complete(program, flags, text):
    """how many frames are read whole"""
    return sum(it.split()[2:3] == ['complete'] for it in run(program, ['--from-start'] + flags, text).splitlines())


def told(program, flags, text):
    """what the readings tell, without their times"""
    return [it.split()[2:] for it in run(program, ['--from-start'] + flags, text).splitlines()]


def scaled_fault(program, text, bit, right):
    """what is not read, by a bit of so many microseconds, as it is read of the right capture, or nothing"""
    flags = ['--scale', '%.4f' % (2_400 / bit)]
    if told(program, flags, text) != told(program, [], right) or not told(program, [], right):
        return '%s reads other frames' % ' '.join(flags)
    if run(program, ['--verdict'] + flags, text) != run(program, ['--verdict'], right):
        return '%s has another verdict' % ' '.join(flags)
    scaled = run(program, ['--edges'] + flags, text)
    for view in (['--audit'], ['--timing', '--json'], ['--report'], ['--as-test'], ['--replay', '4'], ['--fold', '--margin', '50']):
        if run(program, view + flags, text) != run(program, view, scaled):
            return '%s is not what it is of the scaled line' % ' '.join(view + flags)
    return None


def fault_of(program, text, words):
    """what is not as it should be, or nothing"""
    flags = []
    for step, due in enumerate(words):
        word, value = due if isinstance(due, tuple) else (due, None)
        (line,) = run(program, ['--verdict', '--json'] + flags, text).splitlines() or ['{"word":null,"line":"nothing"}']
        verdict = json.loads(line)
        if verdict['word'] != word or value is not None and verdict['value'] != value:
            return '%sdue %s, and there is %s' % (' '.join(flags + [': '] * bool(flags)), due, verdict['line'])
        if isinstance(words[-1], ScaledAs) and step + 2 == len(words):
            return scaled_fault(program, text, verdict['micros'], words[-1].right)
        if not verdict['hint']:
            return 'no flag for %s' % words[step + 1:] if words[step + 1:] else None
        more = flags + [verdict['hint']] + ([str(verdict['value'])] if verdict['value'] is not None else [])
        gained = complete(program, more, text) - complete(program, flags, text)
        if gained != verdict['more'] or gained <= 0:
            return '%s reads %d more: %s' % (' '.join(more), gained, verdict['line'])
        flags = more
    return None


def main():
    return rows_told('wrong captures', KINDS, lambda program, kind, text, words: fault_of(program, text, words))


if __name__ == '__main__':
    sys.exit(main())
