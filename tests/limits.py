#!/usr/bin/env python3
"""tests/limits.py [PROGRAM]: inputs as long as the documents allow, none of which is refused for want of memory.

No contract says how much memory a call takes, so a call that gives up early, as past 1,000,000 edges of a capture, meets all of
its clauses (docs/proved.md, Memory). Each call here has the greatest input that the pages of docs/formats.md allow: five million edges in
64 MiB of a capture, 16,384 pulls, 1,000,000 instants of a sweep, 1 MiB of steps, of frames in hex, of frames as words, and of frames
to lay. It ends with status 0, says nothing on standard error, and writes as many lines as the input asks for; the first and the
last are worked out by hand. An input of one byte or one item more is refused by name. PROGRAM is crates/hdminet/out/hdminet, which
./hdminet builds, where none is given. The last line is 'limits: N passed, M failed', and the status is 0 where M is 0."""
import sys
import time

from built import Count, program, ran

PROGRAM = program()
EDGES, LONGEST_CAPTURE = 5_000_000, 67_108_864
PULLS, PULSES = 16_384, 4_096
INSTANTS = 1_000_000
LONGEST_INPUT = 1_048_576
# A poll of 4: eight bits of addresses, the end of message, and a 1 that nobody acknowledges (CEC 6.1). In microseconds (CEC 5.2):
# a start bit of 3,700 low and 4,500 in all, slots of 2,400 that are low for 1,500 or 600. It ends at the sample of its last slot.
POLL = [0, 1, 0, 0, 0, 1, 0, 0, 1, 1]
POLL_EDGES = [(0, 0), (3_700, 1)] + [edge for k, bit in enumerate(POLL) for edge in ((4_500 + 2_400 * k, 0), (4_500 + 2_400 * k + (600 if bit else 1_500), 1))]
POLL_END = 4_500 + 2_400 * 9 + 1_050
POLL_EACH = 36_000


def output(words, text):
    return ran(PROGRAM, words, text)


class Limits(Count):
    """inputs that are taken, and that are refused"""

    def taken(self, what, words, text, count, first, last):
        """the input is taken, and gives so many lines"""
        began = time.monotonic()
        told, said, status = output(words, text)
        lines = told.splitlines()
        self.note('%s: status %d, %s' % (what, status, said.strip()), status == 0 and said == '')
        self.note('%s: %d lines, and not %d' % (what, len(lines), count), len(lines) == count)
        self.note('%s: begins with %s' % (what, lines[:1]), first is None or lines[:1] == [first])
        self.note('%s: ends with %s' % (what, lines[-1:]), last is None or lines[-1:] == [last])
        print('limits: %s: %.1f s' % (what, time.monotonic() - began), file=sys.stderr)

    def refused(self, what, words, text, said, status):
        """one more is refused by name"""
        told = output(words, text)
        self.note('%s: status %d, %s' % (what, told[2], told[1].strip()), told == ('', 'hdminet: %s\n' % said, status))


def padded(text, size, line):
    """the text with a line of `#` in front, by which it has so many bytes"""
    return line + '#' * (size - len(text) - len(line) - 1) + '\n' + text


def captures(count):
    """five million edges in 64 MiB: polls one after another, the last one cut off"""
    polls, left = divmod(EDGES, len(POLL_EDGES))
    edges = ['%d %d\n' % (1_000 + POLL_EACH * k + at, level) for k in range(polls) for at, level in POLL_EDGES]
    begin = 1_000 + POLL_EACH * polls
    edges += ['%d %d\n' % (begin + at, level) for at, level in POLL_EDGES[:left]]
    # The last poll is cut off after an edge of a whole slot; no next one comes within 2,750 of the slot's fall, 2,751 is the ending.
    slots = left // 2 - 1
    fall = begin + 4_500 + 2_400 * (slots - 1)
    last = '%d %d silent %s' % (begin, fall + 2_751, ''.join(map(str, POLL[:slots])))
    first = '1000 %d complete 4>4 nack' % (1_000 + POLL_END)
    end = '%d end\n' % (begin + POLL_EACH)
    longest = padded(''.join(edges) + end, LONGEST_CAPTURE, '')
    count.note('%d bytes of a capture' % len(longest), len(longest) == LONGEST_CAPTURE and len(edges) == EDGES)
    count.taken('five million edges', ['mon', '--from', 'edges'], longest, polls + 1, first, last)
    count.taken('five million edges, smoothed', ['mon', '--from', 'edges', '--glitch', '50'], longest, polls + 1, first, last)
    count.refused('a byte more', ['mon', '--from', 'edges'], '#' + longest, 'input too long', 3)
    # The same line by a probe that turns it: it is low at first, and each edge goes the other way.
    turned = ['0 0\n'] + [edge[:-2] + str(1 - int(edge[-2])) + '\n' for edge in edges[:-1]]
    count.taken('five million edges, inverted', ['mon', '--from', 'edges', '--invert'], padded(''.join(turned) + end, LONGEST_CAPTURE, ''), polls + 1, first,
                '%d %d silent %s' % (begin, fall + 2_751, ''.join(map(str, POLL[:slots]))))


ROOM = 'device tv outside-tv 1\nscript\n'
STATE = 'state tv outside-tv f 0.0.0.0 - active=- path=- deck=- menu=- audio=- volume=- mute=- arc=- sel=- lang=- osd=- held=- heard=- sub=- queue=0 dropped=0'


def runs(count):
    """16,384 pulls, each a bad start by itself: it is low for 1 of at least 3,500. A line for each, the state and the end."""
    pulls = ['pull %d 1\n' % (1_000_000 + 10_000 * k) for k in range(PULLS + 1)]
    end = 'end %d\n' % (1_000_000 + 10_000 * (PULLS + 1))
    first, last = '1000000 1000001 bad-start - by - out -', '%s end' % end.split()[1]
    count.taken('16,384 pulls', ['run'], ROOM + ''.join(pulls[:PULLS]) + end, PULLS + 2, first, last)
    count.taken('16,384 pulls, as edges', ['run', '--edges'], ROOM + ''.join(pulls[:PULLS]) + end, 2 * PULLS + 1, '1000000 0', last)
    count.taken('16,384 pulls, as objects', ['run', '--json'], ROOM + ''.join(pulls[:PULLS]) + end, PULLS + 2, None, None)
    count.refused('a pull more', ['run'], ROOM + ''.join(pulls) + end, 'script line %d: too-many' % (PULLS + 1), 1)
    pulses(count)


def pulses(count):
    """4,096 pulses of 400, each 25,000 after the end of the one before: each opens a round of the television or falls into one, and
    between two rounds the line is high for 7,200 at least"""
    end = 104_100_000
    script = ''.join('pulse %d 400\n' % (25_400 * k) for k in range(PULSES)) + 'end %d\n' % end
    told, said, status = output(['run'], 'device tv tv 1\nscript\n' + script)
    rounds = sum(line[0].isdigit() for line in told.splitlines()) - 1
    count.note('4,096 pulses: status %d, %s' % (status, said.strip()), status == 0 and said == '')
    count.note('4,096 pulses: %d rounds' % rounds, 4_000 <= rounds <= end // 7_200 + PULSES)
    count.note('4,096 pulses: another begin or end', told.startswith('0 400 bad-start - by - out -\n') and told.endswith('\n%d end\n' % end))


def sweeps(count):
    """1,000,000 instants of a pulse: the expectation is met wherever it comes, and one more is no range"""
    test = ROOM + 'pulse 1000..%d 1\nexpect once from 0 to 2000000 bad-start\nend 2000000\n'
    count.taken('1,000,000 instants', ['check'], test % (1_000 + INSTANTS - 1), 1, '1000..%d ok' % (1_000 + INSTANTS - 1), '1000..%d ok' % (1_000 + INSTANTS - 1))
    count.refused('an instant more', ['check'], test % (1_000 + INSTANTS), 'script line 1: range', 1)


def steps(count):
    """1 MiB of steps: each line `edge`, of which the first two are edges, and the others are after the end"""
    head = ROOM + 'pulse 1000 1\nend 20000\nsteps\n'
    lines = (LONGEST_INPUT - len(head)) // 5
    longest = padded(head + 'edge\n' * lines, LONGEST_INPUT, '') if (LONGEST_INPUT - len(head)) % 5 else head + 'edge\n' * lines
    count.taken('1 MiB of steps', ['step'], longest, lines, '1000 low tv=start-low', 'ended')
    count.refused('a byte more', ['step'], '#' + longest, 'input too long', 3)


def frames(count):
    """1 MiB of frames, in hex and as words, and 1 MiB of polls to lay, each of which has a low more than it has slots"""
    for what, words, line, told in (('in hex', ['dis'], '40:04\n', '4>0 image-view-on'), ('as words', ['asm'], '4>0 image-view-on\n', '4004')):
        lines = LONGEST_INPUT // len(line) - 1
        longest = padded(line * lines, LONGEST_INPUT, '')
        count.taken('1 MiB of frames ' + what, words, longest, lines, told, told)
        count.refused('a byte more', words, '#' + longest, 'input too long', 3)
    # All times have ten digits.
    lines = LONGEST_INPUT // 15 - 1
    polls = ''.join('%d 4>4\n' % (1_000_000_000 + POLL_EACH * k) for k in range(lines))
    last = 'pull %d 600' % (1_000_000_000 + POLL_EACH * (lines - 1) + 4_500 + 2_400 * 9)
    count.taken('1 MiB of polls to lay', ['lay'], padded(polls, LONGEST_INPUT, ''), (len(POLL) + 1) * lines, 'pull 1000000000 3700', last)


def main():
    count = Limits('limits')
    captures(count)
    runs(count)
    sweeps(count)
    steps(count)
    frames(count)
    return count.told()


if __name__ == '__main__':
    sys.exit(main())
