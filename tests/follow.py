#!/usr/bin/env python3
"""tests/follow.py [PROGRAM]: writes captures into `hdminet mon --follow` piece by piece, and reads what it writes while the pipe is
open, which no test of `rt ci` can. PROGRAM is crates/hdminet/out/hdminet, which ./hdminet builds, where none is given. The last line
is 'follow: N passed, M failed'."""
import json
import random
import select
import subprocess
import sys

from built import program, tests_told
from line_maker import Slots

PROGRAM = program()
NAMES = 'Time [s],CEC\n' + '5.000000,1\n'
HEAD = '# cec-ctl --store-pin\n# version 1\n# start_monotonic 100.000000000\n# start_timeofday 0.000000\n# log_addr_mask 0x0000\n# phys_addr f.f.f.f\n'
MEGABYTE = 1024


def edges_of(blocks, begin):
    """The edges of a message: (instant, level), by the nominal times of the standard. Each block is a byte, its end of message and
    how it is acknowledged."""
    slots = Slots([byte for byte, _, _ in blocks], [not ack for _, _, ack in blocks], True, {place: last for place, (_, last, _) in enumerate(blocks)})
    return [edge for fall, rise in slots.stretches(begin)[0] for edge in ((fall, 0), (rise, 1))]


def pin_line(at, level):
    return '%d.%06d000 %d\n' % (100 + at // 1000000, at % 1000000, level)


def csv_line(at, level):
    return '%d.%06d,%d\n' % (5 + at // 1000000, at % 1000000, level)


def edge_line(at, level):
    return '%d %d\n' % (at, level)


class Bus:
    """A capture that is followed, and the pipe into it."""

    def __init__(self, form, flags=()):
        self.mon = subprocess.Popen([PROGRAM, 'mon', '--from', form, '--follow', *flags], stdin=subprocess.PIPE, stdout=subprocess.PIPE, stderr=subprocess.PIPE, bufsize=0)

    def send(self, text):
        self.mon.stdin.write(text.encode())
        self.mon.stdin.flush()

    def is_quiet(self, seconds=0.05):
        """Nothing comes."""
        return not select.select([self.mon.stdout], [], [], seconds)[0]

    def line(self, seconds=5):
        """The next line, where one comes in time."""
        return self.mon.stdout.readline().decode() if select.select([self.mon.stdout], [], [], seconds)[0] else ''

    def close(self):
        """The writer goes away."""
        self.mon.stdin.close()
        self.mon.stdin = None

    def ends_well(self):
        """Nothing more is written."""
        self.close()
        return self.ended() == (0, '', '')

    def ended(self):
        rest, fault = self.mon.communicate()
        return self.mon.returncode, rest.decode(), fault.decode()


def watched(form, text, *flags):
    done = subprocess.run([PROGRAM, 'mon', '--from', form, *flags], input=text.encode(), capture_output=True)
    # The verdict of a line that is not fine is said of a whole capture alone.
    told = ''.join(line for line in done.stderr.decode().splitlines(True) if not line.startswith('hdminet: verdict '))
    return done.returncode, done.stdout.decode(), told


def reads_edges_at_once():
    """A frame that is acknowledged is over before its last bit rises: its reading comes with that rise, before the next edge, and
    one that is over after the last edge with the line of the end."""
    bus = Bus('edges')
    frame = edges_of([(0x40, 0, 0), (0x04, 1, 0)], 20000)
    for at, level in frame[:-1]:
        bus.send(edge_line(at, level))
    right = bus.is_quiet()
    bus.send(edge_line(*frame[-1]))
    right = right and bus.line() == '20000 %d complete 4>0 image-view-on ack\n' % (20000 + 4500 + 19 * 2400 + 1050) and bus.is_quiet()
    for at, level in edges_of([(0x44, 1, 1)], 200000):
        bus.send(edge_line(at, level))
    right = right and bus.is_quiet()
    bus.send('300000 end\n')
    right = right and bus.line() == '200000 227150 complete 4>4 nack\n'
    return bus.ends_well() and right


def reads_pins_at_once():
    """A frame that nobody refuses is over after its last bit has risen: its reading comes with the level that is told again, or with
    an event of another pin."""
    bus = Bus('pin')
    bus.send(HEAD + pin_line(0, 1))
    right = True
    for begin, told in ((20000, '1'), (200000, '3')):
        for at, level in edges_of([(0x4F, 0, 1), (0x82, 0, 1), (0x10, 0, 1), (0x00, 1, 1)], begin):
            bus.send(pin_line(at, level))
        right = right and bus.is_quiet()
        bus.send(pin_line(begin + 110000, 1)[:-2] + told)
        right = right and bus.is_quiet()
        bus.send('\n')
        right = right and bus.line() == '%d %d complete 4>f active-source 1.0.0.0 ok\n' % (begin, begin + 4500 + 39 * 2400 + 1050)
    return bus.ends_well() and right


def reads_rows_at_once():
    """The same of rows, of the wire of a name: the reading comes with the row after the last rise."""
    bus = Bus('csv', ('--signal', 'CEC'))
    row = lambda at, level: csv_line(at, level).replace(',', ',1,')
    bus.send('Time [s],HPD, CEC\n5.000000,1,1\n')
    right = True
    for begin in (20000, 200000):
        for at, level in edges_of([(0x4F, 0, 1), (0x82, 0, 1), (0x10, 0, 1), (0x00, 1, 1)], begin):
            bus.send(row(at, level))
        right = right and bus.is_quiet()
        bus.send(row(begin + 110000, 1))
        right = right and bus.line() == '%d %d complete 4>f active-source 1.0.0.0 ok\n' % (begin, begin + 4500 + 39 * 2400 + 1050)
    right = bus.ends_well() and right
    bus = Bus('csv')
    bus.send('Time [ms],CEC\n0,High\n')
    for at, level in edges_of([(0x4F, 0, 1), (0x82, 0, 1), (0x10, 0, 1), (0x00, 1, 1)], 20000):
        bus.send('%d.%03d,%s\n' % (at // 1000, at % 1000, ('Low', '3.3')[level]))
    right = right and bus.is_quiet()
    bus.send('130,1.4\n')
    right = right and bus.line() == '20000 119150 complete 4>f active-source 1.0.0.0 ok\n'
    return bus.ends_well() and right


def remarks_at_once():
    """With --audit what there is to remark of a reading comes with the next fall, that of a low drive with its rise, and the summary
    with the end of the pipe."""
    bus = Bus('edges', ('--audit',))
    for at, level in edges_of([(0x40, 1, 1)], 20000):
        bus.send(edge_line(at, level))
    right = bus.is_quiet()
    bus.send(edge_line(80000, 0))
    right = right and bus.line() == '20000 47150 complete 4>0 nack\n' and bus.line() == '  block 1 not acknowledged, attempt 1\n' and bus.is_quiet()
    for at, level in ((83700, 1), (84500, 0), (85100, 1)):
        bus.send(edge_line(at, level))
    right = right and bus.is_quiet()
    bus.send(edge_line(85600, 0))
    right = right and bus.line() == '80000 85600 short 1\n' and bus.is_quiet()
    bus.send(edge_line(89200, 1))
    right = right and bus.line() == '  low drive 3600\n' and bus.is_quiet()
    bus.send('100000 end\n')
    right = right and bus.is_quiet()
    bus.close()
    status, text, fault = bus.ended()
    return right and (status, fault) == (0, '') and text.startswith('  all readings\n  from 4: 0 taken, 1 not taken, 0 broken\n')


def objects_at_once():
    """With --json each object comes when its line would, and with --strict the status comes at the end. The line falls 1,100
    after the first bit of the second frame did: this bit is not measured, since a low drive breaks it (CEC 7.4)."""
    bus = Bus('edges', ('--audit', '--json', '--strict'))
    for at, level in edges_of([(0x40, 1, 1)], 20000):
        bus.send(edge_line(at, level))
    right = bus.is_quiet()
    bus.send(edge_line(80000, 0))
    right = right and has_fields(bus.line(), line='20000 47150 complete 4>0 nack', type='reading', begin=20000, close=47150, ending='complete', initiator='4', destination='0', verdict='nack')
    right = right and has_fields(bus.line(), line='  block 1 not acknowledged, attempt 1', type='note', note='attempt', block=1, verdict='nack', attempt=1) and bus.is_quiet()
    for at, level in ((83700, 1), (84500, 0), (85100, 1)):
        bus.send(edge_line(at, level))
    right = right and bus.is_quiet()
    bus.send(edge_line(85600, 0))
    right = right and has_fields(bus.line(), line='80000 85600 short 1', type='reading', ending='short', bits='1') and bus.is_quiet()
    bus.send(edge_line(89200, 1))
    right = right and has_fields(bus.line(), line='  low drive 3600', type='remark', remark='low-drive', width=3600) and bus.is_quiet()
    bus.send('100000 end\n')
    right = right and bus.is_quiet()
    bus.close()
    status, text, fault = bus.ended()
    objects = [json.loads(line) for line in text.splitlines()]
    return right and (status, fault) == (1, 'hdminet: the audit has a remark\n') and [o['type'] for o in objects[:2]] == ['summary', 'sender'] and objects[1]['not_taken'] == 1


def waits_for_the_shortest_pulse():
    """With --glitch an edge waits until the line has stayed as it is for so long: a reading that ends with a rise comes with the line
    that says so, and a pulse that is shorter is passed over."""
    bus = Bus('edges', ('--glitch', '100'))
    bus.send(edge_line(20000, 0) + edge_line(20300, 1))
    right = bus.is_quiet()
    bus.send(edge_line(20400, 0))
    right = right and bus.line() == '20000 20300 bad-start -\n' and bus.is_quiet()
    bus.send(edge_line(20450, 1) + edge_line(40000, 0) + edge_line(40300, 1))
    right = right and bus.is_quiet()
    bus.send('50000 end\n')
    right = right and bus.line() == '40000 40300 bad-start -\n'
    return bus.ends_well() and right


def turns_levels():
    """With --invert a line is read the other way round, as that of a probe that turns its level."""
    bus = Bus('pin', ('--invert',))
    bus.send(HEAD + pin_line(0, 0))
    right = True
    for begin, told in ((20000, '0'), (200000, '3')):
        for at, level in edges_of([(0x4F, 0, 1), (0x82, 0, 1), (0x10, 0, 1), (0x00, 1, 1)], begin):
            bus.send(pin_line(at, 1 - level))
        right = right and bus.is_quiet()
        bus.send(pin_line(begin + 110000, 0)[:-2] + told + '\n')
        right = right and bus.line() == '%d %d complete 4>f active-source 1.0.0.0 ok\n' % (begin, begin + 4500 + 39 * 2400 + 1050)
    return bus.ends_well() and right


def has_fields(told, /, **fields):
    """A line is an object with these fields."""
    said = json.loads(told) if told else {}
    return all(name in said and said[name] == value for name, value in fields.items())


def random_capture(form, number):
    """The lines of a capture of frames, broken frames and pulses."""
    r = random.Random(number)
    at, edges = r.randrange(0, 30000), []
    for _ in range(r.randrange(1, 8)):
        blocks = [(r.randrange(256), 0, r.randrange(2)) for _ in range(r.randrange(0, 4))] + [(r.randrange(256), 1, r.randrange(2))]
        frame = edges_of(blocks, at)
        cut = r.randrange(0, 3)
        if cut == 0:
            frame = frame[:2 * r.randrange(1, len(frame) // 2 + 1)]
        elif cut == 1:
            frame = [(t + r.randrange(-120, 121), level) for t, level in frame]
        if r.randrange(4) == 0:
            frame.append((frame[-1][0] + r.randrange(1, 9000), 0))
            frame.append((frame[-1][0] + r.randrange(1, 9000), 1))
        edges += frame
        at = edges[-1][0] + r.choice([700, 2000, 5000, 12000, 17000, 60000])
    line = {'pin': pin_line, 'csv': csv_line, 'edges': edge_line}[form]
    text = [line(*edge) for edge in edges]
    if form != 'edges':
        last = [line(edges[-1][0] + r.randrange(1, 20000), 1)] if r.randrange(2) else []
        return [HEAD if form == 'pin' else NAMES] + text + last
    if r.randrange(3) == 0:
        text.insert(r.randrange(len(text)), '# a remark\n')
    return text + ['%d end\n' % (edges[-1][0] + r.randrange(0, 20000))]


ASKED = [('--from-start',), ('--from-idle',), ('--from-idle', '--json'), ('--from-idle', '--glitch', '60'), ('--from-idle', '--invert'), ('--from-start', '--fold'), ('--from-start', '--fold', '--json'), ('--from-idle', '--fold'), ('--from-start', '--fold', '--glitch', '60'), ('--audit',), ('--timing',), ('--from-start', '--json'), ('--audit', '--json'), ('--audit', '--strict'), ('--timing', '--json', '--strict'), ('--from-start', '--invert'), ('--from-start', '--glitch', '60'),
         ('--audit', '--glitch', '60'), ('--audit', '--invert', '--glitch', '300')]


def waits_until_the_line_is_idle():
    """With --from-idle nothing comes before the line has been high for 7,200, then one line for what was read before, and from there on
    each reading at once; where it never is, that line comes with the end of the pipe."""
    bus = Bus('edges', ('--from-idle',))
    for at, level in ((1000, 0), (1600, 1), (3400, 0), (4000, 1)):
        bus.send(edge_line(at, level))
    right = bus.is_quiet()
    bus.send(edge_line(11200, 0))
    right = right and bus.line() == '0 11200 joined -\n' and bus.is_quiet()
    bus.send(edge_line(14200, 1))
    right = right and bus.line() == '11200 14200 bad-start -\n' and bus.ended()[0] == 1
    bus = Bus('pin', ('--from-idle',))
    bus.send(HEAD + pin_line(0, 0) + pin_line(5000, 1))
    right = right and bus.is_quiet()
    bus.send(pin_line(12199, 1))
    right = right and bus.is_quiet()
    bus.close()
    return bus.ended() == (0, '0 12199 joined -\n', '') and right


def folds_bad_starts():
    """With --fold bad starts in a row wait until another reading is over, and come before it as one line; the last ones come with the end
    of the pipe."""
    bus = Bus('edges', ('--fold',))
    for at, level in ((1000, 0), (1400, 1), (2000, 0), (2400, 1)):
        bus.send(edge_line(at, level))
    right = bus.is_quiet()
    frame = edges_of([(0x44, 1, 0)], 20000)
    for at, level in frame:
        bus.send(edge_line(at, level))
    right = right and bus.line() == '1000 2400 bad-starts 2\n' and bus.line() == '20000 47150 complete 4>4 ack\n'
    bus.send(edge_line(100000, 0) + edge_line(100300, 1) + '200000 end\n')
    right = right and bus.is_quiet()
    bus.close()
    return bus.ended() == (0, '100000 100300 bad-start -\n', '') and right


def is_text_of_the_whole():
    """What is written is the text of the whole, with the same status and the same fault; before a fault it is a front. So is an
    audit."""
    return all(is_whole(form, number, asked) for form in ('edges', 'pin', 'csv') for number in range(40) for asked in ASKED)


def is_whole(form, number, asked):
    lines = random_capture(form, number)
    flags = asked + (('--margin', '150') if number % 3 == 0 else ())
    want = watched(form, ''.join(lines), *flags)
    bus = Bus(form, flags)
    for line in lines:
        bus.send(line)
    status, text, fault = bus.ended()
    if (status, text) != want[:2] or fault != (want[2] if status else ''):
        return False
    broken = lines[:len(lines) // 2] + ['frob\n'] + lines[len(lines) // 2:]
    old = watched(form, ''.join(broken), *flags)
    status, text, fault = followed(form, ''.join(broken), *flags)
    return not old[1] and (status, fault) == (old[0], old[2]) and want[1].startswith(text)


def followed(form, text, *flags):
    return watched(form, text, '--follow', *flags)


def has_faults():
    """The faults are those of `mon`, of a missing end too; a line of more than 4,096 bytes is too long."""
    right = True
    for form, text in (('edges', ''), ('edges', '5 0\n4 1\n'), ('edges', '5 0\n9 1\n'), ('edges', '5 0\n9 end\n10 1\n'), ('pin', HEAD + '99.000000000 1\n'), ('pin', HEAD + '100.5 1\n'), ('csv', ''), ('csv', 'Time [s]\n'), ('csv', NAMES + '5.1,2\n'), ('csv', NAMES + '4.9,0\n')):
        old, new = watched(form, text, '--from-start'), followed(form, text)
        right = right and old[0] == new[0] == 1 and old[2] == new[2]
    right = right and followed('edges', '#' * 4097 + '\n5 end\n')[::2] == (3, 'hdminet: input too long\n')
    return right and followed('edges', '#' * 4096 + '\n5 end\n') == (0, '', '')


def fails_to_write():
    """A reader that goes away is a fault of the write."""
    frame = ''.join(edge_line(*edge) for edge in edges_of([(0x40, 1, 0)], 20000))
    with open('/dev/full', 'wb') as full:
        done = subprocess.run([PROGRAM, 'mon', '--from', 'edges', '--follow'], input=(frame + '90000 end\n').encode(), stdout=full, stderr=subprocess.PIPE)
    return done.returncode == 3 and done.stderr.startswith(b'hdminet: write fault after 0 bytes')


def takes_no_memory():
    """An hour of a busy bus leaves the program as small as it was, with an audit too."""
    return is_small(()) and is_small(('--from-idle', '--fold')) and is_small(('--audit',)) and is_small(('--audit', '--json', '--strict', '--glitch', '50'))


def is_small(flags):
    bus = Bus('pin', flags)
    bus.send(HEAD)
    frame = edges_of([(0x4F, 0, 1), (0x82, 0, 1), (0x10, 0, 1), (0x00, 1, 1)], 0)
    count = 0
    for begin in range(20000, 3600 * 1000000, 400000):
        bus.send(''.join(pin_line(begin + at, level) for at, level in frame) + pin_line(begin + 120000, 1))
        count += bus.line() != ''
    with open('/proc/%d/status' % bus.mon.pid, encoding='utf-8') as file:
        peak = [int(line.split()[1]) for line in file if line.startswith('VmHWM')][0]
    bus.close()
    return count == len(range(20000, 3600 * 1000000, 400000)) and peak < 4 * MEGABYTE and bus.ended()[0] == 0


def main():
    sys.exit(tests_told('follow', [reads_edges_at_once, reads_pins_at_once, reads_rows_at_once, remarks_at_once, objects_at_once, waits_for_the_shortest_pulse, turns_levels, waits_until_the_line_is_idle, folds_bad_starts, is_text_of_the_whole, has_faults, fails_to_write, takes_no_memory]))


if __name__ == '__main__':
    main()
