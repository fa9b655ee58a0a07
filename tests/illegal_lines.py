#!/usr/bin/env python3
"""tests/illegal_lines.py [PROGRAM..]: lines that HDMI 1.4 CEC does not allow, each with its remark.

A line has a frame of the television, then something that a clause of the standard forbids, then a frame of a player. Each line that shows
what is wrong has the remark of docs/mon.md ("Audit of a capture") that is due, with its values, and no other; the status of `mon --audit
--strict` is 1. What is due is worked out from that page and the times of the standard. A few lines have a note in place of a remark.

PROGRAM is crates/hdminet/out/hdminet, and what Rattle's own compiler makes of the same sources, hdminet.by-rattle beside it, where none
is given. The last line is 'illegal lines: N passed, M failed', and the status is 0 where M is 0."""
import sys

from built import objects, rows_told
from line_maker import NEW_INITIATOR, PERIOD, PRESENT_INITIATOR, RETRY, SAMPLE, Slots, edge_file, over

# So long the line is idle before and after what is wrong, in microseconds.
QUIET = 100_000
SECOND = 1_000_000


class Bus:
    """a line, told frame by frame: its stretches and the fall of its last slot"""

    def __init__(self):
        self.stretches, self.last = [], 0
        self.send('04', 60_000)

    def send(self, frame, after=QUIET, pulled=None, goes_on=False, eom=None, stop=None, lows=None, totals=None):
        """a frame that begins so long after the fall of the last slot"""
        slots = Slots(bytes.fromhex(frame), pulled, goes_on, eom)
        made, self.last = slots.stretches(self.last + after, lows=lows, totals=totals, stop=stop)
        self.stretches = over(self.stretches, made)

    def low(self, width, after):
        """a low stretch so long after the fall of the last slot, which counts as one"""
        self.last += after
        self.stretches = over(self.stretches, [(self.last, self.last + width)])

    def gap(self, slot_fall, after, width):
        """the line is high for a while within the low stretch that falls at an instant"""
        (rise,) = [it for fall, it in self.stretches if fall == slot_fall]
        self.stretches.remove((slot_fall, rise))
        self.stretches = sorted(self.stretches + [(slot_fall, slot_fall + after), (slot_fall + after + width, rise)])

    def text(self, quiet=QUIET):
        """the edge file, with a player's frame at its end"""
        self.send('8f36', quiet)
        return edge_file(self.stretches, self.stretches[-1][1] + 30_000)


def line(*sends, quiet=QUIET):
    """the edge file of a line with such frames, each with how it is sent"""
    bus = Bus()
    for frame, how in sends:
        bus.send(frame, **how)
    return bus.text(quiet)


def start_bits():
    """CEC 5.2.1: a start bit is low for 3,500 to 3,900, and lasts 4,300 to 4,700. What follows of its frame is bad starts after a bad start."""
    for low in (40, 1_500, 2_500, 2_700, 3_000, 3_300, 3_400, 3_450, 3_490, 3_499, 3_901, 3_910, 3_950, 4_000, 4_200):
        yield 'start low for %d' % low, line(('4004', {'lows': {0: low}})), [('start-low', {'width': low, 'least': 3_500, 'most': 3_900})]
    for total in (4_000, 4_200, 4_250, 4_290, 4_299, 4_701, 4_710, 4_750, 4_800, 5_000, 5_100):
        yield 'start bit of %d' % total, line(('4004', {'totals': {0: total}})), [('start-total', {'width': total, 'least': 4_300, 'most': 4_700})]
    for low, total in ((3_450, 4_250), (3_950, 4_750), (3_400, 4_800), (4_000, 4_250)):
        yield 'start bit of %d, low for %d' % (total, low), line(('4004', {'lows': {0: low}, 'totals': {0: total}})), [
            ('start-low', {'width': low}), ('start-total', {'width': total})]
    for low in (3_500, 3_700, 3_900):
        bus = Bus()
        bus.low(low, QUIET)
        yield 'a start bit of %d alone' % low, bus.text(), [('lone-start', {'width': low})]
    bus = Bus()
    bus.low(3_700, QUIET)
    bus.low(3_700, 50_000)
    yield 'two start bits alone, of which the second is a bad start after a bad start', bus.text(), [('lone-start', {'width': 3_700})]
    for low in (10, 50, 100, 175, 400, 600, 1_500, 2_000, 2_599, 6_000, 10_000, 100_000, 2_000_000):
        bus = Bus()
        bus.low(low, QUIET)
        yield 'low for %d while the line is idle' % low, bus.text(QUIET + low), [('start-low', {'width': low})]


def bits():
    """CEC 5.2.2: a one is low for 400 to 800, a zero for 1,300 to 1,700, and a bit lasts 2,050 to 2,750. Of 4>0 04 slots 2, 16 and 19 are
    ones; the follower pulls slots 10 and 20."""
    ones = [(slot, '4004') for slot in (2, 16, 19)] + [(slot, '4f36') for slot in (10, 20)]
    zeros = [(slot, '4004') for slot in (1, 5, 9, 10, 11, 18, 20)]
    for slots, window, widths in ((ones, (400, 800), (399, 350, 300, 801, 900, 1_000)), (zeros, (1_300, 1_700), (1_299, 1_200, 1_100, 1_701, 1_800, 1_900))):
        for slot, frame in slots:
            for low in widths:
                yield '%s slot %d low for %d' % (frame, slot, low), line((frame, {'lows': {slot: low}})), [('bit-low', {
                    'slot': slot, 'block': (slot + 9) // 10, 'bit': (slot - 1) % 10 + 1, 'width': low, 'least': window[0], 'most': window[1]})]
    for slot in (1, 2, 5, 9, 10, 11, 16, 18, 19):
        for total in (1_900, 2_049, 2_751, 4_000):
            yield 'slot %d of %d' % (slot, total), line(('4004', {'totals': {slot: total}})), [('bit-total', {
                'slot': slot, 'width': total, 'least': 2_050, 'most': 2_750})]


def acknowledges():
    """CEC 5.2.3: a follower pulls within 350 of the fall of the slot. One that comes when the initiator is out again makes a fall of its own."""
    for slot, late in ((10, 700), (10, 900), (20, 700), (20, 1_000)):
        bus = Bus()
        bus.send('4004', stop=slot, lows={slot: 600})
        bus.low(1_600 - late, late)
        yield 'slot %d acknowledged after %d' % (slot, late), bus.text(), [('bit-total', {'slot': slot, 'width': late})]
    bus = Bus()
    bus.send('4004', pulled=[True, False])
    bus.low(900, 1_100)
    yield 'the last slot acknowledged after it was sampled', bus.text(), [('start-low', {'width': 900})]


def breaks():
    """CEC 7.4: a low drive lasts 3,360 to 3,840. One that begins while the line is low makes the slot as long as that, or longer."""
    for slot in (2, 9, 10, 13, 19):
        bus = Bus()
        bus.send('4004', stop=slot)
        bus.low(3_600, 1_800)
        yield 'a low drive in slot %d' % slot, bus.text(), [('low-drive', {'width': 3_600, 'least': None})]
    for width in (3_360, 3_840, 1_701, 2_000, 3_000, 3_359, 3_841, 4_000, 5_000):
        bus = Bus()
        bus.send('4004', stop=13)
        bus.low(width, 1_800)
        window = {'least': None, 'most': None} if 3_360 <= width <= 3_840 else {'least': 3_360, 'most': 3_840}
        yield 'a low drive of %d' % width, bus.text(), [('low-drive', dict(window, width=width))]
    for slot in (2, 5, 16):
        for width in (3_360, 3_700, 5_540):
            yield 'slot %d is low for %d' % (slot, width), line(('4004', {'stop': slot, 'lows': {slot: width}})), [('drive-within', {'width': width})]
        for width in (3_359, 5_541):
            yield 'slot %d is low for %d' % (slot, width), line(('4004', {'stop': slot, 'lows': {slot: width}})), [('bit-low', {'slot': slot, 'width': width})]


def glitches():
    """A pulse or a gap within a frame makes a fall that comes too early (CEC 5.2.2)."""
    for slot in (5, 9, 15):
        bus = Bus()
        begin = bus.last + QUIET
        bus.send('4004')
        fall = begin + 4_500 + (slot - 1) * PERIOD
        bus.gap(fall, 700, 50)
        yield 'a gap in slot %d' % slot, bus.text(), [('bit-total', {'slot': slot, 'width': 750})]
        bus = Bus()
        bus.send('4004')
        bus.stretches = over(bus.stretches, [(fall + 1_700, fall + 1_750)])
        yield 'a pulse in slot %d' % slot, bus.text(), [('bit-total', {'slot': slot, 'width': 1_700})]
    bus = Bus()
    begin = bus.last + QUIET
    bus.send('4004')
    bus.gap(begin, 1_000, 50)
    yield 'a gap in the start bit', bus.text(), [('start-low', {'width': 1_000})]
    bus = Bus()
    bus.send('4004')
    bus.stretches = over(bus.stretches, [(begin + 4_000, begin + 4_050)])
    yield 'a pulse in the start bit', bus.text(), [('start-total', {'width': 4_000})]


def two_at_once():
    """CEC 7.2, 9.1: who begins while another one sends hides its bits."""
    for later in (250, 700):
        bus = Bus()
        bus.send('4004')
        begin = [fall for fall, rise in bus.stretches if rise - fall == 3_700][-1]
        made, _ = Slots(bytes.fromhex('8f36')).stretches(begin + later)
        bus.stretches = over(bus.stretches, made)
        yield 'a frame that begins %d after another one' % later, bus.text(QUIET + 20_000), [('start-low', {'width': 3_700 + later})]
    for slot in (8, 12):
        bus = Bus()
        bus.send('4004', stop=slot)
        bus.send('8f36', after=200)
        yield 'a frame that begins in the low part of slot %d' % slot, bus.text(), [('drive-within', {'width': 3_900})]
        bus = Bus()
        bus.send('4004', stop=slot)
        bus.send('8f36', after=1_800)
        yield 'a frame that begins in the high part of slot %d' % slot, bus.text(), [('low-drive', {'width': 3_700})]


def blocks():
    """CEC 6.1: a frame ends after the block whose end-of-message bit says so, and has sixteen blocks at most."""
    for frame, ends in (('404441', (1, 2)), ('4f821100', (1, 2, 3))):
        for block in ends:
            yield '%s ends after block %d' % (frame, block), line((frame, {'stop': 10 * block})), [('unfinished', {'block': block})]
    for frame in ('40', '4004', '4f36', '4f821100'):
        last = len(frame) // 2
        yield '%s without EOM' % frame, line((frame, {'eom': {last - 1: 0}})), [('unfinished', {'block': last})]
    full = '4089' + '00' * 14
    yield 'sixteen blocks without EOM', line((full, {'eom': {15: 0}})), [('unfinished', {'block': 16})]
    yield 'seventeen blocks', line((full + '00', {})), (
        [('unfinished', {'block': 16})], [('start-low', {'width': 1_500})])
    # What follows the block that is the last one is low as a bit, and so no start bit.
    for frame, block, low in (('4004', 1, 1_500), ('403604', 2, 1_500), ('4f36', 1, 1_500)):
        yield '%s goes on after block %d, which has EOM' % (frame, block), line((frame, {'eom': {block - 1: 1}})), [('start-low', {'width': low})]


def not_taken():
    """CEC 6.1.2, 7.1: an initiator stops after a block that is not taken, and tries five times again at most."""
    for frame, pulled in (('4004', [0, 1]), ('4004', [0, 0]), ('404441', [0, 1, 1]), ('404441', [1, 0, 1]), ('404441', [1, 0, 0]), ('4f821100', [1, 0, 0, 0]),
                          ('4f821100', [0, 1, 0, 0]), ('4f821100', [0, 0, 1, 0]), ('4f821100', [0, 0, 1, 1])):
        refused = pulled.index(1 if frame[1] == 'f' else 0) + 1
        yield '%s goes on after block %d' % (frame, refused), line((frame, {'pulled': pulled, 'goes_on': True})), [('goes-on', {'block': refused})]
    several = line(('404441', {'pulled': [0, 0, 1], 'goes_on': True}))
    yield 'goes on after two blocks', several, ([('goes-on', {'block': 1})], [('goes-on', {'block': 1}), ('goes-on', {'block': 2})])
    part = line(('404441', {'pulled': [0, 1, 1], 'goes_on': True, 'stop': 13}))
    yield 'goes on after block 1 and stops', part, ([('goes-on', {'block': 1})], [('goes-on', {'block': 1}), ('stops', {'slot': 13})])
    for frame, pulled, block in (('4844', [0, 0], 1), ('4004', [1, 0], 2), ('404441', [1, 0, 1], 2), ('4f821100', [1, 0, 0, 0], 1), ('4f36', [0, 1], 2)):
        word = 'refused' if frame[1] == 'f' else 'nack'
        for count in (7, 8):
            sends = [(frame, {'pulled': pulled, 'after': RETRY if attempt else QUIET}) for attempt in range(count)]
            yield '%d attempts of %s' % (count, frame), line(*sends), [
                ('too-many-attempts', {'block': block, 'verdict': word, 'attempt': attempt, 'most': 6}) for attempt in range(7, count + 1)]


def bits_behind():
    """CEC 7.1: after a block that was not taken nothing of the frame follows."""
    for after in (2_800, 4_000, 7_100):
        bus = Bus()
        bus.send('404441', pulled=[1, 0, 0])
        bus.low(1_500, after)
        yield 'a bit %d after a block that was not taken' % after, bus.text(), [('start-low', {'width': 1_500})]


def stops():
    """CEC 6.1: an initiator sends its frame to the end. Of 4>0, 0>4 and 8>f the initiator is known from the fourth bit on."""
    for frame, slots in (('404441', (2, 5, 6, 7, 8, 9, 11, 13, 15, 17, 18, 19, 21, 25, 28, 29)), ('044441', (5, 9, 14, 22)), ('8f821100', (1, 5, 12, 33, 39))):
        for slot in slots:
            sends = 'stops after slot %d of %s' % (slot, frame)
            yield sends, line((frame, {'stop': slot})), [('stops', {'slot': slot})]


def free_times():
    """CEC 9.1: three bit periods before another attempt, five after another initiator, seven after a frame of one's own. An initiator with a
    greater address than the one before may have lost the line to it (CEC 7.2), and has three. A retry follows what was not taken."""
    for first, pulled, second, due in (
            ('8f36', None, '4004', NEW_INITIATOR), ('4004', None, '04', NEW_INITIATOR), ('5f7201', None, '0f36', NEW_INITIATOR),
            ('4004', None, '4004', PRESENT_INITIATOR), ('4f36', None, '40', PRESENT_INITIATOR), ('40', None, '4f36', PRESENT_INITIATOR),
            ('48', [0], '48', RETRY), ('4004', [1, 0], '4004', RETRY), ('4f36', [0, 1], '4f36', RETRY), ('40', None, '8f36', RETRY), ('88', [0], '40', RETRY)):
        for width in {RETRY: (7_199, 7_000, 6_200), NEW_INITIATOR: (11_999, 9_600, 7_200), PRESENT_INITIATOR: (16_799, 12_000, 7_200)}[due]:
            sends = line((first, {'pulled': pulled}), (second, {'after': width, 'pulled': pulled if first == second else None}))
            yield '%s %d after %s' % (second, width, first), sends, [('free', {'width': width, 'due': due})]
    for width in (7_199, 6_200, 2_800):
        # Who sends it stops there, as it has to (CEC 7.1): the one fault is of the next frame.
        for frame, pulled in (('4844', [0, 0]), ('404441', [1, 0, 0]), ('4f821100', [0, 1, 0, 0])):
            sends = line((frame, {'pulled': pulled}), (frame, {'pulled': pulled, 'after': width}))
            yield '%s %d after a block that was not taken' % (frame, width), sends, [('free', {'width': width, 'due': RETRY})]
    for width in (7_199, 6_200):
        bus = Bus()
        bus.send('4004', stop=13)
        bus.low(3_600, 1_800)
        bus.send('4004', after=width)
        yield 'a frame %d after a low drive' % width, bus.text(), [('low-drive', {'width': 3_600}), ('free', {'width': width, 'due': RETRY})]


def answers():
    """CEC 9.2, 12.3: a request has its answer, or Feature Abort, within a second."""
    asked = {'46': '0447545620', '8f': '049000', '9f': '049e05', '8c': '0f870010fa', '83': '0f84000000', '91': '0f32656e67', '8d02': '048e00', '71': '047a20', '7d': '047e01',
             '701100': '0f7201'}
    for ask in list(asked) + ['ff', 'e0', '6a01', '02']:
        missing = ('no-answer', {'initiator': '4', 'destination': '0', 'opcode': ask[:2]})
        yield '%s without answer' % ask, line(('40' + ask, {}), quiet=6 * SECOND), [missing]
        yield '%s without answer to the end' % ask, line(('40' + ask, {}), ('8f36', {'after': SECOND}), quiet=SECOND), [missing]
        yield '%s that is asked again too late' % ask, line(
            ('40' + ask, {}), ('40' + ask, {'after': SECOND + SAMPLE + 1}), ('0400%s04' % ask[:2], {'after': NEW_INITIATOR})), [missing]
        yield '%s refused too late' % ask, line(('40' + ask, {}), ('0400%s04' % ask[:2], {'after': 2 * SECOND + SAMPLE})), [('late-answer', {'wait': 2 * SECOND, 'most': SECOND})]
    for ask, answer in asked.items():
        for wait in (SECOND + 1, 4_900_000):
            yield '%s answered after %d' % (ask, wait), line(('40' + ask, {}), (answer, {'after': wait + SAMPLE})), [('late-answer', {'wait': wait, 'most': SECOND})]
    missing = [('no-answer', {'initiator': '4', 'destination': '0', 'opcode': '8f'})]
    yield 'answered by another device', line(('408f', {}), ('549000', {'after': QUIET}), quiet=6 * SECOND), missing
    yield 'answered to another device', line(('408f', {}), ('059000', {'after': QUIET}), quiet=6 * SECOND), missing
    yield 'answered with something else', line(('408f', {}), ('049e05', {'after': QUIET}), quiet=6 * SECOND), missing
    for ask, answer in asked.items():
        # After five seconds nothing is an answer, also where it is the first frame after them.
        yield '%s answered after five seconds' % ask, line(('40' + ask, {}), (answer, {'after': 5 * SECOND + SAMPLE + 1})), [
            ('no-answer', {'initiator': '4', 'destination': '0', 'opcode': ask[:2]})]
        yield '%s answered just before' % ask, line(('40' + ask, {}), (answer, {'after': 5 * SECOND + SAMPLE})), [('late-answer', {'wait': 5 * SECOND, 'most': SECOND})]
    for pulled in ([0, 0, 0], [1, 0, 0], [1, 1, 0]):
        # The first attempt counts, and it alone.
        yield 'an answer that is tried again, taken %s' % pulled, line(
            ('408f', {}), ('049000', {'after': 2 * SECOND + SAMPLE, 'pulled': pulled}), ('049000', {'after': RETRY})), [('late-answer', {'wait': 2 * SECOND, 'most': SECOND})]
    yield 'Abort, which is answered', line(('40ff', {}), ('049000', {'after': QUIET}), quiet=6 * SECOND), [('no-answer', {'opcode': 'ff'})]


# The messages of CEC 13: those to one device alone, and those to all alone, as opcode and operands. Tuners, timers, recordings and vendors
# have opcodes with raw operands, which may come to one device or to all (docs/asm.md, "Opcodes and keys").
TO_ONE = '''0004ff 04 0d 1a01 1b11 4124 4201 4401 45 46 475456 640048 701100 71 7a20 7d 7e01 83 8c 8d02 8e00 8f 91 9d1100 9e05 9f c0 c1 c2 c3 c4 c5
ff'''.split()
TO_ALL = '32656e67 8010002000 811000 821100 84110004 85 861100 870010fa'.split()
# How many bytes of operands an opcode has at least (CEC 13, 17).
LEAST = {'00': 2, '1a': 1, '1b': 1, '32': 3, '41': 1, '42': 1, '44': 1, '47': 1, '72': 1, '7a': 1, '7e': 1, '80': 4, '81': 2, '82': 2, '84': 3, '86': 2, '87': 3, '8d': 1,
         '8e': 1, '90': 1, '9d': 2, '9e': 1}


def contents():
    """CEC 13: whom a message is for, and how many bytes of operands it has at least."""
    for message in TO_ONE:
        yield '%s to all' % message, line(('4f' + message, {}), quiet=6 * SECOND), [('receivers', {})]
    for message in TO_ALL:
        yield '%s to one device' % message, line(('40' + message, {}), quiet=6 * SECOND), [('receivers', {})]
    for opcode, least in LEAST.items():
        head = '4f' if any(it.startswith(opcode) for it in TO_ALL) else '40'
        for count in sorted({0, least - 1}):
            # Nobody owes an answer to what lacks operands.
            yield '%s with %d operands' % (opcode, count), line((head + opcode + '11' * count, {}), quiet=6 * SECOND), [('operands', {'count': count, 'least': least})]


def places():
    """CEC 10.1, 11.2, of which an audit has notes."""
    yield 'a device moves', line(('4f84110004', {}), ('4f84120004', {})), [('moved', {'initiator': '4'})]
    yield 'two devices at one address', line(('4f84110004', {}), ('4f84200004', {}), ('4f84110004', {})), [('moved', {'initiator': '4'}), ('moved', {'initiator': '4'})]
    yield 'an active source where nobody is', line(('4f823100', {})), [('nobody-there', {'address': '3.1.0.0'})]


CLAUSES = (start_bits, bits, acknowledges, breaks, glitches, two_at_once, blocks, not_taken, bits_behind, stops, free_times, answers, contents, places)


def said(program, text):
    """what an audit says, as objects, and its status"""
    return objects(program, ['mon', '--audit', '--strict', '--json', '--from', 'edges'], text)


def is_as_due(found, due):
    """whether the objects are of these kinds, in this order, with these values"""
    return len(found) == len(due) and all(
        (it.get('remark') or it.get('note')) == kind and all(it.get(name) == value for name, value in values.items())
        for it, (kind, values) in zip(found, due))


def fault_of(program, text, due, is_note):
    """what is not as it should be, or nothing"""
    told_of, status = said(program, text)
    remarks = [it for it in told_of if it['type'] == 'remark']
    found = [it for it in told_of if it['type'] == 'note' and it['note'] in ('moved', 'nobody-there')] if is_note else remarks
    ways = due if isinstance(due, tuple) else (due,)
    if not any(is_as_due(found, way) for way in ways) or status != int(not is_note) or is_note and remarks:
        return 'due %s; status %d, there is %s' % (' or '.join(map(str, ways)), status, '; '.join(it['line'].strip() for it in found + remarks * is_note) or 'nothing')
    return None


def main():
    return rows_told('illegal lines', CLAUSES, lambda program, clause, text, due: fault_of(program, text, due, clause is places))


if __name__ == '__main__':
    sys.exit(main())
