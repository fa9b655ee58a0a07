"""Lines of CEC for tests, made slot by slot by the times of HDMI 1.4 CEC: what stands on them is known before a program reads it."""

# A bit's period, in microseconds, by which signal free times count (CEC 9.1): three, five and seven of them.
PERIOD = 2_400
RETRY, NEW_INITIATOR, PRESENT_INITIATOR = 3 * PERIOD, 5 * PERIOD, 7 * PERIOD
# The windows of the standard, and the widths in their middle (CEC 5.2.1, 5.2.2): how long a start bit, a one and a zero are low, and how
# long a start bit and another slot are from fall to fall.
WINDOWS = {'start': (3_500, 3_900), 'start total': (4_300, 4_700), 'one': (400, 800), 'zero': (1_300, 1_700), 'total': (2_050, 2_750)}
NOMINAL = {'start': 3_700, 'start total': 4_500, 'one': 600, 'zero': 1_500, 'total': 2_400}
# A slot is sampled so long after its fall (CEC 5.2.3), which ends the reading of a frame.
SAMPLE = 1_050
# Messages to one device and to all, of one block of operands and of several.
MESSAGES = [bytes.fromhex(it) for it in (
    '4004', '4f821100', '404742442d50', '5f7201', '507a14', '4f84110004', '044441', '0445', '40004404', '0f8010002000', '0f32656e67',
    '409000', '547e01')]


def middle(kind):
    """each width as the standard names it"""
    return NOMINAL[kind]


def is_to_all(frame):
    return frame[0] % 16 == 15


class Slots:
    """The slots of a frame: what the initiator sends in each, 1 or 0, and where a follower pulls too.

    `pulled` has for each block whether somebody pulls its acknowledge slot: the destination takes a block so, and of a frame to all
    anybody refuses one (CEC 6.1.2). After a block that is not taken the initiator stops (CEC 7.1), but where it goes on all the same.
    `eom` has the end-of-message bits of blocks that say otherwise."""

    def __init__(self, frame, pulled=None, goes_on=False, eom=None):
        if pulled is None:
            pulled = [not is_to_all(frame)] * len(frame)
        self.frame, self.bits, self.acks, self.ends_whole = bytes(frame), [], set(), True
        for place, block in enumerate(frame):
            last = (eom or {}).get(place, int(place + 1 == len(frame)))
            self.bits += [block >> bit & 1 for bit in range(7, -1, -1)] + [last, 1]
            if pulled[place]:
                self.acks.add(len(self.bits))
            if pulled[place] == is_to_all(frame) and not goes_on and place + 1 < len(frame):
                self.ends_whole = False
                break
        self.is_taken = all(pulled[place] != is_to_all(frame) for place in range(len(self.bits) // 10))

    def is_low_long(self, slot):
        """whether the line is low as for a zero in a slot, which counts from 1"""
        return slot in self.acks or not self.bits[slot - 1]

    def verdict(self):
        """the word of a reading of the whole frame, which is of its last block (docs/mon.md)"""
        if is_to_all(self.frame):
            return 'refused' if len(self.bits) in self.acks else 'ok'
        return 'ack' if len(self.bits) in self.acks else 'nack'

    def stretches(self, at, width=middle, lows=None, totals=None, stop=None):
        """The low stretches of a frame that begins at an instant, up to slot `stop`, and the fall of its last slot. `width` draws a width of
        a kind; `lows` and `totals` have those of single slots, 0 for the start bit."""
        lows, totals = lows or {}, totals or {}
        made = [(at, at + lows.get(0, width('start')))]
        at += totals.get(0, width('start total'))
        fall = at
        for slot in range(1, (stop or len(self.bits)) + 1):
            fall = at
            made.append((at, at + lows.get(slot, width('zero' if self.is_low_long(slot) else 'one'))))
            at += totals.get(slot, width('total'))
        return made, fall


def over(one, other):
    """the stretches of a line that two pull: it is low where one of them pulls"""
    made = []
    for fall, rise in sorted(one + other):
        if made and fall <= made[-1][1]:
            made[-1] = (made[-1][0], max(rise, made[-1][1]))
        else:
            made.append((fall, rise))
    return made


def edge_file(stretches, end):
    """the edge file of a line (docs/mon.md, "Edge file")"""
    return ''.join('%d 0\n%d 1\n' % stretch for stretch in stretches) + '%d end\n' % end
