#!/usr/bin/env python3
"""Lines that CEC does not allow, each with one fault, made by the standard's times, and the kinds that pieces.py has of them.

    python3 tools/model/illegal.py COUNT     of each fault COUNT lines of six frames; what is not as wanted is printed"""
import random, sys
import pieces

FRAMES = (b'\x40\x04', b'\x04\x90\x00', b'\x4f\x82\x10\x00', b'\x40', b'\x50\x72\x01', b'\x4f\x84\x10\x00\x04', b'\x15\x44\x41')


class Line:
    """low stretches of all who pull, one over another"""

    def __init__(self):
        self.pulls = []

    def low(self, at, width):
        self.pulls.append((at, at + width))

    def stretches(self):
        out = []
        for fall, rise in sorted(self.pulls):
            if out and fall <= out[-1][1]: out[-1][1] = max(rise, out[-1][1])
            else: out.append([fall, rise])
        return [tuple(x) for x in out]

    def frame(self, at, frame, stop=None, takes=None, eom=(), anyway=False, low={}, total={}, ack={}, late={}):
        """a frame at nominal times, up to slot `stop` or a block that is not taken; the fall of its last slot. eom: (block, bit) otherwise;
        low, total, ack: widths of slots; late: how long after its fall a slot is acknowledged"""
        self.low(at, low.get(0, 3700))
        at, slot, to_all = at + total.get(0, 4500), 0, frame[0] % 16 == 15
        for block, byte in enumerate(frame):
            last = dict(eom).get(block, int(block == len(frame) - 1))
            for bit in [byte >> i & 1 for i in range(7, -1, -1)] + [last, None]:
                slot, fell = slot + 1, at
                self.low(at, low.get(slot, 1500 if bit == 0 else 600))
                pulled = bit is None and (not to_all if takes is None else takes[block])
                if pulled: self.low(at + late.get(slot, 0), ack.get(slot, 1500) - late.get(slot, 0))
                at += total.get(slot, 2400)
                if slot == stop or bit is None and pulled == to_all and not anyway: return fell
        return fell


def any_slot(r, least, most):
    return r.randrange(least, most)


def within(r, least, most):
    return r.choice([slot for slot in range(least, most) if slot % 10])


def broken(line, r, at):
    return line.frame(at, b'\x40\x8f\x00', stop=any_slot(r, 6, 20))


def low_drive(line, r, at):
    fell = broken(line, r, at) + r.choice([1700, 2100, 2400, 3000])
    line.low(fell, 3600)
    return fell


def bad_drive(line, r, at):
    fell = broken(line, r, at) + 2400
    line.low(fell, r.choice([3000, 3300]))
    return fell


def drive_within(line, r, at):
    fell = broken(line, r, at)
    line.low(fell + 200, 3600)
    return fell


def overrun(line, r, at):
    return line.frame(broken(line, r, at) + 2400, b'\x04\x90\x00')


def intruder(line, r, at):
    fell = broken(line, r, at) + 1640
    line.low(fell, 300)
    return fell


def stray(line, r, at):
    count = r.randint(1, 30)
    for k in range(count): line.low(at + 2400 * k, r.choice([600, 1500]))
    return at + 2400 * count


def lone_start(line, r, at):
    line.low(at, 3700)
    return at


def stuck(line, r, at):
    line.low(at, r.choice([6000, 50000]))
    return at + 50000


def stuck_within(line, r, at):
    fell = broken(line, r, at) + 2400
    line.low(fell, 30000)
    return fell + 30000


def free(line, r, at):
    return line.frame(line.frame(at, b'\x40\x04') + r.choice([6000, 7000, 9000, 16700]), b'\x40\x04')


def too_many_attempts(line, r, at):
    for _ in range(8): at = line.frame(at, b'\x4b\x04', takes=[False]) + 7200 + r.randint(0, 500)
    return at


FAULTS = [
    ('stops', lambda line, r, at: line.frame(at, b'\x40\x8f', stop=within(r, 5, 20))),
    ('unfinished', lambda line, r, at: line.frame(at, b'\x40\x04', eom=((1, 0),))),
    ('goes-on', lambda line, r, at: line.frame(at, b'\x40\x44\x01', takes=[True, False, True], anyway=True)),
    ('after-eom', lambda line, r, at: line.frame(at, b'\x40\x04\x01', eom=((1, 1),))),
    ('too-long', lambda line, r, at: line.frame(at, b'\x40\xa0' + bytes(15), eom=((15, 0),))),
    ('low-drive', low_drive), ('low-drive', bad_drive), ('low-drive', drive_within), ('overrun', overrun), ('intruder', intruder), ('stray', stray),
    ('lone-start', lone_start), ('stuck', stuck), ('stuck', stuck_within), ('free', free), ('too-many-attempts', too_many_attempts),
    ('late-ack', lambda line, r, at: line.frame(at, b'\x40\x04', late={r.choice([10, 20]): 900})),
    ('bit-total', lambda line, r, at: line.frame(at, b'\x40\x04', total={any_slot(r, 1, 19): r.randint(1650, 2040)})),
    ('bit-total', lambda line, r, at: line.frame(at, b'\x40\x04', total={any_slot(r, 1, 19): r.randint(2760, 5900)})),
    ('bit-low', lambda line, r, at: line.frame(at, b'\x4f\x04', low={r.choice([1, 3, 4]): r.randint(1710, 2300)})),
    ('bit-low', lambda line, r, at: line.frame(at, b'\x4f\x04', low={r.choice([2, 5, 6, 7, 8]): r.randint(810, 1050)})),
    ('bit-low', lambda line, r, at: line.frame(at, b'\x40\x04', ack={20: r.randint(2600, 9000)})),
]


def main(count):
    differ = 0
    for kind, fault in FAULTS:
        for number in range(count):
            r, line, at = random.Random(number), Line(), 60000
            place = r.randrange(1, 5)
            for k in range(6):
                at = fault(line, r, at) + 20000 if k == place else line.frame(at, r.choice(FRAMES)) + 16800 + r.randint(100, 20000)
            got = [remark[1] for remark in pieces.judged(line.stretches(), at + 30000)]
            if got != [kind]:
                differ += 1
                if differ <= 5: print(kind, number, got)
    print('illegal: %d lines, %d differ' % (count * len(FAULTS), differ))
    return differ > 0


if __name__ == '__main__':
    sys.exit(main(int(sys.argv[1])))
