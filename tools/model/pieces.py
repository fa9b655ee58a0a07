#!/usr/bin/env python3
"""The wide reading of a captured line, and what is said of its pieces, in plain Python.

    python3 tools/model/pieces.py COUNT START     COUNT lines of a dozen frames with one width out of its window, and as many without:
                                                  each has exactly that remark, or none; and pieces that are all stretches

A stretch is (fall, rise); the last one may have no rise. A piece is a Piece; what is said of it is a list of tuples that begin with a
kind, as piece_notes has them."""
import random, sys

LONG, APART, EARLY, START, SAMPLE, PERIOD = 2600, 6000, 1650, (3900, 5100), 1050, 2400
WINDOWS = {'start-low': (3500, 3900), 'start-total': (4300, 4700), 0: (1300, 1700), 1: (400, 800), 'bit-total': (2050, 2750), 'late-ack': (0, 350)}
DRIVE, LONGEST = (3360, 3840), 5540


class Slot:
    def __init__(self, stretch):
        self.fall, self.rise, self.late = stretch[0], stretch[1], None

    @property
    def bit(self):
        return int(self.rise - self.fall <= SAMPLE)


class Piece:
    def __init__(self, head):
        self.head, self.slots, self.broken_by, self.trail, self.last, self.ending = head, [], None, 0, head[0], None
        self.stretches = 1

    @property
    def bits(self):
        return [slot.bit for slot in self.slots]

    def nibble(self, k):
        return sum(w * (self.bits[k + i] if k + i < len(self.slots) else 0) for i, w in enumerate((8, 4, 2, 1)))

    @property
    def initiator(self):
        return self.nibble(0) if len(self.slots) >= 4 else None

    @property
    def taker(self):
        return self.nibble(4) if len(self.slots) >= 8 and self.nibble(4) != 15 else None

    @property
    def to_all(self):
        return self.nibble(4) == 15

    @property
    def failed(self):
        blocks = range(1, len(self.slots) // 10 + 1)
        return next((b for b in blocks if (self.bits[10 * b - 1] == 1) != self.to_all), None)

    @property
    def ends_block(self):
        return len(self.slots) > 0 and len(self.slots) % 10 == 0

    @property
    def is_whole(self):
        return self.ends_block and (self.bits[-2] == 1 or len(self.slots) == 160)

    @property
    def slot_fall(self):
        return self.slots[-1].fall if self.slots else self.head[0]

    # ---- where a stretch stands, and the piece with it

    def place(self, x):
        fall, rise, kind = x
        if fall - self.last >= APART: return None
        behind = 'trail' if kind == 'bit' else None
        if self.head[2] in ('bit', 'cut') or self.broken_by or self.trail: return behind
        since = fall - self.slot_fall
        if kind == 'bit' and self.ends_block and self.slots[-1].late is None and since <= SAMPLE and rise - self.slot_fall < PERIOD: return 'late'
        if self.is_whole: return behind
        if kind == 'start': return None
        if kind == 'cut' or since < EARLY: return 'breaks'
        if kind == 'bit' or len(self.slots) % 10 == 9 and self.bits[-1]: return 'slot'
        return 'breaks'

    def add(self, x, place):
        self.last = x[0]
        self.stretches += 1
        if place == 'slot': self.slots.append(Slot(x))
        elif place == 'late': self.slots[-1].late, self.slots[-1].rise = x[0], x[1]
        elif place == 'breaks': self.broken_by = x
        else: self.trail += 1

    def end(self, after, end, begin):
        quiet = 'open' if after is None and end - self.last < APART else 'stops'
        if self.head[2] == 'bit': ending = 'mid' if begin is not None and self.head[0] - begin < APART else 'stray'
        elif self.broken_by: ending = {'bit': 'intruder', 'cut': 'open' if quiet == 'open' else 'drive'}.get(self.broken_by[2], 'drive')
        elif self.is_whole: ending = 'complete' if self.bits[-2] else 'long' if self.trail else quiet
        elif after and after[2] == 'start' and after[0] - self.last < APART: ending = 'overrun'
        else: ending = quiet
        self.ending = ending
        return self


def classed(stretches, end):
    out = []
    for (fall, rise), after in zip(stretches, stretches[1:] + [None]):
        if rise is None: kind, rise = 'cut', end
        elif rise - fall < LONG: kind = 'bit'
        elif after and START[0] <= after[0] - fall <= START[1] and (end if after[1] is None else after[1]) - after[0] < LONG: kind = 'start'
        else: kind = 'long'
        out.append((fall, rise, kind))
    return out


def pieces(stretches, end, begin=0):
    out, piece = [], None
    for x in classed(stretches, end):
        place = piece and piece.place(x)
        if place: piece.add(x, place)
        else:
            if piece: out.append(piece.end(x, end, None if out else begin))
            piece = Piece(x)
    if piece: out.append(piece.end(None, end, None if out else begin))
    return out


# ---- what is said of a piece

def low_kind(k, slot):
    if k % 10: return slot.bit, 'initiator'
    if not slot.bit: return 0, 'follower'
    return 1, 'either' if slot.rise - slot.fall > WINDOWS[1][1] else 'initiator'


def widths(piece):
    """(kind, window, who, slot, width), in the order in which kinds are remarked"""
    slots, last = piece.slots, len(piece.slots)
    if not slots: return []
    lows = [(k, s) for k, s in enumerate(slots, 1) if s.late is None and not (k == last and piece.ending == 'intruder')]
    out = [('start-low', 'start-low', 'initiator', 0, piece.head[1] - piece.head[0]), ('start-total', 'start-total', 'initiator', 0, slots[0].fall - piece.head[0])]
    for of in ((0, 'initiator'), (1, 'initiator'), (0, 'follower'), (1, 'either')):
        out += [('bit-low', of[0], of[1], k, s.rise - s.fall) for k, s in lows if low_kind(k, s) == of]
    out += [('late-ack', 'late-ack', 'follower', k, s.late - s.fall) for k, s in enumerate(slots, 1) if s.late is not None]
    return out + [('bit-total', 'bit-total', 'initiator', k, t.fall - s.fall) for k, (s, t) in enumerate(zip(slots, slots[1:]), 1)]


def party(piece, who):
    initiator = 'initiator ' + ('-' if piece.initiator is None else '%x' % piece.initiator)
    follower = 'a follower' if piece.taker is None else 'follower %x' % piece.taker
    return {'initiator': initiator, 'follower': follower, 'either': initiator + ' or ' + follower}[who]


def width_remarks(piece, grid=1):
    slack, found = max(grid - 1, 0), {}
    for kind, window, who, slot, width in widths(piece):
        least, most = WINDOWS[window]
        if width + slack < least or most + slack < width: found.setdefault((kind, window, who), []).append((slot, width))
    return [(kind, rows[0][0], rows[0][1], min(w for _, w in rows), max(w for _, w in rows), len(rows), party(piece, who)) for (kind, _, who), rows in found.items()]


def untaken(piece):
    if piece.to_all: return 'refused'
    return 'poll-unanswered' if len(piece.slots) == 10 and piece.bits[8] else 'not-acknowledged'


def lone(x):
    return ('remark', 'stuck' if x[1] - x[0] > LONGEST else 'lone-start', x[1] - x[0])


def said(piece):
    """('remark', kind, ..) or ('note', cause), or None of a whole frame that was taken"""
    n, x = len(piece.slots), piece.broken_by
    ends_untaken = piece.ends_block and piece.failed == n // 10
    if piece.ending == 'complete':
        if piece.trail: return ('remark', 'after-eom', piece.trail)
        return ('note', untaken(piece)) if piece.failed else None
    if piece.ending == 'mid': return ('note', 'mid-frame')
    if piece.ending == 'open': return ('note', 'cut-by-the-end')
    if piece.ending == 'stray': return ('remark', 'stray', piece.trail + 1)
    if piece.ending == 'long': return ('remark', 'too-long')
    if piece.ending == 'intruder': return ('remark', 'intruder', n, x[0] - piece.slot_fall)
    if piece.ending == 'drive': return lone(x) if x[1] - x[0] > LONGEST else ('remark', 'low-drive', n, x[0] - piece.slot_fall, x[1] - x[0])
    if piece.ending == 'stops' and n == 0: return lone(piece.head)
    if ends_untaken: return ('note', untaken(piece))
    if piece.ending == 'overrun': return ('remark', 'overrun', n)
    if n % 10 == 0: return ('remark', 'unfinished', n // 10)
    return ('note', 'arbitration-lost') if n <= 4 and not piece.bits[-1] else ('remark', 'stops', n)


def goes_on(piece):
    return piece.failed if piece.failed and 10 * piece.failed < len(piece.slots) else None


# ---- one clock for all widths of an initiator

OWN = {('start-low', 'start-low', 'initiator'), ('start-total', 'start-total', 'initiator'), ('bit-low', 0, 'initiator'), ('bit-low', 1, 'initiator'),
       ('bit-total', 'bit-total', 'initiator')}


def is_clock(piece, grid=1):
    """two kinds or more of the initiator's widths are out, and one ratio takes all into their windows: each two of them have one. Edges are
    in whole microseconds, or on the grid."""
    slack, ranges = max(grid - 1, 1), {}
    for kind, window, who, _, width in widths(piece):
        if (kind, window, who) in OWN: ranges.setdefault((kind, window), []).append(width)
    ranges = [(min(all_), max(all_), WINDOWS[key[1]]) for key, all_ in ranges.items()]
    out = sum(least + max(grid - 1, 0) < window[0] or window[1] + max(grid - 1, 0) < greatest for least, greatest, window in ranges)
    return out >= 2 and len(piece.slots) >= 8 and all(max(g - slack, 0) * other[0] <= (least + slack) * window[1] for _, g, window in ranges for least, _, other in ranges)


# ---- piece after piece: free times, attempts, answers

SECOND, FORGOTTEN, MOST_ATTEMPTS = 1000000, 5000000, 6


class Judge:
    """what is said of pieces in order: (at, kind, ..), the notes apart"""

    def __init__(self, grid=1):
        self.grid, self.out, self.notes = grid, [], []
        self.before = None                  # where the final bit before began, its initiator or None, and whether it was taken
        self.last, self.busy = {}, 0        # of each initiator: begin, bits, taken, attempt
        self.waiting, self.overlapped = [], False

    def say(self, at, *remark):
        self.out.append((at,) + remark)

    def hear(self, piece):
        at, ending = piece.head[0], said(piece)
        overlapped, self.overlapped = self.overlapped, piece.ending == 'overrun' and (self.overlapped or ending[0] == 'remark')
        if overlapped:                      # two send at once: that was said, and nothing can be told of either
            self.notes.append('overlapped')
            self.before = (self.final(piece), None, False)
            return
        found = width_remarks(piece, self.grid) if piece.head[2] != 'bit' else []
        if is_clock(piece, self.grid):
            found = [x for x in found if (x[0], x[-1].split()[0]) == ('bit-low', 'follower') or ' or ' in x[-1] or x[-1] == 'a follower' or x[0] == 'late-ack']
            found.append(('clock', party(piece, 'initiator')))
        for x in found: self.say(at, *x)
        if ending and ending[0] == 'remark': self.say(at, *ending[1:])
        elif ending: self.notes.append(ending[1])
        if goes_on(piece): self.say(at, 'goes-on', goes_on(piece))
        attempt = self.free_and_attempt(piece)
        if piece.ending == 'complete': self.answers(piece, attempt)
        if piece.ending == 'open':          # an answer perhaps, which the capture cuts off
            self.waiting = [x for x in self.waiting if at - x[4] > SECOND or piece.initiator not in (None, x[1])]

    @staticmethod
    def final(piece):
        if piece.head[2] == 'bit': return piece.last
        return piece.broken_by[0] if piece.broken_by else piece.slot_fall

    @staticmethod
    def frame(piece):
        return bytes(sum(piece.bits[10 * b + i] << 7 - i for i in range(8)) for b in range(len(piece.slots) // 10))

    def free_and_attempt(self, piece):
        at, bits = piece.head[0], piece.bits
        if piece.head[2] == 'bit' or not piece.slots:
            if piece.ending not in ('mid', 'open'): self.before = (self.final(piece), None, False)
            return 1
        own_poll = len(bits) >= 8 and piece.initiator == piece.nibble(4) != 15 and not (len(bits) > 8 and not bits[8])
        source = piece.initiator if len(bits) >= 8 and not own_poll and piece.initiator != 15 else None
        taken = piece.ending == 'complete' and piece.failed is None
        free = at - self.before[0] if self.before else None
        if free is None or free >= 12000: self.busy = at
        attempt, earlier = 1, self.last.get(piece.initiator)
        if earlier:
            begin, was, was_taken, count = earlier
            if not was_taken and begin >= self.busy and len(was) >= 8 and all(a == b for k, (a, b) in enumerate(zip(was, bits)) if k % 10 != 9): attempt = count + 1
        if self.before:
            _, other, other_taken = self.before
            due = 7200
            if other is not None and source is not None:
                due = (16800 if other_taken else 7200) if other == source else 7200 if attempt > 1 or other < source else 12000
            if due - free > max(self.grid - 1, 0): self.say(at, 'free', free, due)
        if piece.initiator is not None: self.last[piece.initiator] = (at, bits, taken, attempt)
        if attempt == MOST_ATTEMPTS + 1: self.say(at, 'too-many-attempts', attempt)
        self.before = (self.final(piece), source, taken)
        return attempt

    def answers(self, piece, attempt):
        import audit, wire
        at, frame, taken = piece.head[0], self.frame(piece), piece.failed is None
        gone = [x for x in self.waiting if at - x[4] > FORGOTTEN]
        for x in gone: self.missing(x)
        self.waiting = [x for x in self.waiting if x not in gone]
        if len(frame) < 2: return
        source, target, opcode = frame[0] >> 4, frame[0] & 15, frame[1]
        for x in list(self.waiting):
            asker, asked, request, answer, since = x
            refuses = opcode == 0 and target == asker and frame[2:3] == bytes([request])
            if source == asked and (opcode == answer and target in (asker, 15) or refuses):
                self.waiting.remove(x)      # by its first attempt, whoever took it
                if at - since > SECOND + self.grid: self.say(at, 'late-answer', at - since)
        if not taken or target == 15 or source in (15, target): return
        known = opcode in wire.ROWS or opcode in wire.SECOND or opcode in audit.LATER
        faulty = opcode in wire.ROWS and ('D' not in wire.ROWS[opcode][2] or len(frame) - 2 < wire.least(opcode))
        if (opcode in audit.ANSWERS or opcode == 0xff or not known) and not faulty:
            for x in [x for x in self.waiting if x[:3] == (source, target, opcode)]:
                if at - x[4] > SECOND: self.missing(x)
                self.waiting.remove(x)
            self.waiting.append((source, target, opcode, audit.ANSWERS.get(opcode), piece.slot_fall + SAMPLE))

    def missing(self, x):
        self.say(x[4], 'no-answer', *x[:3])

    def end(self, end):
        for x in self.waiting:
            if end - x[4] > SECOND: self.missing(x)
        return self.out


def judged(stretches, end, begin=0, grid=1):
    judge = Judge(grid)
    for piece in pieces(stretches, end, begin): judge.hear(piece)
    return judge.end(end)


# ---- lines with one width out, made by the standard's times

def sent(r, begin, frame, out=None):
    """the stretches of a frame, each width somewhere in its window, but for one: (what, slot, width)"""
    wide = lambda window: r.randint(*WINDOWS[window])
    bits = [b for at, byte in enumerate(frame) for b in [byte >> i & 1 for i in range(7, -1, -1)] + [int(at == len(frame) - 1), 'ack']]
    take = lambda what, slot, window: out[2] if out and out[:2] == (what, slot) else wide(window)
    stretches, fall = [(begin, begin + take('low', 0, 'start-low'))], begin + take('total', 0, 'start-total')
    for slot, bit in enumerate(bits, 1):
        low = bit if bit != 'ack' else int(frame[0] % 16 == 15)
        stretches.append((fall, fall + take('low', slot, low)))
        fall += take('total', slot, 'bit-total')
    return stretches, fall


def planted(r, frame):
    """one width that is out: how to make it, and the remark"""
    slot, what = r.randint(0, 10 * len(frame)), r.choice(['low', 'total', 'total'])
    if what == 'total': slot = min(slot, 10 * len(frame) - 1)
    bits = [b for at, byte in enumerate(frame) for b in [byte >> i & 1 for i in range(7, -1, -1)] + [int(at == len(frame) - 1), int(frame[0] % 16 == 15)]]
    window = 'start-' + what if slot == 0 else 'bit-total' if what == 'total' else bits[slot - 1]
    below, by = r.choice([True, False]), r.randint(1, 60)
    width = WINDOWS[window][0] - by if below else WINDOWS[window][1] + by
    who, follower = 'initiator %x' % (frame[0] >> 4), 'a follower' if frame[0] % 16 == 15 else 'follower %x' % (frame[0] % 16)
    if what == 'low' and slot and slot % 10 == 0:
        if bits[slot - 1] == 0: who = follower
        elif not below: who += ' or ' + follower
    kind = 'bit-low' if window in (0, 1) else window
    return (what, slot, width), (kind, slot, width, width, width, 1, who)


def main(count, start):
    differ = 0
    for number in range(start, start + count):
        r = random.Random(number)
        for faulty in (True, False):
            at, stretches, want, fault = 50000, [], [], r.randrange(12)
            for k in range(12):
                to = r.choice([0, 4, 5, 15])
                frame = [r.choice([1, 3, 8]) << 4 | to] + [r.randrange(256) for _ in range(r.choice([0, 1, 2, 3, 15]))]
                out = None
                if faulty and k == fault: out, remark = planted(r, frame); want.append(remark)
                found, at = sent(r, at, frame, out)
                stretches += found
                at += 20000
            read = pieces(stretches, at)
            got = [x for p in read for x in width_remarks(p)] + [said(p) for p in read if said(p)]
            if got != want or sum(p.stretches for p in read) != len(stretches):
                differ += 1
                if differ <= 5: print(number, want, got)
    print('pieces: %d lines, %d differ' % (2 * count, differ))
    return differ > 0


if __name__ == '__main__':
    sys.exit(main(int(sys.argv[1]), int(sys.argv[2])))
