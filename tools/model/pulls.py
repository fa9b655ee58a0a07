"""A round in which anything may be pulled from outside, as dense as one likes: the line step by step, and nothing looks ahead."""
from bisect import bisect_right
from wire import Outcome, Reader, bits_of, edges_of

START_LOW, START, SLOT, LOW_OF_0, LOW_OF_1 = 3700, 4500, 2400, 1500, 600
DRIVE = 3600


def sender_changes(begin, bits):
    """the instants at which a sender falls and rises"""
    slots = [begin + START + SLOT * k for k in range(len(bits))]
    return [begin, begin + START_LOW] + [t for s, b in zip(slots, bits) for t in (s, s + (LOW_OF_1 if b else LOW_OF_0))]


def sender_low(begin, bits, t):
    """whether a sender's nominal stretches are low in t"""
    if t < begin + START: return begin <= t < begin + START_LOW
    k, within = divmod(t - begin - START, SLOT)
    return k < len(bits) and within < (LOW_OF_1 if bits[k] else LOW_OF_0)


class Round:
    """contenders: {dev: frame}; answers: the devices that acknowledge and pull low after Short; holds: {dev: addresses}"""

    def __init__(self, begin, contenders, answers, holds, pulls):
        self.begin, self.answers, self.holds, self.pulls = begin, answers, holds, pulls
        self.sending = {d: bits_of(f) for d, f in contenders.items()}
        self.onsets = [p[0] for p in pulls]
        self.instants = sorted({t for b in self.sending.values() for t in sender_changes(begin, b)} | {t for p in pulls for t in p})
        self.t, self.was = begin, False
        self.place, self.fall, self.bits = 'start-low', begin, []
        self.ended = None               # ending, its instant, the reading's last microsecond
        self.survivors, self.out = [], {}
        self.acknowledged = self.driven = 0
        self.wave = []

    def end(self, ending, until):
        self.ended = (ending, self.t, until)
        self.survivors = sorted(self.sending)
        if ending == 'short' and any(d not in self.sending for d in self.answers): self.driven = self.t + DRIVE

    def late(self):
        """no fall has come in time"""
        if self.ended is None:
            if self.place == 'start-high' and self.t == self.begin + 4701: self.end('bad-start', self.t - 1)
            elif self.place == 'sampled' and self.t == self.fall + 2751: self.end('silent', self.t - 1)

    def is_low(self):
        t = self.t
        last = bisect_right(self.onsets, t) - 1
        if last >= 0 and t < self.pulls[last][1]:
            # it is taken where it begins by the reading's last microsecond, or touches the low of the round
            if self.ended is None or self.onsets[last] <= self.ended[2] or self.was: return True
        if t < self.acknowledged or t < self.driven: return True
        # a sender pulls until it is out or the reading is over, and makes no fall at an ending for want of a fall
        if self.ended is None or t <= self.ended[2] or (t <= self.ended[1] and self.was):
            return any(sender_low(self.begin, b, t) for b in self.sending.values())
        return False

    def destination(self):
        return int(''.join(map(str, self.bits[4:8])), 2)

    def slot(self):
        self.place, self.fall = 'unsampled', self.t
        if len(self.bits) % 10 == 9:
            to = self.destination()
            if to < 15 and any(to in self.holds[d] and d not in self.sending for d in self.answers): self.acknowledged = self.t + LOW_OF_0

    def sample(self, bit):
        self.bits.append(bit)
        n = len(self.bits)
        if n % 10 == 0 and (self.bits[-2] == 1 or n == 160): return self.end('complete' if self.bits[-2] == 1 else 'long', self.t)
        for d, bits in list(self.sending.items()):
            if bit != (1 if self.destination() == 15 else 0) if n % 10 == 0 else n > len(bits) or bits[n - 1] != bit:
                self.out[d] = n
                del self.sending[d]
        self.place = 'sampled'

    def hear(self, low):
        t, begin = self.t, self.begin
        falls, rises = low and not self.was, self.was and not low
        if self.place == 'start-low':
            if t == begin + 3901 or rises and t < begin + 3500: self.end('bad-start', t)
            elif rises: self.place = 'start-high'
        elif self.place == 'start-high':
            if falls and t < begin + 4300: self.end('bad-start', t)
            elif falls: self.slot()
        elif self.place == 'unsampled':
            if falls: self.end('short', t)
            elif t == self.fall + 1050: self.sample(0 if low else 1)
        elif falls and t < self.fall + 2050: self.end('short', t)
        elif falls: self.slot()

    def next(self):
        """the next instant at which anything may change"""
        at = [self.begin + 3901, self.begin + 4701, self.fall + 1050, self.fall + 1051, self.fall + 2751, self.acknowledged, self.driven]
        if self.ended: at += [self.ended[1] + 1, self.ended[2] + 1]
        later = bisect_right(self.instants, self.t)
        return min([t for t in at if t > self.t] + self.instants[later:later + 1])

    def run(self):
        while True:
            self.late()
            low = self.is_low()
            if low != self.was:
                if low:
                    assert self.ended is None or self.t <= self.ended[2], 'a fall after the reading'
                    self.wave.append([self.t, None])
                else: self.wave[-1][1] = self.t
            if self.ended and self.t > self.ended[2] and not low: return
            if self.ended is None: self.hear(low)
            self.was = low
            self.t = self.next()


def dense_round(begin, contenders, answers, holds, pulls, pi):
    """as `one_round` of wire.py; pulls from index pi on are untaken, and each begins after the end of the one before"""
    near = [p for p in pulls[pi:pi + 2000] if p[0] <= begin + 500_000]
    while True:
        r = Round(begin, contenders, answers, holds, near)
        r.run()
        rest = r.wave[-1][1]
        more = pulls[pi + len(near):pi + len(near) + 1]
        if not more or more[0][0] > rest: break
        near = pulls[pi:pi + 2 * len(near)] if near else pulls[pi:pi + 1]
    o = Outcome()
    ending, at, until = r.ended
    o.reading = (begin, at, ending, r.bits)
    o.rest, o.close = rest, max(at, rest)
    o.wave, o.survivors, o.out = r.wave, r.survivors, r.out
    while pi < len(pulls) and pulls[pi][0] <= rest: pi += 1
    o.pi = pi
    # the same reading must be had from the finished wave, which falls at most 162 times
    rd = Reader(edges_of(r.wave), o.close + 20000)
    assert rd.readings == [o.reading] and len(r.wave) <= 162, (o.reading, rd.readings, r.wave)
    return o
