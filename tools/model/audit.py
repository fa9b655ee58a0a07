"""The audit of a capture: what docs/mon.md ("Audit of a capture") has below each reading, and at the end. What the standard
calls what a line leaves as bytes (`  # WORD`) is left out."""
import wire

ANSWERS = {0x46: 0x47, 0x70: 0x72, 0x71: 0x7a, 0x7d: 0x7e, 0x83: 0x84, 0x8c: 0x87, 0x8d: 0x8e, 0x8f: 0x90, 0x91: 0x32, 0x9f: 0x9e}
LATER = {0x73, 0xa5, 0xa6, 0xa7, 0xa8, 0xf8}
WINDOWS = {('start', 'low'): (3500, 3900), ('start', 'total'): (4300, 4700), (1, 'low'): (400, 800), (0, 'low'): (1300, 1700)}


def nibble(bits, k):
    return sum(w * (bits[k + i] if k + i < len(bits) else 0) for i, w in enumerate((8, 4, 2, 1)))


class Spread:
    def __init__(self):
        self.all = []

    def line(self, name):
        if not self.all: return ''
        return '  %s %d..%d mean %d of %d\n' % (name, min(self.all), max(self.all), sum(self.all) // len(self.all), len(self.all))


class Widths:
    KINDS = ('start low', 'start total', 'one low', 'zero low', 'bit total')

    def __init__(self):
        self.of = {kind: Spread() for kind in self.KINDS}

    def add(self, kind, width):
        self.of[kind].all.append(width)

    def text(self):
        return ''.join(self.of[kind].line(kind) for kind in self.KINDS)


class Audit:
    def __init__(self, edges, end, timing):
        self.falls = [t for t, low in edges if low]
        self.rises = [t for t, low in edges if not low]
        self.end, self.timing = end, timing
        self.out = []
        self.bad = []               # begins of bad starts in a row
        self.final = None           # where the final bit of the frame before began, and who sent it and whether it was taken
        self.sender = None
        self.whole = False          # whether it ended where it was to
        self.last = {}              # of each initiator: begin, bits, taken, attempt, begin of the first attempt
        self.busy = 0               # since when no frame has begun five periods after the one before
        self.waiting = []
        self.places = {}
        self.reported, self.active = [], []
        self.counts = {}
        self.all = Widths()

    def say(self, text):
        self.out.append('  ' + text + '\n')

    # ---- the low stretches of a reading: fall, rise or None, next fall or None
    def lows(self, begin, until):
        found = []
        for i, fall in enumerate(self.falls):
            if begin <= fall < until and len(found) < 161:
                found.append((fall, self.rises[i] if i < len(self.rises) else None, self.falls[i + 1] if i + 1 < len(self.falls) else None))
        return found

    def misfits(self, ending, bits, lows, text, widths):
        """the widths out of their windows, each with its slot and its kind, and all widths"""
        for slot, (fall, rise, after) in enumerate(lows):
            bit = None if slot == 0 else bits[slot - 1] if slot <= len(bits) else 1
            where = 'start' if slot == 0 else 'slot %d block %d bit %d' % (slot, (slot - 1) // 10 + 1, (slot - 1) % 10 + 1)
            starts = slot > 0 or rise is not None and rise - fall >= 2600
            if rise is not None:
                least, most = WINDOWS['start' if slot == 0 else bit, 'low']
                if not least <= rise - fall <= most: text.append((slot, 'low', '%s low %d not %d..%d' % (where, rise - fall, least, most)))
                if starts: widths.append(('start low' if slot == 0 else 'one low' if bit else 'zero low', rise - fall))
            if after is not None and after - fall < 7200 and not (ending in ('complete', 'long') and slot == len(bits)):
                least, most = (4300, 4700) if slot == 0 else (2050, 2750)
                if not least <= after - fall <= most: text.append((slot, 'total', '%s total %d not %d..%d' % (where, after - fall, least, most)))
                if starts: widths.append(('start total' if slot == 0 else 'bit total', after - fall))

    def how_it_ends(self, ending, bits, lows):
        """what is said of an ending that nothing else says"""
        if ending == 'complete': return
        if ending == 'open': self.say('cut by the end')
        elif not bits: self.say('low for %d and nothing after it' % (lows[0][1] - lows[0][0]))
        elif len(bits) <= 4 and not bits[-1]: self.say('arbitration lost')
        else: self.say('stops after slot %d by initiator %s' % (len(bits), '%x' % nibble(bits, 0) if len(bits) >= 4 else '-'))

    def is_bit(self, low):
        """low for as long as a bit"""
        return low[1] is not None and low[1] - low[0] < 2600

    def drive(self, ending, at):
        if ending != 'short': return None
        i = self.falls.index(at)
        if i >= len(self.rises): return None
        width = self.rises[i] - at
        return width if width > 1700 else None

    def reading(self, begin, at, ending, bits):
        self.out.append(wire.reading_text((begin, at, ending, bits)) + '\n')
        lows = self.lows(begin, at + 1 if ending == 'open' else at)
        initiator, destination = nibble(bits, 0), nibble(bits, 4)
        has_header = len(bits) >= 8
        goes_on = len(bits) > 8 and not bits[8]
        own_poll = initiator == destination != 15 and not goes_on
        failed = next((b for b in range(1, len(bits) // 10 + 1) if (bits[10 * b - 1] == 1) != (destination == 15)), None)
        taken = ending == 'complete' and failed is None
        frame = wire.frame_bytes(bits) if taken else b''
        is_bad = ending == 'bad-start'
        # notes
        if ending != 'complete' and len(bits) >= 10:
            opcode = nibble(bits, 10) * 16 + nibble(bits, 14)
            name = wire.ROWS[opcode][0] if opcode in wire.ROWS else wire.SECOND.get(opcode, 'op-%02x' % opcode)
            self.say('read %x>%x' % (initiator, destination) + (' ' + name if len(bits) >= 20 else ''))
        # what was before
        if not is_bad and len(self.bad) > 1: self.say('after %d bad-start since %d' % (len(self.bad), self.bad[0]))
        untaken = failed is not None and not own_poll and len(bits) == 10 * failed
        free = begin - (self.final or 0)
        busy = begin if free >= 12000 else self.busy
        attempt, first = 1, begin
        if initiator in self.last:
            was_begin, was_bits, was_taken, was_attempt, was_first = self.last[initiator]
            same = all(a == b for k, (a, b) in enumerate(zip(was_bits, bits)) if k % 10 != 9)
            polls = any(len(x) > 8 and x[8] for x in (was_bits, bits))
            if not was_taken and was_begin >= busy and same and not polls: attempt, first = was_attempt + 1, was_first
        self.answers(first, wire.frame_bytes(bits) if ending == 'complete' or untaken else b'', begin, frame)
        known = has_header and not own_poll and initiator != 15
        if not is_bad and self.sender is not None:
            due = 7200
            if self.sender != '?' and known:
                other, was_taken = self.sender
                again = initiator in self.last and not self.last[initiator][2]
                if other == initiator: due = 16800 if was_taken else 7200
                elif not again and initiator < other: due = 12000
            if free < due: self.say('free %d of %d' % (free, due))
        text, widths = [], []
        self.misfits(ending, bits, lows, text, widths)
        stray = is_bad and self.is_bit(lows[0])
        behind = stray and not self.whole and begin - (self.final or 0) < 7200
        measured = not (is_bad and self.bad or behind)
        drive = self.drive(ending, at)
        within = lows[-1][1] - lows[-1][0] if len(lows) > 1 and lows[-1][1] is not None else 0
        within = within if 3360 <= within <= 5540 else 0
        last = len(lows) - 1
        stops = ending == 'silent' and untaken
        for slot, kind, line in text:
            if measured and not (slot == last and (within or (stray or stops or drive is not None) and kind == 'total')): self.say(line)
        if drive is not None: self.say('low drive %d%s' % (drive, '' if 3360 <= drive <= 3840 else ' not 3360..3840'))
        if within: self.say('low drive for %d' % within)
        by_width = any(slot == last and (kind == 'total' or is_bad or not self.is_bit(lows[-1])) for slot, kind, _ in text)
        unfinished = ending in ('silent', 'long') and bits and len(bits) % 10 == 0 and failed is None and not bits[-2]
        if unfinished and not within and not by_width: self.say('ends after block %d without EOM' % (len(bits) // 10))
        # attempts
        if failed is not None and not own_poll:
            verb = 'refused' if destination == 15 else 'not acknowledged'
            self.say('block %d %s, attempt %d%s' % (failed, verb, attempt, ' of at most 6' if attempt > 6 else ''))
        if failed is not None and failed < (len(bits) + 9) // 10:
            self.say('goes on after block %d, which was not taken, by initiator %x' % (failed, initiator))
        if not measured:
            if not self.bad and self.sender is None: self.say('begins in mid frame')
        elif not (drive is not None or within or by_width or unfinished or untaken): self.how_it_ends(ending, bits, lows)
        self.message(at, frame)
        if self.timing:
            own = Widths()
            for kind, width in widths: own.add(kind, width)
            self.out.append(own.text())
        # what is kept
        for kind, width in widths: self.all.add(kind, width)
        if has_header:
            count = self.counts.setdefault(initiator, [0, 0, 0])
            if taken: count[0] += 1
            elif failed is not None: count[1] += 1
            elif ending != 'open': count[2] += 1
        if is_bad:
            self.bad.append(begin)
            return
        self.bad = []
        self.busy = busy
        if has_header and not own_poll: self.last[initiator] = (begin, list(bits), taken, attempt, first)
        self.sender = (initiator, taken) if known else '?'
        self.final = at if ending == 'short' else lows[-1][0]
        self.whole = ending == 'complete' or stops

    def answers(self, first, sent, begin, frame):
        left = []
        for asker, asked, opcode, answer, since in self.waiting:
            is_answer = again = False
            if len(sent) >= 2 and since + 5000000 >= first:
                source, target = sent[0] >> 4, sent[0] & 15
                refusal = sent[1] == 0 and target == asker and (sent[2] if len(sent) > 2 else 0) == opcode
                is_answer = source == asked and (sent[1] == answer and target in (asker, 15) or refusal)
            if len(frame) >= 2: again = (frame[0] >> 4, frame[0] & 15, frame[1]) == (asker, asked, opcode)
            if is_answer:
                if since + 1000000 < first: self.say('answered after %d, at most 1000000' % (first - since))
            elif since + 5000000 < begin or since + 1000000 < begin and again: self.no_answer(asker, asked, opcode, since)
            else: left.append((asker, asked, opcode, answer, since))
        self.waiting = left

    def no_answer(self, asker, asked, opcode, since):
        self.say('no answer to %x>%x %02x of %d' % (asker, asked, opcode, since))

    def message(self, at, frame):
        if len(frame) < 2: return
        source, target, opcode = frame[0] >> 4, frame[0] & 15, frame[1]
        phys = frame[2:4] if len(frame) >= 4 else None
        if opcode == 0x84 and phys and source != 15 and self.places.get(source, phys) != phys:
            self.say('%x reported %s before' % (source, wire.pa_text(int.from_bytes(self.places[source], 'big'))))
        faults = []
        if opcode in wire.ROWS:
            way = wire.ROWS[opcode][2]
            if target == 15 and 'B' not in way and opcode != 0x90: faults.append('to all, only for one device')
            if target != 15 and 'D' not in way: faults.append('to one device, only for all')
            if len(frame) - 2 < wire.least(opcode): faults.append('operands %d, at least %d' % (len(frame) - 2, wire.least(opcode)))
            for fault in faults: self.say(fault)
        if opcode == 0x84 and phys:
            self.places[source] = phys
            if phys not in self.reported and len(self.reported) < 64: self.reported.append(phys)
        if opcode == 0x82 and phys and phys not in [p for p, _ in self.active] and len(self.active) < 64: self.active.append((phys, at))
        unknown = opcode not in wire.ROWS and opcode not in wire.SECOND and opcode not in LATER
        if not faults and target != 15 and source != 15 and (opcode in ANSWERS or opcode == 0xff or unknown) and len(self.waiting) < 16:
            self.waiting.append((source, target, opcode, ANSWERS.get(opcode), at))

    def text(self, readings):
        for begin, at, ending, bits in readings: self.reading(begin, at, ending, bits)
        self.say('all readings')
        for asker, asked, opcode, _, since in self.waiting:
            if since + 1000000 < self.end: self.no_answer(asker, asked, opcode, since)
        for phys, at in self.active:
            if len(self.reported) < 64 and phys not in self.reported: self.say('nobody reported %s of %d' % (wire.pa_text(int.from_bytes(phys, 'big')), at))
        for initiator in sorted(self.counts):
            if any(self.counts[initiator]): self.say('from %x: %d taken, %d not taken, %d broken' % (initiator, *self.counts[initiator]))
        return ''.join(self.out) + self.all.text()


def audit(data, timing, margin=0):
    """(status, output, fault) of an edge file"""
    status, out, fault = wire.mon(data, margin)
    if status: return status, out, fault
    lines = [line.split(b' ') for line in wire.lines_of(data) if not wire.skipped(line)]
    edges = [(int(t), level == b'0') for t, level in lines if level != b'end']
    end = int(lines[-1][0])
    return 0, Audit(edges, end, timing).text(wire.Reader(edges, end, margin).readings).encode(), ''
