"""Which patterns the line of some round can meet: a plain model, which follows all places of the pattern at once."""
import re
from wire import ROWS, SECOND, SETS

DIGITS = frozenset(b'0123456789')
HEX = DIGITS | frozenset(b'abcdef')
LETTERS = frozenset(range(97, 123))
QUOTABLE = frozenset(range(32, 127)) - {34}
STAR, SPACE = 42, 32
# each ending with the fewest and the most bits of a reading that ends so
ENDINGS = (('short', 0, 159), ('silent', 1, 159), ('bad-start', 0, 0), ('long', 160, 160), ('open', 0, 159))
BLOCK, EOM = 10, 8
REFUSALS = (b'port-range', b'port-taken', b'not-loose', b'loop', b'not-plugged', b'not-for-kind', b'off-wire', b'queue-full', b'own-address', b'no-address')


class Places:
    """the places of a pattern at which it may stand after some text; -1 where it has ended before"""

    def __init__(self, pattern, places=(0,)):
        self.pattern = pattern
        self.places = set()
        for place in places:
            while place >= 0:
                self.places.add(place)
                if place == len(pattern) or pattern[place] != STAR: break
                place += 1
            if place < 0: self.places.add(-1)

    def one(self, allowed):
        """after one of these bytes"""
        after = set()
        for place in self.places:
            if place < 0: after.add(-1)
            elif place == len(self.pattern): after |= {-1} if SPACE in allowed else set()
            elif self.pattern[place] == STAR: after |= {place} if allowed - {SPACE} else set()
            elif self.pattern[place] in allowed: after.add(place + 1)
        return Places(self.pattern, after)

    def text(self, text):
        now = self
        for byte in text.encode():
            if not now.places: break
            now = now.one(frozenset([byte]))
        return now

    def any(self, *others):
        return Places(self.pattern, self.places.union(*(other.places for other in others)))

    def ends(self):
        return any(place in (-1, len(self.pattern)) for place in self.places)


def operand(at, kind):
    """after an operand, and the space before it"""
    if kind.endswith('?'): return at.any(operand(at, kind[:-1]))
    at = at.text(' ')
    if kind == 'byte': return at.one(HEX).one(HEX)
    if kind == 'id': return at.one(HEX).one(HEX).one(HEX).one(HEX).one(HEX).one(HEX)
    if kind == 'lang': return at.one(LETTERS).one(LETTERS).one(LETTERS)
    if kind == 'pa': return at.one(HEX).text('.').one(HEX).text('.').one(HEX).text('.').one(HEX)
    if kind.startswith('text'):
        texts = [at.text('"')]
        for _ in range(int(kind[4:])): texts.append(texts[-1].one(QUOTABLE))
        return texts[1].any(*texts[2:]).text('"')
    if kind == 'vol':
        words = [at.text('%s %d' % (word, n)) for word in ('mute', 'sound') for n in range(101)]
        return words[0].any(*words[1:])
    words = [at.text(word) for word in SETS[kind].values()]
    return words[0].any(*words[1:])


ANY = frozenset(range(256))


def worded(kinds):
    """the counts of bytes of operands that have words where each byte has one, and by its place which bytes have one"""
    least, most, bytes_ = 0, 0, []
    for kind in kinds:
        if kind.startswith('text'):
            n = int(kind.strip('?')[4:])
            bytes_ += [QUOTABLE] * n
            least += 0 if kind.endswith('?') else 1
            most += n
            continue
        one = {'byte': [ANY], 'id': [ANY] * 3, 'lang': [LETTERS] * 3, 'pa': [ANY] * 2, 'vol': [frozenset(b for b in ANY if b % 128 <= 100)]}.get(kind.strip('?'))
        if one is None: one = [frozenset(SETS[kind])]
        bytes_ += one
        if kind.endswith('?'): return {0, len(one)}, bytes_
        least += len(one)
        most += len(one)
    return set(range(least, most + 1)), bytes_


def hex_of(at, allowed):
    """after two hex digits of one of these bytes"""
    if allowed == ANY: return at.one(HEX).one(HEX)
    return Places(at.pattern, set().union(*(at.text('%02x' % b).places for b in allowed))) if allowed and at.places else Places(at.pattern, ())


def raw(at, kinds):
    """after operands that have no words, as they are: up to fourteen bytes in hex; kinds is None where no count has words"""
    counts, bytes_ = (set(), []) if kinds is None else worded(kinds)
    fit, spoilt, ends = at.text(' :'), Places(at.pattern, ()), []
    for n in range(15):
        ends.append(spoilt if n in counts else spoilt.any(fit))
        known = bytes_[n] if n < len(bytes_) else ANY
        fit, spoilt = hex_of(fit, known), spoilt.one(HEX).one(HEX).any(hex_of(fit, ANY - known))
    return ends[0].any(*ends[1:])


def opcode(at, code):
    """after an opcode and its operands, in words or, where they have none, as they are"""
    name = ROWS[code][0] if code in ROWS else SECOND.get(code, 'op-%02x' % code)
    at = at.text(' ' + name)
    if not at.places: return at
    if code not in ROWS: return raw(at, None)
    start = at
    for kind in ROWS[code][1]:
        at = operand(at, kind)
    return at.any(raw(start, ROWS[code][1]))


def listed(at, names, said):
    """after some of these devices in their order, with commas between them, or a dash"""
    more, ends = [], [at.text('-')]
    for name in names:
        # after those that are before it
        before = [at] + [place.text(',') for place in more]
        more.append(said(before[0].any(*before[1:]).text(name)))
    return ends[0].any(*more)


def stopped(at):
    """after the slot at which a device stopped: a round has at most 160"""
    slots = [at.text('@%d' % slot) for slot in range(1, 161)]
    return slots[0].any(*slots[1:])


def shown(at, fewest, most):
    """after so many bits, or a dash for none: of those that end a block each is 0, but for one that is the last bit"""
    ends = [] if fewest else [at.text('-')]
    for n in range(1, most + 1):
        last, at = at.one(frozenset(b'01')), at.one(frozenset(b'0' if (n - 1) % BLOCK == EOM else b'01'))
        if n >= fewest: ends.append(last)
    return ends


def some_bits(rng, count):
    """the digits of so many bits that a reading can show"""
    return ''.join('0' if n % BLOCK == EOM and n + 1 < count else rng.choice('01') for n in range(count))


NAME = re.compile(rb'([^ @]*)@([^ >]*)(.*)', re.S)


def names_in(pattern):
    """the names in its header, at most two"""
    found = []
    while len(found) < 2 and (m := NAME.fullmatch(pattern)):
        found.append(m[2])
        pattern = m[3]
    return found


def with_addresses(pattern, addresses, most=2):
    """the patterns without names, with each address that a device has by the function in the place of its name"""
    m = NAME.fullmatch(pattern) if most else None
    if not m: return [pattern]
    return [p for a in addresses(m[2]) for p in with_addresses(m[1] + b'%x' % a + m[3], addresses, most - 1)]


def lines(pattern, names=None):
    """after each line of a round in a run of these devices, or else of a reading of a capture; all addresses below 15 are alike"""
    start = Places(with_addresses(pattern, lambda name: [0])[0])
    said = []
    for ending, fewest, most in ENDINGS if names is None else ENDINGS[:-1]:
        said += shown(start.text(ending + ' '), fewest, most)
    for last, verdicts in ((HEX - {102}, ('ack', 'nack')), (frozenset([102]), ('ok', 'refused'))):
        header = start.one(HEX).text('>').one(last)
        for at in [header] + [opcode(header, code) for code in range(256) if header.places]:
            said += [at.text(' ' + verdict) for verdict in verdicts if at.places]
    said = [at for at in said if at.places]
    if names is None or not said: return said
    by = listed(said[0].any(*said[1:]).text(' by '), names, lambda at: at)
    return [listed(by.text(' out '), names, stopped)]


def is_met(pattern, names=None):
    """whether some such line meets it"""
    return any(at.ends() for at in lines(pattern, names))
