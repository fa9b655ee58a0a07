"""Frames, opcode table, assembler, wire and readings: a plain model."""
import fractions
import itertools
import re

# ---------------------------------------------------------------- numbers and small texts
T_LIMIT = 1_000_000_000_000
EDGE_LIMIT = 2_000_000_000_000
NUM = re.compile(rb'^(0|[1-9][0-9]*)$')
NAME_RE = re.compile(rb'^[a-z][a-z0-9-]{0,13}$')
HEXLOW = b'0123456789abcdef'


def number(word, limit=None, cap=None):
    """value or None"""
    if not re.fullmatch(rb'0|[1-9][0-9]*', word):
        return None
    if len(word) > 30:
        v = 10 ** 30
    else:
        v = int(word)
    if cap is not None and v > cap:
        v = cap
    if limit is not None and v > limit:
        return None
    return v


def lines_of(data):
    """list of lines, without 0A; the last may lack it"""
    if data == b'':
        return []
    ls = data.split(b'\n')
    if ls[-1] == b'':
        ls.pop()
    return ls


def skipped(line):
    return line == b'' or line.startswith(b'#')


def pa_text(p):
    return '%x.%x.%x.%x' % (p >> 12 & 15, p >> 8 & 15, p >> 4 & 15, p & 15)


def parse_pa(w):
    if re.fullmatch(rb'[0-9a-f]\.[0-9a-f]\.[0-9a-f]\.[0-9a-f]', w):
        return int(w[0:1], 16) << 12 | int(w[2:3], 16) << 8 | int(w[4:5], 16) << 4 | int(w[6:7], 16)
    return None


# ---------------------------------------------------------------- sets of words
SETS = {
    'reason': {0: 'unrecognized', 1: 'wrong-mode', 2: 'no-source', 3: 'invalid-operand', 4: 'refused'},
    'power': {0: 'on', 1: 'standby'},
    'sys': {0: 'off', 1: 'on'},
    'type': {0: 'tv', 1: 'recorder', 3: 'tuner', 4: 'playback', 5: 'audio', 6: 'switch'},
    'status': {1: 'on', 2: 'off', 3: 'once'},
    'deck': {0x11: 'play', 0x14: 'still', 0x17: 'fast-forward', 0x18: 'fast-reverse', 0x19: 'no-media',
             0x1A: 'stop', 0x1B: 'skip-forward', 0x1C: 'skip-reverse'},
    'mode': {0x24: 'forward', 0x25: 'still', 5: 'ff-min', 6: 'ff-mid', 7: 'ff-max', 9: 'fr-min', 0xA: 'fr-mid',
             0xB: 'fr-max'},
    'control': {1: 'skip-forward', 2: 'skip-reverse', 3: 'stop', 4: 'eject'},
    'display': {0: 'default', 0x40: 'hold', 0x80: 'clear'},
    'menu': {0: 'activate', 1: 'deactivate', 2: 'query'},
    'mstate': {0: 'activated', 1: 'deactivated'},
    'version': {5: '1.4'},
    'code': {0: 'select', 1: 'up', 2: 'down', 3: 'left', 4: 'right', 9: 'root-menu', 0xD: 'exit',
             0x40: 'power', 0x41: 'volume-up', 0x42: 'volume-down', 0x43: 'mute', 0x44: 'play', 0x45: 'stop',
             0x46: 'pause', 0x6C: 'power-off', 0x6D: 'power-on'},
}
for _i in range(10):
    SETS['code'][0x20 + _i] = 'digit-%d' % _i
WORDS = {s: {w.encode(): v for v, w in m.items()} for s, m in SETS.items()}

# opcode: (name, operands, To)
TABLE_TEXT = """
00 | feature-abort | byte reason | D
04 | image-view-on | | D
0D | text-view-on | | D
1A | give-deck-status | status | D
1B | deck-status | deck | D
32 | set-menu-language | lang | B
36 | standby | | DB
41 | play | mode | D
42 | deck-control | control | D
44 | user-control-pressed | code | D
45 | user-control-released | | D
46 | give-osd-name | | D
47 | set-osd-name | text14 | D
64 | set-osd-string | display text13? | D
70 | system-audio-mode-request | pa? | D
71 | give-audio-status | | D
72 | set-system-audio-mode | sys | DB
7A | report-audio-status | vol | D
7D | give-system-audio-mode-status | | D
7E | system-audio-mode-status | sys | D
80 | routing-change | pa pa | B
81 | routing-information | pa | B
82 | active-source | pa | B
83 | give-physical-address | | D
84 | report-physical-address | pa type | B
85 | request-active-source | | B
86 | set-stream-path | pa | B
87 | device-vendor-id | id | B
8C | give-device-vendor-id | | D
8D | menu-request | menu | D
8E | menu-status | mstate | D
8F | give-device-power-status | | D
90 | report-power-status | power | D
91 | get-menu-language | | D
9D | inactive-source | pa | D
9E | cec-version | version | D
9F | get-cec-version | | D
C0 | initiate-arc | | D
C1 | report-arc-initiated | | D
C2 | report-arc-terminated | | D
C3 | request-arc-initiation | | D
C4 | request-arc-termination | | D
C5 | terminate-arc | | D
FF | abort | | D
"""
ROWS = {}
for _l in TABLE_TEXT.strip().splitlines():
    _a = [x.strip() for x in _l.split('|')]
    ROWS[int(_a[0], 16)] = (_a[1], _a[2].split(), _a[3])
SECOND_TEXT = """05 tuner-step-increment, 06 tuner-step-decrement, 07 tuner-device-status, 08 give-tuner-device-status, 09 record-on, 0A record-status, 0B record-off, 0F record-tv-screen, 33 clear-analogue-timer, 34 set-analogue-timer, 35 timer-status, 43 timer-cleared-status, 67 set-timer-program-title, 89 vendor-command, 8A vendor-remote-button-down, 8B vendor-remote-button-up, 92 select-analogue-service, 93 select-digital-service, 97 set-digital-timer, 99 clear-digital-timer, 9A set-audio-rate, A0 vendor-command-with-id, A1 clear-external-timer, A2 set-external-timer"""
SECOND = {}
for _x in SECOND_TEXT.split(', '):
    _o, _n = _x.split(' ')
    SECOND[int(_o, 16)] = _n
NAMES = {}
for _o, _r in ROWS.items():
    NAMES[_r[0].encode()] = _o
for _o, _n in SECOND.items():
    NAMES[_n.encode()] = _o
LEAST = {'byte': 1, 'lang': 3, 'id': 3, 'pa': 2, 'vol': 1, 'text14': 1, 'text13?': 0, 'pa?': 0}


def least(op):
    return sum(LEAST.get(w, 1) for w in ROWS[op][1])


def is_char(c):
    return 0x20 <= c <= 0x7E and c != 0x22


def operand_words(op, data):
    """words (list of str) where the operand bytes fit the row exactly, else None"""
    ws = []
    i = 0
    for kind in ROWS[op][1]:
        if kind == 'byte':
            if i + 1 > len(data): return None
            ws.append('%02x' % data[i]); i += 1
        elif kind == 'pa' or (kind == 'pa?'):
            if kind == 'pa?' and i == len(data): continue
            if i + 2 > len(data): return None
            ws.append(pa_text(data[i] << 8 | data[i + 1])); i += 2
        elif kind == 'id':
            if i + 3 > len(data): return None
            ws.append(data[i:i + 3].hex()); i += 3
        elif kind == 'lang':
            t = data[i:i + 3]
            if len(t) != 3 or not all(97 <= c <= 122 for c in t): return None
            ws.append(t.decode()); i += 3
        elif kind in ('text14', 'text13?'):
            t = data[i:]
            if kind == 'text13?' and len(t) == 0: continue
            if not 1 <= len(t) <= int(kind[4:6]) or not all(is_char(c) for c in t): return None
            ws.append('"' + bytes(t).decode() + '"'); i = len(data)
        elif kind == 'vol':
            if i + 1 > len(data): return None
            v = data[i]
            if v & 127 > 100: return None
            ws.append('mute' if v & 128 else 'sound'); ws.append(str(v & 127)); i += 1
        else:
            if i + 1 > len(data) or data[i] not in SETS[kind]: return None
            ws.append(SETS[kind][data[i]]); i += 1
    if i != len(data): return None
    return ws


def frame_text(b):
    s = '%x>%x' % (b[0] >> 4, b[0] & 15)
    if len(b) == 1:
        return s
    op, data = b[1], bytes(b[2:])
    if op in ROWS:
        s += ' ' + ROWS[op][0]
        ws = operand_words(op, data)
        if ws is not None:
            return ' '.join([s] + ws)
        return s + ' :' + data.hex()
    if op in SECOND:
        return s + ' ' + SECOND[op] + ' :' + data.hex()
    return s + ' op-%02x :' % op + data.hex()


class Refused(Exception):
    pass


def word_counts(op):
    if op not in ROWS:
        return {1}
    lo = hi = 0
    for kind in ROWS[op][1]:
        if kind == 'vol': lo += 2; hi += 2
        elif kind.endswith('?'): hi += 1
        else: lo += 1; hi += 1
    return set(range(lo, hi + 1))


def part(rest):
    """words parted at each space, but a quote and all after it belong to one word"""
    q = rest.find(b'"')
    if q < 0:
        return rest.split(b' ')
    head = rest[:q].split(b' ')
    head[-1] += rest[q:]
    return head


def parse_operands(op, words):
    """bytes or None"""
    out = b''
    i = 0
    for kind in ROWS[op][1]:
        if kind.endswith('?') and i == len(words):
            continue
        if i >= len(words): return None
        w = words[i]; i += 1
        if kind == 'byte':
            if not re.fullmatch(rb'[0-9a-f]{2}', w): return None
            out += bytes([int(w, 16)])
        elif kind in ('pa', 'pa?'):
            p = parse_pa(w)
            if p is None: return None
            out += bytes([p >> 8, p & 255])
        elif kind == 'id':
            if not re.fullmatch(rb'[0-9a-f]{6}', w): return None
            out += bytes.fromhex(w.decode())
        elif kind == 'lang':
            if not re.fullmatch(rb'[a-z]{3}', w): return None
            out += w
        elif kind.startswith('text'):
            if len(w) < 2 or w[:1] != b'"' or w[-1:] != b'"': return None
            t = w[1:-1]
            if not 1 <= len(t) <= int(kind[4:6]) or not all(is_char(c) for c in t): return None
            out += t
        elif kind == 'vol':
            w2 = words[i] if i < len(words) else None
            i += 1
            if w not in (b'mute', b'sound') or w2 is None: return None
            n = number(w2)
            if n is None or n > 100: return None
            out += bytes([n | (128 if w == b'mute' else 0)])
        else:
            if w not in WORDS[kind]: return None
            out += bytes([WORDS[kind][w]])
    if i != len(words): return None
    return out


def assemble(t):
    """bytes of the frame; raises Refused(cause)"""
    sp = t.find(b' ')
    addr = t if sp < 0 else t[:sp]
    if not re.fullmatch(rb'[0-9a-f]>[0-9a-f]', addr):
        raise Refused('address')
    head = bytes([int(addr[0:1], 16) << 4 | int(addr[2:3], 16)])
    if sp < 0:
        return head
    rest = t[sp + 1:]
    sp = rest.find(b' ')
    name = rest if sp < 0 else rest[:sp]
    if name in NAMES:
        op = NAMES[name]
    elif re.fullmatch(rb'op-[0-9a-f]{2}', name) and int(name[3:], 16) not in ROWS and int(name[3:], 16) not in SECOND:
        op = int(name[3:], 16)
    else:
        raise Refused('name')
    words = [] if sp < 0 else part(rest[sp + 1:])
    if words and words[0][:1] == b':' and len(words[0]) - 1 > 28:
        raise Refused('too-long')
    raw = len(words) == 1 and words[0][:1] == b':'
    if not raw and len(words) not in word_counts(op):
        raise Refused('count')
    if raw:
        h = words[0][1:]
        if not re.fullmatch(rb'([0-9a-f]{2})*', h):
            raise Refused('operand')
        data = bytes.fromhex(h.decode())
        if op in ROWS and operand_words(op, data) is not None:
            raise Refused('operand')
    else:
        if op not in ROWS:
            raise Refused('operand')
        data = parse_operands(op, words)
        if data is None:
            raise Refused('operand')
    b = head + bytes([op]) + data
    assert frame_text(b).encode('latin1') == t, (t, b)
    return b


def asm(data):
    out = []
    for n, l in enumerate(lines_of(data), 1):
        if skipped(l):
            continue
        try:
            out.append(assemble(l).hex())
        except Refused as r:
            return 1, b'', 'line %d: %s' % (n, r.args[0])
    return 0, ''.join(x + '\n' for x in out).encode(), ''


# ---------------------------------------------------------------- readings
def bits_text(bits):
    return ''.join(map(str, bits)) or '-'


def frame_bytes(bits):
    return bytes(int(''.join(map(str, bits[i:i + 8])), 2) for i in range(0, len(bits), 10))


def reading_text(r):
    begin, at, ending, bits = r
    s = '%d %d %s ' % (begin, at, ending)
    if ending == 'complete':
        b = frame_bytes(bits)
        if b[0] & 15 == 15:
            v = 'ok' if bits[-1] == 1 else 'refused'
        else:
            v = 'ack' if bits[-1] == 0 else 'nack'
        return s + frame_text(b) + ' ' + v
    if ending == 'bad-start':
        return s + '-'
    return s + bits_text(bits)


class Reader:
    """The readings of a list of edges (time, low) that is known up to and including tend; readings ended by tend. The windows of
    the start bit and of the bit period are so much wider at either side."""

    def __init__(self, edges, tend, margin=0):
        self.margin = margin
        self.E = edges
        self.tend = tend
        self.i = 0
        self.readings = []
        self.run()

    def run(self):
        E, tend = self.E, self.tend
        falls = [t for t, low in E if low]
        rises = [t for t, low in E if not low]
        self.standing = None
        n = len(falls)
        i = 0
        while i < n:
            i = self.one(falls, rises, i)

    def one(self, F, R, i):
        """the reading from fall i; gives the index of the next reading's fall. rise i follows fall i."""
        e = begin = F[i]
        tend, m = self.tend, self.margin
        bits = []

        def done(at, ending, upto):
            # upto: index of first fall that may begin the next reading
            self.readings.append((begin, at, ending, list(bits)))
            self.open_state = None
            return upto

        def openr(state):
            self.readings.append((begin, tend, 'open', list(bits)))
            self.open_state = state
            return len(F)
        r = R[i] if i < len(R) else None
        if r is not None and r < e + 3500 - m:
            return done(r, 'bad-start', i + 1)
        if r is None or r > e + 3900 + m:
            if e + 3901 + m <= tend:
                return done(e + 3901 + m, 'bad-start', i + 1)
            return openr('start-low')
        f = F[i + 1] if i + 1 < len(F) else None
        if f is not None and f < e + 4300 - m:
            return done(f, 'bad-start', i + 2)
        if f is None or f > e + 4700 + m:
            if e + 4701 + m <= tend:
                return done(e + 4701 + m, 'bad-start', i + 1)
            return openr('start-high')
        i += 1
        k = 1
        while True:
            e = F[i]
            f = F[i + 1] if i + 1 < len(F) else None
            last = k % 10 == 0 and (bits[k - 2] == 1 or k == 160)
            if f is not None and f <= e + 1050:
                return done(f, 'short', i + 2)
            if e + 1050 > tend:
                return openr('slot:%d:%s' % (k, bits_text(bits)))
            # the sample: low where the stretch from e still holds
            r = R[i] if i < len(R) else None
            bits.append(0 if (r is None or r > e + 1050) else 1)
            if last:
                return done(e + 1050, 'complete' if bits[k - 2] == 1 else 'long', i + 1)
            if f is not None and f < e + 2050 - m:
                return done(f, 'short', i + 2)
            if f is None or f > e + 2750 + m:
                if e + 2751 + m <= tend:
                    return done(e + 2751 + m, 'silent', i + 1)
                return openr('slot:%d:%s' % (k, bits_text(bits)))
            i += 1
            k += 1


def standing_at(edges):
    """Where a receiver stands at the last edge of the list"""
    t = edges[-1][0]
    rd = Reader(edges, t)
    if rd.readings and rd.readings[-1][2] == 'open':
        return rd.open_state
    return 'wait-high' if edges[-1][1] else 'idle'


def turned(data):
    """the edge file of the line that is low where that of this one is high; before 0 both are high"""
    lines = [line.split(b' ') for line in lines_of(data) if not skipped(line)]
    times = {int(t) for t, level in lines if level != b'end'} ^ {0}
    return b''.join(b'%d %d\n' % (t, k % 2) for k, t in enumerate(sorted(times))) + b'%d end\n' % int(lines[-1][0])


def scaled(data, factor):
    """the edge file of a line whose times are multiplied and cut; none where its end is past the limit. A stretch that lasts less than a
    microsecond then goes, with the edge that begins it and the one that ends it."""
    times = fractions.Fraction(factor)
    lines = [line.split(b' ') for line in lines_of(data) if not skipped(line)]
    kept = []
    for t, level in lines[:-1]:
        if kept and (int(t) - int(kept[-1][0])) * times < 1: kept.pop()
        else: kept.append((t, level))
    if int(lines[-1][0]) * times // 1 > 2_000_000_000_000: return None
    return b''.join(b'%d %s\n' % (int(t) * times // 1, level) for t, level in kept + lines[-1:])


def mon(data, margin=0):
    edges = []
    ended = None
    low = False
    lastt = -1
    ls = lines_of(data)
    for n, l in enumerate(ls, 1):
        if skipped(l):
            continue
        w = l.split(b' ')
        t = number(w[0], EDGE_LIMIT) if len(w) == 2 else None
        if t is None or w[1] not in (b'0', b'1', b'end') or ended is not None:
            return 1, b'', 'line %d: line' % n
        if w[1] == b'end':
            if t < lastt:
                return 1, b'', 'line %d: order' % n
            ended = t
            continue
        want_low = not low
        if (w[1] == b'0') != want_low or t <= lastt:
            return 1, b'', 'line %d: order' % n
        low = want_low
        lastt = t
        edges.append((t, low))
    if ended is None:
        return 1, b'', 'line %d: line' % (len(ls) + 1)
    rd = Reader(edges, ended, margin)
    return 0, ''.join(reading_text(r) + '\n' for r in rd.readings).encode(), ''


def folded(text):
    """the lines of readings with bad starts one after another as one line"""
    out = []
    for is_bad, group in itertools.groupby(lines_of(text), lambda line: line.split(b' ')[2:3] == [b'bad-start']):
        group = list(group)
        if is_bad and len(group) > 1:
            out.append(b'%s %s bad-starts %d' % (group[0].split(b' ')[0], group[-1].split(b' ')[1], len(group)))
        else:
            out += group
    return b''.join(line + b'\n' for line in out)


# ---------------------------------------------------------------- a round
def bits_of(frame):
    out = []
    for n, b in enumerate(frame):
        out += [b >> (7 - i) & 1 for i in range(8)]
        out += [1 if n == len(frame) - 1 else 0, 1]
    return out


class Outcome:
    pass


def one_round(M, contenders, plugged, holds, pulses, pi):
    """contenders: {dev: frame}; plugged: list of devs; holds: {dev: address or None}; pulses from index pi are untaken."""
    o = Outcome()
    wave = []
    sending = {d: bits_of(f) for d, f in contenders.items()}
    out = {}
    bits = []
    j = 0
    acks = []
    others = []             # every stretch so far: begin, end, whether a sender's

    def peek():
        """begin, end, is_sender"""
        best = None
        if sending:
            if j == 0:
                best = (M, M + 3700, True)
            else:
                s = M + 4500 + 2400 * (j - 1)
                w = 0
                for b in sending.values():
                    if j <= len(b):
                        w = max(w, 600 if b[j - 1] else 1500)
                if w:
                    best = (s, s + w, True)
        if pi < len(pulses):
            p = pulses[pi]
            if best is None or p[0] <= best[0]:
                best = (p[0], p[1], False)
        return best

    def add(x):
        nonlocal j, pi
        a, b, is_sender = x
        if is_sender:
            j += 1
        else: pi += 1
        others.append((a, b, is_sender))
        if wave and a <= wave[-1][1]:
            wave[-1][1] = max(wave[-1][1], b)
        else:
            wave.append([a, b])

    def short(f, is_fall_of_start=False):
        nonlocal pi
        wave.append([f, f + 1])
        while pi < len(pulses) and pulses[pi][0] <= f:
            wave[-1][1] = max(wave[-1][1], pulses[pi][1])
            pi += 1
        if not is_fall_of_start and any(d not in sending for d in plugged):
            wave[-1][1] = max(wave[-1][1], f + 3600)

    def reading():
        nonlocal pi
        e = M
        while True:
            x = peek()
            if x is None or x[0] != M: break
            add(x)
        assert wave and wave[0][0] == M
        while wave[-1][1] <= e + 3900:
            x = peek()
            if x is None or x[0] > wave[-1][1]: break
            add(x)
        if wave[-1][1] > e + 3900:
            return e + 3901, 'bad-start'
        r = wave[-1][1]
        if r < e + 3500:
            return r, 'bad-start'
        x = peek()
        if x is None or x[0] > e + 4700:
            return e + 4701, 'bad-start'
        f = x[0]
        if f < e + 4300:
            short(f, True)
            return f, 'bad-start'
        add(x)
        k = 1
        e = f
        while True:
            ack = k % 10 == 0
            last = ack and (bits[k - 2] == 1 or k == 160)
            if ack:
                dest = bits[4] << 3 | bits[5] << 2 | bits[6] << 1 | bits[7]
                if dest < 15 and any(dest in holds[d] and d not in sending for d in plugged):
                    wave[-1][1] = max(wave[-1][1], e + 1500)
                    acks.append((e, e + 1500))
            while True:
                x = peek()
                if x is None or x[0] > e + 1050: break
                if x[0] <= wave[-1][1]: add(x)
                else:
                    short(x[0])
                    return x[0], 'short'
            bit = 0 if wave[-1][1] > e + 1050 else 1
            bits.append(bit)
            if last:
                return e + 1050, 'complete' if bits[k - 2] == 1 else 'long'
            for d in list(sending):
                assert j == k + 1, 'sender has not fallen yet'
                if not ack:
                    gone = sending[d][k - 1] != bit
                    if gone: assert bit == 0
                else:
                    gone = bit == 1 if dest < 15 else bit == 0
                if gone:
                    out[d] = k
                    del sending[d]
            while True:
                x = peek()
                if x is None or x[0] > e + 2750:
                    return e + 2751, 'silent'
                if x[0] <= wave[-1][1]:
                    add(x)
                    continue
                f = x[0]
                if f < e + 2050:
                    short(f)
                    return f, 'short'
                add(x)
                e = f
                k += 1
                break

    at, ending = reading()
    if ending == 'silent' and sending:
        # a sender that is still sending stops at the ending and pulls nothing from the next microsecond on
        a0 = wave[-1][0]
        mine = [(a, min(b, at + 1) if snd else b) for a, b, snd in others if a >= a0] + [(a, b) for a, b in acks if a >= a0]
        wave[-1][1] = max(b for a, b in mine)
    while pi < len(pulses) and pulses[pi][0] <= wave[-1][1]:
        wave[-1][1] = max(wave[-1][1], pulses[pi][1])
        pi += 1
    o.reading = (M, at, ending, bits)
    o.rest = wave[-1][1]
    o.close = max(at, o.rest)
    o.wave = wave
    o.survivors = sorted(sending)
    o.out = out
    o.pi = pi
    # the same reading must be had from the finished wave
    edges = edges_of(wave)
    rd = Reader(edges, o.close + 10000)
    assert len(rd.readings) == 1 and rd.readings[0] == o.reading, (o.reading, rd.readings, wave)
    return o


def edges_of(wave):
    return [x for a, b in wave for x in ((a, True), (b, False))]
