"""EDID bytes, text, port EDIDs: a plain model."""
import re
from wire import is_char, pa_text, parse_pa, number, part


class EdidRefused(Exception):
    pass


def base_fault(b):
    if b[0:8] != bytes.fromhex('00ffffffffffff00'):
        return 'header'
    if sum(b) % 256:
        return 'checksum'
    if b[18] != 1 or b[19] not in (3, 4):
        return 'revision'
    m = b[8] << 8 | b[9]
    if m >> 15 or not all(1 <= (m >> s & 31) <= 26 for s in (10, 5, 0)):
        return 'maker'
    return None


def read_ext(b):
    """('raw',) or ('cta', d, flags, blocks [(tag, bytes)], timings, tail); raises on a wrong sum"""
    assert len(b) == 128
    if sum(b) % 256:
        raise EdidRefused('checksum')
    if b[0] != 2 or b[1] != 3:
        return None
    d = b[2]
    blocks, timings = [], []
    if d == 0:
        return dict(d=0, flags=b[3], blocks=[], timings=[], tail=b[4:127])
    if not 4 <= d <= 127:
        return None
    p = 4
    while p < d:
        n = b[p] & 31
        if p + 1 + n > d:
            return None
        blocks.append((p, b[p] >> 5, b[p + 1:p + 1 + n]))
        p += 1 + n
    while p + 18 <= 127 and (b[p] or b[p + 1]):
        timings.append(b[p:p + 18])
        p += 18
    return dict(d=d, flags=b[3], blocks=blocks, timings=timings, tail=b[p:127])


def is_hdmi(tag, data):
    return tag == 3 and len(data) >= 5 and data[:3] == bytes([3, 0x0C, 0])


def hdmi_place(b):
    """offset of the two address bytes in the extension, or None"""
    x = read_ext(b)
    if x is None:
        return None
    for p, tag, data in x['blocks']:
        if is_hdmi(tag, data):
            return p + 4
    return None


MAX_BLOCKS = 4


def check_edid(e):
    """None, or the cause's words"""
    if len(e) not in tuple(128 * i for i in range(1, MAX_BLOCKS + 1)):
        return ('length',)
    f = base_fault(e[:128])
    if f:
        return ('base', f)
    if e[126] != len(e) // 128 - 1:
        return ('count',)
    for i in range(1, len(e) // 128):
        if sum(e[128 * i:128 * i + 128]) % 256:
            return ('ext', i, 'checksum')
    return None


def mend(b):
    b = bytearray(b)
    b[127] = -sum(b[:127]) % 256
    return bytes(b)


def with_audio(b):
    """an amplifier's audio in the bytes of one extension"""
    x = read_ext(b)
    if x is None:
        return b
    for p, tag, data in x['blocks']:
        if tag == 1:
            break
    else:
        return b
    L = len(data)
    new = bytes.fromhex('260f7f07150750')
    if L < 6:
        g = 6 - L
        tail = x['tail']
        if len(tail) < g or any(tail[len(tail) - g:]):
            return b
        body = b[:p] + new + b[p + 1 + L:127 - g]
    else:
        body = b[:p] + new + b[p + 1 + L:127] + bytes(L - 6)
    assert len(body) == 127
    body = bytearray(body)
    body[2] += 6 - L
    return mend(bytes(body) + b'\0')


def first_hdmi(e):
    """index of the extension with the first HDMI block, or None"""
    for i in range(1, len(e) // 128):
        if hdmi_place(e[128 * i:128 * i + 128]) is not None:
            return i
    return None


AUDIO = True


def port_edid(e, address, below_amp):
    i = first_hdmi(e)
    x = e[128 * i:128 * i + 128]
    if below_amp and AUDIO:
        x = with_audio(x)
    p = hdmi_place(x)
    x = bytearray(x)
    x[p] = address >> 8
    x[p + 1] = address & 255
    return e[:128 * i] + mend(bytes(x)) + e[128 * i + 128:]


# ---------------------------------------------------------------- text
def hx(b):
    return bytes(b).hex() or '-'


def timing_text(t):
    return 'timing %d %d %d %d %d %d %d %d %d %d %d %d %d %02x' % (
        t[0] | t[1] << 8, t[2] | (t[4] >> 4) << 8, t[3] | (t[4] & 15) << 8,
        t[5] | (t[7] >> 4) << 8, t[6] | (t[7] & 15) << 8,
        t[8] | (t[11] >> 6) << 8, t[9] | (t[11] >> 4 & 3) << 8,
        t[10] >> 4 | (t[11] >> 2 & 3) << 4, t[10] & 15 | (t[11] & 3) << 4,
        t[12] | (t[14] >> 4) << 8, t[13] | (t[14] & 15) << 8, t[15], t[16], t[17])


TEXT_TAGS = {0xFF: 'serial-text', 0xFE: 'text', 0xFC: 'name'}


def text13(b):
    """the characters or None"""
    n = b.find(b'\n')
    if n < 0:
        return bytes(b) if all(is_char(c) for c in b) else None
    if all(is_char(c) for c in b[:n]) and b[n + 1:] == b' ' * (12 - n):
        return bytes(b[:n])
    return None


def descriptor_text(b):
    if b[0] or b[1]:
        return timing_text(b)
    if b[2] == 0:
        if b[3] in TEXT_TAGS and b[4] == 0:
            t = text13(b[5:18])
            if t is not None:
                return TEXT_TAGS[b[3]] + ' "' + t.decode() + '"'
        if b[3] == 0xFD:
            return 'range ' + b[4:18].hex()
        if b[3] == 0x10 and not any(b[4:18]):
            return 'dummy'
    return 'raw ' + bytes(b).hex()


BLOCK_NAMES = {1: 'audio', 2: 'video', 3: 'vendor', 4: 'speakers', 7: 'extended', 0: 'tag0', 5: 'tag5', 6: 'tag6'}


def edid_text(e):
    b = e
    m = b[8] << 8 | b[9]
    out = ['edid 1.%d' % b[19], 'maker ' + ''.join(chr(64 + (m >> s & 31)) for s in (10, 5, 0)),
           'product %d' % (b[10] | b[11] << 8), 'serial %d' % int.from_bytes(b[12:16], 'little'),
           'made %d %d' % (b[16], b[17] + 1990), 'input %02x' % b[20], 'size %d %d' % (b[21], b[22]),
           'gamma %d' % b[23], 'features %02x' % b[24]]
    lo = [b[25] >> 6, b[25] >> 4 & 3, b[25] >> 2 & 3, b[25] & 3, b[26] >> 6, b[26] >> 4 & 3, b[26] >> 2 & 3, b[26] & 3]
    out.append('chroma ' + ' '.join(str(b[27 + i] << 2 | lo[i]) for i in range(8)))
    out.append('established ' + b[35:38].hex())
    for i in range(8):
        x, y = b[38 + 2 * i], b[39 + 2 * i]
        if (x, y) == (1, 1): out.append('standard unused')
        else: out.append('standard %d %d %d' % ((x + 31) * 8, y >> 6, (y & 63) + 60))
    for i in range(4):
        out.append(descriptor_text(b[54 + 18 * i:72 + 18 * i]))
    for i in range(1, len(e) // 128):
        x = e[128 * i:128 * i + 128]
        c = read_ext(x)
        if c is None:
            out.append('ext ' + x.hex())
            continue
        out.append(('cta %02x' if c['d'] else 'cta-none %02x') % c['flags'])
        for p, tag, data in c['blocks']:
            if is_hdmi(tag, data):
                out.append('hdmi %s %s' % (pa_text(data[3] << 8 | data[4]), hx(data[5:])))
            else:
                out.append(BLOCK_NAMES[tag] + ' ' + hx(data))
        for t in c['timings']:
            out.append(timing_text(t))
        out.append('tail ' + hx(bytes(c['tail']).rstrip(b'\0')))
    return ''.join(l + '\n' for l in out).encode()


def cause_text(f):
    return ' '.join(str(x) for x in f)


def edid_cmd(data):
    f = check_edid(data)
    if f:
        return 1, b'', 'edid: ' + cause_text(f)
    return 0, edid_text(data), ''


# text -> bytes, line by line
def hexbytes(w, n=None, empty_dash=False):
    if empty_dash and w == b'-':
        return b''
    if not re.fullmatch(rb'([0-9a-f]{2})+', w):
        return None
    b = bytes.fromhex(w.decode())
    if n is not None and len(b) != n:
        return None
    return b


def nums(ws, limits):
    out = []
    for w, (lo, hi) in zip(ws, limits):
        v = number(w)
        if v is None or not lo <= v <= hi:
            return None
        out.append(v)
    return out


TIMING_LIMITS = [(1, 65535)] + [(0, 4095)] * 4 + [(0, 1023)] * 2 + [(0, 63)] * 2 + [(0, 4095)] * 2 + [(0, 255)] * 2


def parse_timing(ws):
    v = nums(ws[:13], TIMING_LIMITS)
    f = hexbytes(ws[13], 1)
    if v is None or f is None:
        return None
    c, ha, hb, va, vb, ho, hw, vo, vw, mw, mh, b1, b2 = v
    return bytes([c & 255, c >> 8, ha & 255, hb & 255, ha >> 8 << 4 | hb >> 8, va & 255, vb & 255, va >> 8 << 4 | vb >> 8,
                  ho & 255, hw & 255, (vo & 15) << 4 | vw & 15,
                  ho >> 8 << 6 | hw >> 8 << 4 | vo >> 4 << 2 | vw >> 4,
                  mw & 255, mh & 255, mw >> 8 << 4 | mh >> 8, b1, b2]) + f


def text_value(w, most):
    if len(w) < 2 or w[:1] != b'"' or w[-1:] != b'"':
        return None
    t = w[1:-1]
    if len(t) > most or not all(is_char(c) for c in t):
        return None
    return t


NAME_TAG = {v.encode(): k for k, v in BLOCK_NAMES.items()}
NAME_TEXT = {v.encode(): k for k, v in TEXT_TAGS.items()}


class TextParser:
    def __init__(self, data):
        self.lines = data.split(b'\n')
        self.unended = self.lines[-1] != b''
        if not self.unended:
            self.lines.pop()
        self.n = 0
        self.base = bytearray(128)
        self.exts = []

    def fault(self, kind):
        raise EdidRefused(kind, self.n)

    def line(self, allowed):
        """next line as words where first word and number of words are as allowed {word: {counts}}, and ends with 0A"""
        self.n += 1
        if self.n > len(self.lines):
            self.fault('syntax')
        l = self.lines[self.n - 1]
        if self.n == len(self.lines) and self.unended:
            self.fault('syntax')
        ws = part(l)
        if ws[0] not in allowed or len(ws) not in allowed[ws[0]]:
            self.fault('syntax')
        return ws

    def need(self, v):
        if v is None:
            self.fault('field')
        return v

    def simple(self, word, count):
        return self.line({word: {count}})[1:]

    def parse(self):
        b = self.base
        b[0:8] = bytes.fromhex('00ffffffffffff00')
        w = self.simple(b'edid', 2)
        b[18] = 1
        if w[0] not in (b'1.3', b'1.4'): self.fault('field')
        b[19] = int(w[0][2:])
        w = self.simple(b'maker', 2)
        if not re.fullmatch(rb'[A-Z]{3}', w[0]): self.fault('field')
        m = (w[0][0] - 64) << 10 | (w[0][1] - 64) << 5 | (w[0][2] - 64)
        b[8], b[9] = m >> 8, m & 255
        v = self.need(nums(self.simple(b'product', 2), [(0, 65535)]))
        b[10:12] = v[0].to_bytes(2, 'little')
        v = self.need(nums(self.simple(b'serial', 2), [(0, 2 ** 32 - 1)]))
        b[12:16] = v[0].to_bytes(4, 'little')
        v = self.need(nums(self.simple(b'made', 3), [(0, 255), (1990, 2245)]))
        b[16], b[17] = v[0], v[1] - 1990
        b[20:21] = self.need(hexbytes(self.simple(b'input', 2)[0], 1))
        v = self.need(nums(self.simple(b'size', 3), [(0, 255)] * 2))
        b[21], b[22] = v
        b[23] = self.need(nums(self.simple(b'gamma', 2), [(0, 255)]))[0]
        b[24:25] = self.need(hexbytes(self.simple(b'features', 2)[0], 1))
        v = self.need(nums(self.simple(b'chroma', 9), [(0, 1023)] * 8))
        for i in range(8):
            b[27 + i] = v[i] >> 2
        b[25] = (v[0] & 3) << 6 | (v[1] & 3) << 4 | (v[2] & 3) << 2 | v[3] & 3
        b[26] = (v[4] & 3) << 6 | (v[5] & 3) << 4 | (v[6] & 3) << 2 | v[7] & 3
        b[35:38] = self.need(hexbytes(self.simple(b'established', 2)[0], 3))
        for i in range(8):
            ws = self.line({b'standard': {2, 4}})
            if len(ws) == 2:
                if ws[1] != b'unused': self.fault('field')
                x, y = 1, 1
            else:
                v = self.need(nums(ws[1:], [(248, 2288), (0, 3), (60, 123)]))
                if v[0] % 8: self.fault('field')
                x, y = v[0] // 8 - 31, v[1] << 6 | v[2] - 60
                if (x, y) == (1, 1): self.fault('field')
            b[38 + 2 * i], b[39 + 2 * i] = x, y
        for i in range(4):
            ws = self.line({b'timing': {15}, b'name': {2}, b'text': {2}, b'serial-text': {2}, b'range': {2},
                            b'dummy': {1}, b'raw': {2}})
            k = ws[0]
            if k == b'timing': d = self.need(parse_timing(ws[1:]))
            elif k in NAME_TEXT:
                t = self.need(text_value(ws[1], 13))
                if len(t) < 13: t = t + b'\n' + b' ' * (12 - len(t))
                d = bytes([0, 0, 0, NAME_TEXT[k], 0]) + t
            elif k == b'range': d = bytes([0, 0, 0, 0xFD]) + self.need(hexbytes(ws[1], 14))
            elif k == b'dummy': d = bytes([0, 0, 0, 0x10]) + bytes(14)
            else:
                d = self.need(hexbytes(ws[1], 18))
                if not descriptor_text(d).startswith('raw '): self.fault('field')
            assert len(d) == 18
            b[54 + 18 * i:72 + 18 * i] = d
        while not (self.n == len(self.lines)):
            if len(self.exts) == MAX_BLOCKS - 1:
                self.n += 1
                self.fault('syntax')
            ws = self.line({b'cta': {2}, b'cta-none': {2}, b'ext': {2}})
            if ws[0] == b'ext':
                x = self.need(hexbytes(ws[1], 128))
                if sum(x) % 256 or read_ext(x) is not None: self.fault('field')
                self.exts.append(x)
                continue
            flags = self.need(hexbytes(ws[1], 1))
            body = b''
            d = 0
            if ws[0] == b'cta':
                d = 4
                state = 0
                while True:
                    room = 123 - len(body)
                    allowed = {b'tail': {2}}
                    if state == 0:
                        for name in NAME_TAG:
                            if room >= 1: allowed[name] = {2}
                        if room >= 6: allowed[b'hdmi'] = {3}
                    if room >= 18: allowed[b'timing'] = {15}
                    ws = self.line(allowed)
                    if ws[0] == b'tail': break
                    if ws[0] == b'timing':
                        body += self.need(parse_timing(ws[1:]))
                        state = 1
                        continue
                    if ws[0] == b'hdmi':
                        p = self.need(parse_pa(ws[1]))
                        rest = self.need(hexbytes(ws[2], None, True))
                        data = bytes([3, 0x0C, 0, p >> 8, p & 255]) + rest
                        tag = 3
                    else:
                        data = self.need(hexbytes(ws[1], None, True))
                        tag = NAME_TAG[ws[0]]
                        if is_hdmi(tag, data): self.fault('field')
                    if len(data) > 31 or 1 + len(data) > room: self.fault('field')
                    body += bytes([tag << 5 | len(data)]) + data
                    d = 4 + len(body)
                tail = ws[1]
            else:
                tail = self.simple(b'tail', 2)[0]
            room = 123 - len(body)
            t = self.need(hexbytes(tail, None, True))
            if len(t) > room or (t and t[-1] == 0): self.fault('field')
            t = t + bytes(room - len(t))
            if d and room >= 18 and (t[0] or t[1]): self.fault('field')
            self.exts.append(mend(bytes([2, 3, d]) + flags + body + t + b'\0'))
        b[126] = len(self.exts)
        e = mend(bytes(b)) + b''.join(self.exts)
        assert check_edid(e) is None
        return e


def text_cmd(data):
    try:
        e = TextParser(data).parse()
    except EdidRefused as r:
        return 1, b'', 'text: %s %d' % (r.args[0], r.args[1])
    assert edid_text(e) == data
    return 0, e.hex().encode() + b'\n', ''
