"""The EDID that a receiver answers with, of a display's and of its own, and the speakers of an amplifier: a plain model."""
import edid
from edid import check_edid, is_hdmi, mend, read_ext

ROWS = {'product': 'own', 'video': 'keep', 'audio': 'own', 'speakers': 'own', 'hdmi': 'least', 'forum': 'least', 'capability': 'keep',
        'colorimetry': 'and', 'hdr': 'and', 'maker-video': 'keep', 'maker-audio': 'own', 'other': 'keep'}
WORDS = {'speakers': 'keep own and', 'capability': 'keep own and', 'colorimetry': 'keep own and', 'hdr': 'keep own and',
         'hdmi': 'keep own least', 'forum': 'keep own least', 'video': 'keep own link'}
EXTENDED = {0: 'capability', 1: 'maker-video', 7: 'maker-video', 5: 'colorimetry', 6: 'hdr', 14: 'video', 15: 'video', 0x78: 'override',
            **{tag: 'maker-audio' for tag in (17, 18, 19, 20)}}


def words_of(kind):
    return WORDS.get(kind, 'keep own').split()


def kind_of(tag, data):
    if tag == 3:
        return 'hdmi' if is_hdmi(tag, data) else 'forum' if data[:3] == b'\xd8\x5d\xc4' else 'other'
    if tag == 7:
        return EXTENDED.get(data[0], 'other') if data else 'other'
    return {1: 'audio', 2: 'video', 4: 'speakers'}.get(tag, 'other')


def spell(tag, data):
    return bytes([tag << 5 | len(data)]) + bytes(data)


def one_of_two(kind, d, o):
    """the payload of one block of the first of the display's and the first of the receiver's"""
    d, o = bytearray(d), bytes(o) + bytes(32)
    if kind == 'hdmi':
        for i in range(len(d)):
            if i in (3, 4): d[i] = o[i]
            elif i == 5: d[i] = o[i] & 0x80 | d[i] & o[i] & 0x7f
            elif i == 6: d[i] = min(d[i], o[i])
    elif kind == 'forum':
        for i in range(len(d)):
            if i == 4: d[i] = min(d[i], o[i])
            elif i in (5, 7): d[i] &= o[i]
            elif i == 6: d[i] = min(d[i] >> 4, o[i] >> 4) << 4 | d[i] & o[i] & 15
            elif 8 <= i <= 12 and o[i] == 0: d[i] = 0
    else:
        flags = {'speakers': range(31), 'capability': (1,)}.get(kind, (1, 2))
        for i in flags:
            if i < len(d): d[i] &= o[i]
    return bytes(d)


def merged_blocks(rows, display, own):
    out = b''
    for kind in list(ROWS)[1:]:
        d, o = ([(tag, data) for _, tag, data in x['blocks'] if kind_of(tag, data) == kind] for x in (display, own))
        if rows[kind] in ('keep', 'link'): out += b''.join(spell(*it) for it in d)
        elif rows[kind] == 'own': out += b''.join(spell(*it) for it in o)
        elif d and o: out += spell(d[0][0], one_of_two(kind, d[0][1], o[0][1]))
    return out


def word_of(d):
    """what a descriptor is, as the first word of its line"""
    return 'timing' if d[0] or d[1] else edid.descriptor_text(d).split()[0]


def places(base):
    return [base[i:i + 18] for i in range(54, 126, 18)]


def descriptors(display, own):
    """the answer's descriptors, and those of the receiver's that have no place: first each kind takes the places of its own kind, then the
    names and then the serial numbers that are over take the places that are free"""
    kinds = ('name', 'serial-text')
    shown = places(display)
    seats = [word_of(d) for d in shown]
    there = {kind: [d for d in places(own) if word_of(d) == kind] for kind in kinds}
    over = []
    for kind in kinds:
        mine = [i for i, seat in enumerate(seats) if seat == kind]
        for i in mine[len(there[kind]):]: seats[i] = 'dummy'
        over += [kind] * max(0, len(there[kind]) - len(mine))
    for i, seat in enumerate(seats):
        if seat == 'dummy' and over: seats[i] = over.pop(0)
    out = []
    for d, seat in zip(shown, seats):
        out.append(there[seat].pop(0) if seat in kinds else bytes([0, 0, 0, 0x10]) + bytes(14) if seat == 'dummy' else d)
    return b''.join(out), there['name'] + there['serial-text']


def one_cta(e):
    """the place of the one extension with data blocks, or None"""
    full = [i for i in range(128, len(e), 128) if read_ext(e[i:i + 128]) is not None and read_ext(e[i:i + 128])['d']]
    return full[0] if len(full) == 1 else None


def merge(display, own, rows):
    """(the bytes, the cause, what is passed over), the bytes or the cause None"""
    for name, e in (('display', display), ('receiver', own)):
        fault = check_edid(e)
        if fault: return None, '%s: %s' % (name, ' '.join(str(x) for x in fault)), []
        if one_cta(e) is None: return None, name + ': one-cta', []
    place, there = one_cta(display), one_cta(own)
    if rows['video'] is None:
        rows = dict(rows, video='keep' if any(is_forum(tag, data) for _, tag, data in read_ext(own[there:there + 128])['blocks']) else 'link')
    d, o = read_ext(display[place:place + 128]), read_ext(own[there:there + 128])
    blocks = merged_blocks(rows, d, o)
    if len(blocks) > 123: return None, 'long', []
    body = blocks
    for timing in d['timings']:
        if len(body) + 18 > 123: break
        body += timing
    flags = d['flags'] if rows['audio'] == 'keep' else d['flags'] & 0xbf | o['flags'] & 0x40
    ext = mend(bytes([2, 3, len(blocks) + 4, flags]) + body.ljust(123, b'\0') + b'\0')
    base, notes = display[:128], []
    if rows['product'] == 'own':
        there, unplaced = descriptors(display, own)
        base = mend(base[:8] + own[8:18] + base[18:54] + there + base[126:128])
        notes = ['passed over ' + edid.descriptor_text(d) for d in unplaced]
    answer = base + display[128:place] + ext + display[place + 128:]
    return fitted(answer) if rows['video'] == 'link' else answer, None, notes


def is_forum(tag, data):
    return tag == 3 and bytes(data[:3]) == b'\xd8\x5d\xc4' or tag == 7 and bytes(data[:1]) == b'\x79'


def fitted_section(raw, is_lost):
    """a DisplayID extension without the data blocks that are lost; any other block as it is"""
    import check
    parts = [(bytes([tag, revision, len(body)]) + body, is_lost(check.typed_list(tag, revision, body))) for tag, revision, body in check.section_blocks(raw)]
    if not any(lost for _, lost in parts):
        return raw
    data = b''.join(part for part, lost in parts if not lost)
    section = bytes([raw[1], len(data), raw[3], raw[4]]) + data
    return mend((b'\x70' + section + bytes([-sum(section) % 256])).ljust(128, b'\0'))


def fitted(e):
    """an EDID without the formats that its link does not carry"""
    import check
    place = one_cta(e)
    x = read_ext(e[place:place + 128])
    every = check.blocks_of(e)
    is_left = lambda code, halved: code not in check.PACE_OF or not check.is_beyond(
        every, check.PACE_OF[code][0], check.WIDTH_OF.get(code, 0), check.PACE_OF[code][1], halved)
    is_lost = lambda typed: any(check.is_beyond(every, *need) for need in check.typed_needs(typed))
    plain = lambda c: c - 128 if 129 <= c <= 192 else c
    svds = [c for tag, data in every if tag == 2 for c in data]
    stays = [is_left(plain(c), False) for c in svds]
    blocks = b''
    for _, tag, data in x['blocks']:
        data = bytes(data)
        full = len(data)
        if tag == 7 and data and is_lost(check.tagged_lists(data[0], data[1:])): continue
        if tag == 2:
            data = bytes(c for c in data if is_left(plain(c), False))
            if not data and full: continue
        elif tag == 7 and data[:1] == b'\x0e':
            data = data[:1] + bytes(c for c in data[1:] if is_left(plain(c), True))
            if len(data) == 1 < full: continue
        elif tag == 7 and data[:1] == b'\x0f' and not all(stays):
            marks = [i < 8 * len(data[1:]) and data[1 + i // 8] >> i % 8 & 1 for i, stay in enumerate(stays) if stay]
            data = data[:1] + bytes(sum(1 << k for k in range(8) if i + k < len(marks) and marks[i + k]) for i in range(0, 8 * len(data[1:]), 8))
        elif is_hdmi(tag, data) and len(data) > 7 and data[7] & 32:
            end = 8 + 2 * (data[7] >> 7) + 2 * (data[7] >> 6 & 1)
            told = data[end:end + 2] if len(data) >= end + 2 else b'\0\0'
            own = any(not is_left(check.HDMI_CODES.get(c, 0), False) for c in check.hdmi_video_codes(data))
            if own or not all(stays) and (told[0] & 0x60 or told[1] & 31):
                data = data[:7] + bytes([data[7] & ~32]) + data[8:end]
        blocks += spell(tag, data)
    carried = lambda t: not check.is_beyond(every, 10 * (t[0] | t[1] << 8), t[2] | (t[4] >> 4) << 8,
                                            (t[2] | (t[4] >> 4) << 8) + (t[3] | (t[4] & 15) << 8), False)
    area = lambda t: (t[2] | (t[4] >> 4) << 8) * (t[5] | (t[7] >> 4) << 8)
    dummy = bytes([0, 0, 0, 0x10]) + bytes(14)
    is_timing = lambda d: bool(d[0] or d[1])
    shown = places(e)
    left = [dummy if is_timing(d) and not carried(d) else d for d in shown]
    timings = [t for t in x['timings'] if carried(t)]
    lost = left != shown or len(timings) < len(x['timings'])
    if is_timing(shown[0]) and not is_timing(left[0]):
        there = [d for d in left if is_timing(d)] + timings
        if there:
            best = max(there, key=area)
            at = [i for i, d in enumerate(left) if is_timing(d) and area(d) == area(best)]
            if at: left[at[0]] = dummy
            else: timings.remove(next(t for t in timings if area(t) == area(best)))
            left[0] = best
    flags = x['flags'] & 0xf0 if lost else x['flags']
    body = blocks + b''.join(timings)
    ext = mend(bytes([2, 3, len(blocks) + 4, flags]) + body.ljust(123, b'\0') + b'\0')
    others = [ext if at == place else fitted_section(e[at:at + 128], is_lost) for at in range(128, len(e), 128)]
    return mend(e[:54] + b''.join(left) + e[126:128]) + b''.join(others)


def rows_of(text):
    """the rows, or None"""
    rows = dict(ROWS, video=None)
    for row in text.split(',') if text is not None else []:
        kind, _, word = row.partition('=')
        if kind not in rows or word not in words_of(kind): return None
        rows[kind] = word
    return rows


def halves(data):
    end = 128 * (data[126] if len(data) > 126 else 0) + 128
    return data[:end], data[end:]


def with_speakers(e):
    """the bytes with an amplifier's speakers, or None where they have no room"""
    i = edid.first_hdmi(e)
    if i is None: return e
    x = read_ext(e[128 * i:128 * i + 128])
    audio = [n for n, (_, tag, _) in enumerate(x['blocks']) if tag == 1]
    if not audio: return e
    blocks = b''
    for n, (_, tag, data) in enumerate(x['blocks']):
        if tag != 4: blocks += spell(tag, data)
        if n == audio[0]: blocks += b'\x83\x4f\0\0'
    body = blocks + b''.join(x['timings'])
    if any(x['tail']) or len(body) > 123: return None
    new = mend(bytes([2, 3, len(blocks) + 4, x['flags']]) + body.ljust(123, b'\0') + b'\0')
    return e[:128 * i] + new + e[128 * i + 128:]
