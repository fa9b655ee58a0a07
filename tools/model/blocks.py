"""What is reserved in a data block, and whether it is too short or too long: a plain model."""

# bits of 3D structures that have a meaning (HDMI 1.4b, table H-2), and codes of details (table H-5)
STRUCTURES = 0x817F
DETAILS = (0, 1, 6, 7, 8, 9, 10)
# audio formats by extension (CTA-861-H, table 40)
EXTENSIONS = (4, 5, 6, 7, 8, 10, 11, 12, 13, 14, 15)


def is_format(code):
    return 0 < code < 128 or 192 < code < 220


def forum(p):
    """from the version on (HDMI 2.1, section 10.3.2)"""
    q = p + bytes(10)
    reserved = len(p) > 0 and p[0] != 1 or q[3] >> 4 > 6 or q[8] >> 4 > 6 or q[8] & 15 > 7 or q[9] & 0xC0
    return bool(reserved), not 4 <= len(p) <= 10


def sink_capabilities(p):
    reserved, misfits = forum(p[2:])
    return any(p[:2]) or reserved, misfits


def hdmi(p):
    """from the address on (HDMI 1.4b, section 8.3.2); the bytes after the last field are 0"""
    at = lambda i: p[i] if i < len(p) else 0
    reserved = bool(at(2) & 6 or at(4) & 0x10)
    short, place = len(p) < 2, 5
    for bit in (0x80, 0x40):
        if at(4) & bit:
            reserved |= any(251 < x < 255 for x in p[place:place + 2])
            place += 2
    if at(4) & 0x20:
        form, codes, size = at(place) >> 5 & 3, at(place + 1) >> 5, at(place + 1) & 31
        reserved |= bool(at(place) & 7) or form == 3
        place += 2
        reserved |= any(not 1 <= x <= 4 for x in p[place:place + codes])
        place += codes
        stop = place + size
        if form in (1, 2) and size >= 2:
            reserved |= bool((at(place) << 8 | at(place + 1)) & ~STRUCTURES)
            place += 2
        if form == 2 and size >= 4:
            place += 2
        if form == 3:
            place = stop
        while form != 3 and place < stop and not (form == 1 and size < 2 or form == 2 and size < 4):
            structure = at(place) & 15
            reserved |= place < len(p) and structure in (7, 9, 10, 11, 12, 13, 14, 15)
            if structure >= 8:
                reserved |= at(place + 1) >> 4 not in DETAILS or bool(at(place + 1) & 15)
            place += 2 if structure >= 8 else 1
    short |= len(p) < place != 5
    return reserved or any(p[place:]), short


def sound(p):
    """an audio format (CTA-861-H, section 7.5.2)"""
    first, second, third = (p + bytes(2))[:3]
    code, extension, top = first >> 3 & 15, third >> 3, bool(first & 0x80 or second & 0x80)
    if code == 15:
        if extension == 13:
            return False
        if extension in (11, 12):
            return top or bool(first & 7) or extension == 11 and third & 7 > 5
        return top or len(p) > 2 and extension not in EXTENSIONS or extension in (4, 5, 6) and bool(third & 1)
    return code == 0 or top or bool(third & {1: 0xF8, 10: 0xFC, 12: 0xFC, 14: 0xF8}.get(code, 0))


def audio(p):
    return any(sound(p[i:i + 3]) for i in range(0, len(p), 3)), len(p) % 3 > 0


def dolby(p):
    """after its identifier, by the version in the top three bits"""
    q, version = p + bytes(10), p[0] >> 5 if p else 0
    if version == 1:
        size = 7 if len(p) == 7 else 10
        return bool(q[3] & 2 if size == 7 else q[3]), len(p) != size
    if version == 2:
        return bool(q[2] & 4), len(p) != 7
    return version > 2, not p


def preferred(x):
    return not (0 < x < 128 or 128 < x < 176 or 192 < x < 255)


def judge(tag, data):
    """whether a field is reserved, and whether bytes are missing or left over"""
    data = bytes(data)
    if tag == 1:
        return audio(data)
    if tag == 2:
        return any(not (is_format(x) or 128 < x < 193) for x in data), False
    if tag == 3:
        return {b'\x03\x0c\x00': hdmi, b'\xd8\x5d\xc4': forum}.get(data[:3], lambda p: (False, False))(data[3:])
    if tag == 4:
        return bool((data + bytes(3))[2] & 0xE0), len(data) != 3
    if tag != 7 or not data:
        return False, False
    p = data[1:]
    q = p + bytes(5)
    return {
        0x00: lambda: (False, len(p) != 1),
        0x01: lambda: dolby(p[3:]) if p[:3] == b'\x46\xd0\x00' else (False, False),
        0x05: lambda: (False, len(p) != 2),
        0x06: lambda: (bool(q[0] & 0xF0 or q[1] & 0xFE), not 2 <= len(p) <= 5),
        0x0D: lambda: (any(preferred(x) for x in p), not p),
        0x0E: lambda: (any(not is_format(x) for x in p), False),
        0x78: lambda: (False, len(p) != 1),
        0x79: lambda: sink_capabilities(p),
    }.get(data[0], lambda: (False, False))()
