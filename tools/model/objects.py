"""Lines of a trace, of readings or of a report as objects of JSON: what docs/json.md says of them, by Python's json."""
import json
import re
import wire

ENDINGS = ('complete', 'short', 'silent', 'bad-start', 'long', 'open', 'joined')
STATE = ['device', 'kind', 'logical_addresses', 'physical_address', 'power', 'active_source', 'path', 'deck', 'menu',
         'system_audio', 'volume', 'mute', 'audio_return_channel', 'selected_port', 'menu_language', 'osd_text', 'held_key',
         'heard', 'subscriber', 'queued', 'dropped']
SWITCHES = ('menu', 'system_audio', 'mute', 'audio_return_channel')
NUMBERS = ('volume', 'selected_port', 'queued', 'dropped')


def none(word):
    return None if word == '-' else word


def listed(word):
    return [] if word == '-' else word.split(',')


def loser(word):
    device, slot = word.split('@')
    return {'device': device, 'slot': int(slot)}


def reading(words):
    begin, close, ending = words[:3]
    told = {'type': 'reading', 'begin': int(begin), 'close': int(close), 'ending': ending}
    rest, seats = words[3:], {}
    if len(rest) > 4 and rest[-2] == 'out' and rest[-4] == 'by':
        told['type'] = 'round'
        seats = {'by': listed(rest[-3]), 'out': [loser(word) for word in listed(rest[-1])]}
        rest = rest[:-4]
    if ending == 'complete':
        text = ' '.join(rest[:-1])
        told.update(frame=text, initiator=text[0], destination=text[2], bytes=wire.assemble(text.encode()).hex(), verdict=rest[-1])
    else:
        told['bits'] = none(rest[0])
    told.update(seats)
    return told


def state(words):
    told = {'type': 'state'}
    for name, word in zip(STATE, words):
        value = word.split('=')[-1]
        if name in SWITCHES:
            told[name] = None if value == '-' else value == 'on'
        elif name in NUMBERS:
            told[name] = None if value == '-' else int(value)
        elif name == 'logical_addresses':
            told[name] = [none(unit) for unit in value.split('+')]
        elif name == 'heard' and value != '-':
            told[name] = dict(zip(['initiator', 'opcode', 'first_operand'], value.split(':')))
        else:
            told[name] = none(value)
    return told


def told_of(line):
    words = line.split(' ')
    if words[0] == 'state':
        told = state(words[1:])
    elif words[1] == 'port':
        told = {'type': 'port', 'at': int(words[0]), 'device': words[2], 'port': int(words[3]), 'edid': words[4]}
    elif words[1] == 'event':
        cause = words[4] if len(words) > 4 else None
        told = {'type': 'event', 'at': int(words[0]), 'script_line': int(words[2]), 'verdict': words[3], 'cause': cause}
    elif words[1] == 'end':
        told = {'type': 'end', 'at': int(words[0])}
    else:
        told = reading(words)
    return told


def test(holds, rest):
    number, place = rest.split(' - line ', 1)
    line, text = place.split(': ', 1)
    refused = text.startswith('refused ')
    return {'type': 'test', 'test': int(number), 'script_line': int(line), 'holds': holds,
            'expectation': None if refused else re.sub(r'\\(.)', r'\1', text), 'refused': text[8:] if refused else None}


def report_told_of(line):
    if line == 'TAP version 13':
        return {'type': 'version', 'version': 13}
    if line.startswith(('ok ', 'not ok ')):
        return test(line[0] == 'o', line.split('ok ', 1)[1])
    if line == '# no instant':
        return {'type': 'window', 'seen': None, 'from': None, 'to': None}
    if line.startswith('# seen '):
        seen, start, end = line.split(' ')[2::2]
        return {'type': 'window', 'seen': int(seen), 'from': int(start), 'to': int(end)}
    if line == '# trace':
        return {'type': 'trace'}
    if line.startswith('1..'):
        return {'type': 'plan', 'tests': int(line[3:])}
    return told_of(line[2:])


def stretch_told_of(line):
    stretch, *verdicts = line.split(' ')
    first, last = stretch.split('..')
    return {'type': 'stretch', 'from': int(first), 'to': int(last), 'holds': [verdict == 'ok' for verdict in verdicts]}


def objects(text, told=told_of):
    """the objects of a text's lines"""
    return ''.join(json.dumps({'line': line, **told(line)}, separators=(',', ':')) + '\n' for line in text.decode().splitlines()).encode()


HEADS = {'device': (('device', str), ('kind', str), ('ports', int)), 'plug': (('device', str), ('parent', str), ('port', int)),
         'edid': (('edid', str),), **dict.fromkeys(('pulse', 'pull'), (('at', int), ('width', int))), 'pin': (('at', int), ('level', int))}


def head_told_of(line):
    kind, *words = line.split(' ')
    return {'type': kind, **{name: shape(word) for (name, shape), word in zip(HEADS[kind], words)}}


def room_objects(data, out):
    """the objects of a run with its room: its devices, plugs, EDID, pulses, pulls and pin, then the trace, each event with its line"""
    lines = data.decode('latin1').split('\n')
    script = lines[lines.index('script') + 1:]
    heads = [line for line in lines if line.split(' ')[0] in HEADS]

    def told(line):
        found = told_of(line)
        if found['type'] == 'event':
            text = script[found['script_line'] - 1].split(' ', 2)[2]
            verb, device = text.split(' ')[:2]
            found.update(verb=verb, device=device, text=text)
        return found

    return objects('\n'.join(heads).encode(), head_told_of) + objects(out, told)


# The lines of an audit below readings (docs/mon.md, "Audit of a capture"): the kind, the section of HDMI 1.4 CEC, whether the
# standard has it otherwise, and the words. Values are numbers but for TEXTS.
TEXTS = ('initiator', 'destination', 'opcode', 'verdict', 'before', 'address', 'word', 'kind')
SPAN = r'(?P<least>\d+)\.\.(?P<most>\d+)'
SLOT = r'slot (?P<slot>\d+) block (?P<block>\d+) bit (?P<bit>\d+) %s (?P<width>\d+) not ' + SPAN
BLOCK = r'block (?P<block>\d+) (?P<verdict>not acknowledged|refused), attempt (?P<attempt>\d+)'
AUDIT = [(kind, section, remark, re.compile(form)) for kind, section, remark, form in [
    ('bad-starts', None, False, r'after (?P<count>\d+) bad-start since (?P<since>\d+)'),
    ('no-answer', '9.2', True, r'no answer to (?P<initiator>.)>(?P<destination>.) (?P<opcode>..) of (?P<at>\d+)'),
    ('late-answer', '9.2', True, r'answered after (?P<wait>\d+), at most (?P<most>\d+)'),
    ('free', '9.1', True, r'free (?P<width>\d+) of (?P<due>\d+)'),
    ('start-low', '5.2.1', True, r'start low (?P<width>\d+) not ' + SPAN),
    ('start-total', '5.2.1', True, r'start total (?P<width>\d+) not ' + SPAN),
    ('bit-low', '5.2.2', True, SLOT % 'low'),
    ('bit-total', '5.2.2', True, SLOT % 'total'),
    ('low-drive', '7.4', True, r'low drive (?P<width>\d+)(?: not ' + SPAN + ')?'),
    ('drive-within', '7.4', True, r'low drive for (?P<width>\d+)'),
    ('unfinished', '6.1.2', True, r'ends after block (?P<block>\d+) without EOM'),
    ('attempt', '6.1.2', False, BLOCK + '(?P<most>)'),
    ('too-many-attempts', '7.1', True, BLOCK + r' of at most (?P<most>\d+)'),
    ('goes-on', '7.1', True, r'goes on after block (?P<block>\d+), which was not taken, by initiator (?P<initiator>.)'),
    ('stops', '6.1', True, r'stops after slot (?P<slot>\d+) by initiator (?P<initiator>.)'),
    ('lone-start', '5.2.1', True, r'low for (?P<width>\d+) and nothing after it'),
    ('arbitration-lost', '7.2', False, 'arbitration lost'),
    ('cut-by-the-end', None, False, 'cut by the end'),
    ('mid-frame', None, False, 'begins in mid frame'),
    ('moved', '10.1', False, r'(?P<initiator>.) reported (?P<before>\S+) before'),
    ('receivers', '13', True, r'to all, only for one device|to one device, only for all'),
    ('operands', '13', True, r'operands (?P<count>\d+), at least (?P<least>\d+)'),
    ('nobody-there', '11.2', False, r'nobody reported (?P<address>\S+) of (?P<at>\d+)'),
    ('read', None, False, r'read (?P<initiator>.)>(?P<destination>.)(?: (?P<opcode>\S+))?'),
    ('word', None, False, r'# (?P<word>\S+)'),
]]
ALL = [
    ('summary', re.compile('all readings')),
    ('sender', re.compile(r'from (?P<initiator>.): (?P<taken>\d+) taken, (?P<not_taken>\d+) not taken, (?P<broken>\d+) broken')),
    ('widths', re.compile(r'(?P<kind>\S+ \S+) (?P<least>\d+)\.\.(?P<greatest>\d+) mean (?P<mean>\d+) of (?P<count>\d+)')),
]
VERDICTS = {'not acknowledged': 'nack', 'refused': 'refused', '-': None}
# who is at fault for how a frame ends
ENDINGS = {'goes-on': 'initiator', 'stops': 'initiator', 'lone-start': 'unknown'}


def values(found):
    return {name: VERDICTS.get(word, word) if name in TEXTS else int(word) if word else None for name, word in found.groupdict().items()}


def party(kind, said):
    """what is said of an ending, with who is at fault for it: initiator and follower are the last two"""
    if kind not in ENDINGS:
        return said
    initiator = said.pop('initiator', None)
    return {**said, 'who': ENDINGS[kind], 'initiator': initiator, 'follower': None}


def audit_told_of(line):
    if not line.startswith('  '):
        return told_of(line)
    for kind, section, remark, form in AUDIT:
        found = form.fullmatch(line[2:])
        if found:
            name = 'remark' if remark else 'note'
            return {'type': name, name: kind, 'section': section, **party(kind, values(found))}
    for name, form in ALL:
        found = form.fullmatch(line[2:])
        if found:
            return {'type': name, **values(found)}
    raise ValueError(line)


def has_remark(text):
    """whether an audit has a line that the standard has otherwise"""
    return any(audit_told_of(line)['type'] == 'remark' for line in text.decode().splitlines())
