"""Expectations of scripts and their report: a plain model."""
import re
import audit
import net
import objects
import patterns
from net import Fault, Run, load, parse_script, parse_topology, parts
from wire import T_LIMIT, lines_of, number, skipped

ROUND = re.compile(rb'\d+ \d+ (complete|short|silent|bad-start|long) ')
EVENT = re.compile(rb'(\d+) event (\d+) (ok|refused ([a-z-]+))')
PHYSICAL = rb'[0-9a-f]\.[0-9a-f]\.[0-9a-f]\.[0-9a-f]'
STATE_WORD = re.compile(rb'|'.join((
    rb'tv|amp|player|recorder|switch|combo|outside|outside-tv|on|standby|-', rb'[0-9a-f]', rb'[0-9a-f]\+[0-9a-f-]', rb'-\+-', PHYSICAL,
    rb'(active|path)=(-|' + PHYSICAL + rb')', rb'(deck|held)=(-|[0-9a-f]{2})', rb'(menu|audio|mute|arc)=(-|on|off)', rb'lang=(-|[0-9a-f]{6})',
    rb'osd=(-|([0-9a-f]{2}){1,16})', rb'heard=(-|[0-9a-f]:[0-9a-f]{2}:[0-9a-f]{2})', rb'sub=(-|[0-9a-f])')))
# The numbers of a state line, and up to which one each goes; the last two are always there.
STATE_NUMBER = re.compile(rb'(volume|sel|queue|dropped)=(0|[1-9][0-9]*|-)')
MOST_OF = {b'volume': 100, b'sel': 15, b'queue': 16, b'dropped': 2 ** 64 - 1}
SHOWN = 8
KINDS = [kind.encode() for kind, _, remark, _ in objects.AUDIT if remark]
MOST_PATTERN = 160
MOST_STARS = 4
MOST = 2 ** 64 - 1
LABELABLE = (b'expect', b'at', b'pulse', b'pull', b'pin')


def is_expectation(line):
    return line.split(b' ')[0] == b'expect'


def parted(line):
    """(label or None, what stands after it or None); the whole line where it has none"""
    words = line.split(b' ', 2)
    if words[0] != b'label':
        return None, line
    return (words[1] if len(words) > 1 else b''), (words[2] if len(words) > 2 else None)


def plain_script(script):
    """the script without labels, in which an expectation is an empty line"""
    out = []
    for line in lines_of(script):
        if not skipped(line):
            line = parted(line)[1] or b''
            if is_expectation(line):
                line = b''
        out.append(line)
    return b''.join(line + b'\n' for line in out)


class Expectation:
    """`kind` is rounds, refused or state"""

    def __init__(self, number_, text, label, kind):
        self.number, self.text, self.label, self.kind = number_, text, label, kind


# The words before the number of a count, and the counts that it allows.
COUNTS = {(b'exactly',): lambda count, n: count == n, (b'at', b'most'): lambda count, n: count <= n, (b'at', b'least'): lambda count, n: count >= n}


def count_in(words):
    """how many of an expectation's words say how often a round is expected, what tells it of a count, and whether a number is none"""
    if words[:1] in ([b'none'], [b'once']):
        return 1, lambda count, n=[b'none', b'once'].index(words[0]): count == n, False
    for front, allows in COUNTS.items():
        place = len(front)
        if tuple(words[:place]) == front:
            n = number(words[place], MOST) if len(words) > place else None
            return place + 1, lambda count: allows(count, n), n is None or front[-1] == b'least' and n == 0
    return 0, lambda count: count > 0, False


def is_pattern(text):
    return 1 <= len(text) <= MOST_PATTERN and text.count(b'*') <= MOST_STARS and text.strip(b' ') == text


def is_remark_called(pattern):
    """whether the first word is met by what some kind of remarks is called"""
    return any(fits(pattern.split(b' ')[0], kind) for kind in KINDS)


def remarks_of(edges):
    """(kind, line) of each remark of the audit of an edge file"""
    lines = audit.audit(edges, False)[1].decode().splitlines()
    told = [(objects.audit_told_of(line), line.encode()) for line in lines]
    return [(it['remark'].encode(), line) for it, line in told if it['type'] == 'remark']


def remarks_met(pattern, remarks):
    """the lines of the remarks that meet a pattern, or without one of all"""
    if pattern is None:
        return [line for _, line in remarks]
    first, _, rest = pattern.partition(b' ')
    return [line for kind, line in remarks if fits(first, kind) and (not rest or fits(rest, line[2:]))]


def parse_expectation(n, text, label, body, names, end):
    """the expectation; a list of causes at fault where it is at fault"""
    words = body.split(b' ')
    it = Expectation(n, text, label, 'rounds')
    if words[1:2] == [b'refused']:
        if len(words) not in (3, 4):
            return ['word']
        it.kind, it.of, it.word = 'refused', words[2] if len(words) == 4 else None, words[-1]
        return it
    if words[1:2] == [b'state']:
        if len(words) < 5 or b'' in words[4:] or words[4:] == [b'not']:
            return ['word']
        it.kind, it.at, it.device, it.words = 'state', number(words[2], T_LIMIT), words[3], words[4:]
        it.absent = it.words[0] == b'not'
        if it.absent:
            it.words = it.words[1:]
        causes = []
        if it.at is None:
            causes.append('number')
        if it.device.decode('latin1') not in names:
            causes.append('name')
        if it.at is not None and it.at > end:
            causes.append('order')
        return causes or it
    if words[1:2] == [b'no-remark']:
        it.kind, it.pattern = 'unremarked', b' '.join(words[2:]) if len(words) > 2 else None
        return it if it.pattern is None or is_pattern(it.pattern) else ['word']
    counts, it.allows, uncounted = count_in(words[1:])
    place = counts + 1
    window, pattern = words[place:place + 4], b' '.join(words[place + 4:])
    if len(window) < 4 or not is_pattern(pattern):
        return ['word']
    it.pattern = pattern
    strange = any(name.decode('latin1') not in names for name in patterns.names_in(pattern))
    if window[0] == b'within' and window[2] == b'of':
        it.window, it.span, it.of = 'within', number(window[1], MOST), window[3]
        return ['number'] if it.span is None or uncounted else ['name'] if strange else it
    if window[0] == b'from' and window[2] == b'to':
        it.window, it.begin, it.end = 'from', number(window[1], MOST), number(window[3], MOST)
        if it.begin is None or it.end is None or uncounted:
            return ['number']
        it.of = None
        if strange:
            return ['name']
        return it if it.begin <= it.end else ['order']
    return ['word']


ORDER = ['word', 'number', 'name', 'label', 'order', 'pattern']


def expectations(script, names, end):
    """the expectations, {label: line of its event} and {label: onset of its pulse, its pull or its level}; raises the first fault"""
    found, labels, onsets = [], {}, {}
    # the line of the event just above
    above = None
    for n, line in enumerate(lines_of(script), 1):
        event_above, above = above, None
        if skipped(line):
            continue
        label, body = parted(line)
        if body and body.startswith(b'at '):
            above = n
        causes = []
        if label is not None and (body is None or body.split(b' ')[0] not in LABELABLE):
            causes.append('word')
        if label is not None and (label == b'' or label in labels):
            causes.append('label')
        it = None
        if body and is_expectation(body):
            it = parse_expectation(n, line, label, body, names, end)
            if isinstance(it, list):
                causes += it
                it = None
                # a window at fault in its order may name no label
            elif it.kind == 'refused':
                it.event = event_above if it.of is None else labels.get(it.of)
                if it.event is None:
                    causes.append('label')
            elif it.kind == 'rounds' and it.of is not None and it.of not in labels:
                causes.append('label')
            if it and (it.kind == 'rounds' and not patterns.is_met(it.pattern, list(names)) or it.kind == 'refused' and it.word not in patterns.REFUSALS or it.kind == 'unremarked' and it.pattern and not is_remark_called(it.pattern)
                    or it.kind == 'state' and not all(map(is_state_word, it.words))):
                causes.append('pattern')
        if causes:
            raise Fault('script line %d: %s' % (n, min(causes, key=ORDER.index)))
        if label is not None:
            labels[label] = n if body.startswith(b'at ') else None
            if body.startswith((b'pulse ', b'pull ', b'pin ')):
                onsets[label] = number(body.split(b' ')[1])
        if it:
            found.append(it)
    return found, labels, onsets


def is_state_word(word):
    """whether the state line of some device can have this word"""
    number = STATE_NUMBER.fullmatch(word)
    if not number: return bool(STATE_WORD.fullmatch(word))
    if number[2] == b'-': return number[1] in (b'volume', b'sel')
    return int(number[2]) <= MOST_OF[number[1]]


def fits(pattern, text):
    """the text begins with the pattern, up to the end of a word; a * is any bytes of one word"""
    parts_ = [re.escape(p) for p in pattern.split(b'*')]
    return re.match(b'[^ ]*'.join(parts_) + b'(?= |$)', text, re.S) is not None


def meets(pattern, text):
    """it fits with an address of each device that it names, by what the last word says"""
    holders = [holder.split(b'=') for holder in text.split(b' ')[-1].split(b'@') if b'=' in holder]
    return any(fits(p, text) for p in patterns.with_addresses(pattern, lambda name: [int(h[1], 16) for h in holders if h[0] == name]))


def told(line):
    """what a round says: what stands after its times, without the word complete"""
    rest = line.split(b' ', 2)[2]
    return rest[9:] if rest.startswith(b'complete ') else rest


def escaped(text):
    return text.replace(b'\\', b'\\\\').replace(b'#', b'\\#')


class Judge:
    def __init__(self, trace, state_at, labels, onsets, remarks=lambda: []):
        """`remarks` gives those of the audit of the run's line"""
        self.remarks = remarks
        self.rounds = [(int(line.split(b' ')[0]), int(line.split(b' ')[1]), line) for line in trace if ROUND.match(line)]
        events = [EVENT.fullmatch(line) for line in trace]
        self.events = {int(m[2]): (int(m[1]), m[4]) for m in events if m}
        self.state_at = state_at
        self.labels = labels
        self.instants = {label: self.events[n][0] for label, n in labels.items() if n in self.events}
        self.instants.update(onsets)

    def window(self, it):
        if it.window == 'from':
            return it.begin, it.end
        instant = self.instants.get(it.of)
        return None if instant is None else (instant, instant + it.span)

    def judge(self, it):
        """(whether it holds, the lines below a failure)"""
        if it.kind == 'refused':
            found = self.events.get(it.event)
            return found is not None and found[1] == it.word, []
        if it.kind == 'state':
            line = self.state_at(it.at, it.device)
            return all((word in line.split(b' ')[2:]) != it.absent for word in it.words), [line]
        if it.kind == 'unremarked':
            met = remarks_met(it.pattern, self.remarks())
            return not met, met[:SHOWN]
        window = self.window(it)
        if window is None:
            return False, [b'no instant']
        inside = [r for r in self.rounds if window[0] <= r[0] and r[1] <= window[1]]
        seen = [r for r in inside if meets(it.pattern, told(r[2]))]
        holds = it.allows(len(seen))
        if holds and seen and it.label is not None:
            self.instants[it.label] = seen[0][1]
        return holds, [b'seen %d from %d to %d' % (len(seen), *window)] + [re.sub(rb' @[^ ]*$', b'', r[2]) for r in (seen or inside)[:SHOWN]]


def trace_of(topology, script, end=None, named=False):
    """the trace of the run, or of the run that is cut at `end`; with names a round's line ends with who holds which address"""
    tree, names, edid, events, pulses, last = load(topology, script, end)
    if end is not None:
        events, last = [e for e in events if e[0] < end], end
    run = Run(tree, edid, events, pulses, last)
    while run.to_round():
        run.round()
    if named:
        for place, holders in run.holders.items():
            run.lines[place] += ' @' + ''.join('%s=%x@' % holder for holder in holders)
    return [line.encode() for line in run.lines], [d.state_line().encode() for d in run.devs]


def check(data):
    """(status, output, fault)"""
    try:
        topology, script = parts(data)
        plain = plain_script(script)
        tree, names, edid, events, pulses, end = load(topology, plain)
        found, labels, onsets = expectations(script, names, end)
    except Fault as f:
        return 1, b'', f.args[0]
    trace = trace_of(topology, plain, named=any(it.kind == 'rounds' and patterns.names_in(it.pattern) for it in found))[0]
    states = {}

    def state_at(at, device):
        if at not in states:
            states[at] = trace_of(topology, plain, at)[1]
        return states[at][names[device.decode()]]
    judge = Judge(trace, state_at, labels, onsets, lambda: remarks_of(net.run(topology + b'script\n' + plain, True)[1]))
    out = [b'TAP version 13']
    failed = n = 0
    for it in found:
        holds, remarks = judge.judge(it)
        n += 1
        failed += not holds
        out.append(b'%sok %d - line %d: %s' % (b'' if holds else b'not ', n, it.number, escaped(it.text)))
        if not holds:
            out += [b'# ' + remark for remark in remarks]
    expected = {it.event for it in found if it.kind == 'refused'}
    for line, (_, word) in sorted(judge.events.items()):
        if word and line not in expected:
            n += 1
            failed += 1
            out.append(b'not ok %d - line %d: refused %s' % (n, line, word))
    out.append(b'1..%d' % n)
    return (1 if failed else 0), b''.join(line + b'\n' for line in out), 'failed tests %d' % failed if failed else ''
