"""Sweeps of scripts with expectations: a plain model."""
import expectations
from net import WIDEST_PULL, Fault, parts
from wire import T_LIMIT, lines_of, number


MOST = 1000000


def time_places(words):
    """the places of words in which a time stands: after a verb, and in the window of an expectation"""
    first = 2 if words[0] == b'label' else 0
    rest = words[first:]
    if not rest:
        return []
    if rest[0] in (b'at', b'pulse', b'pull', b'pin', b'end'):
        return [first + 1]
    if rest[0] != b'expect':
        return []
    window = 1 + expectations.count_in(rest[1:])[0]
    word = rest[window:window + 1]
    if word == [b'from']:
        return [first + window + 1] + ([first + window + 3] if rest[window + 2:window + 3] == [b'to'] else [])
    return [first + window + 1] if word in ([b'within'], [b'state']) else []


def is_range(word):
    point = word.find(b'.')
    return point >= 0 and word[point + 1:point + 2] == b'.'


def ranges_of(line):
    """the places of its words that are meant as ranges"""
    words = line.split(b' ')
    return [i for i in time_places(words) if i < len(words) and is_range(words[i])]


def instants_of(word):
    """the instants of a range, or its cause"""
    first, rest = word.split(b'..', 1)
    last, slash, step = rest.partition(b'/')
    first, last = number(first, T_LIMIT), number(last, T_LIMIT)
    step = number(step, T_LIMIT) if slash else 1
    if first is None or last is None or not step:
        return 'number'
    if first > last:
        return 'order'
    return range(first, last + 1, step) if (last - first) // step < MOST else 'range'


def range_in(script):
    """the instants of the script's range, None where it has none; raises the first fault"""
    found = None
    for n, line in enumerate(lines_of(script), 1):
        for place in ranges_of(line):
            it = instants_of(line.split(b' ')[place])
            if not isinstance(it, str) and found is not None:
                it = 'range'
            if isinstance(it, str):
                raise Fault('script line %d: %s' % (n, it))
            found = it
    return found


def clock_of(line):
    """what a line says of time, and the word of its time; None where it says nothing"""
    words = expectations.parted(line)[1]
    words = [] if words is None else words.split(b' ')
    if len(words) > 2 and words[0] == b'expect' and words[1] == b'state':
        return 'state', 0, words[2]
    if len(words) < 2 or words[0] not in (b'at', b'pulse', b'pull', b'pin', b'end'):
        return None
    if words[0] == b'pin':
        return 'high' if words[2:3] == [b'1'] else 'low', 0, words[1]
    width = number(words[2]) if words[0] in (b'pulse', b'pull') and len(words) > 2 else None
    return words[0].decode(), min(width or 0, 65535 if words[0] == b'pulse' else WIDEST_PULL + 1), words[1]


def in_order(above, below, instant):
    """a line and one below it, with the instant in the place of a range"""
    first, second = (instant if is_range(it[2]) else number(it[2]) for it in (above, below))
    if first is None or second is None:
        return True
    match above[0], below[0]:
        case ('at', 'at') | ('state', 'end'):
            return first <= second
        case 'at', 'end':
            return first < second
        case 'pulse', 'pulse':
            return first + above[1] + 25000 <= second
        case 'pull', 'pulse':
            return first + above[1] + 25000 <= second
        case ('pulse' | 'pull'), ('pull' | 'low'):
            return first + above[1] < second
        case ('pulse' | 'pull'), 'high':
            return first + above[1] <= second
        case ('low', 'high') | ('high', 'low'):
            return first < second
        case ('low' | 'high'), ('low' | 'high' | 'pulse' | 'pull'):
            return first <= second
        case 'end', 'state':
            return second <= first
    return True


def keep_order(script, instants):
    """raises the fault of a range of which an instant breaks the order of the script"""
    lines = [(n, clock_of(line)) for n, line in enumerate(lines_of(script), 1)]
    at = next(n for n, line in enumerate(lines_of(script), 1) if ranges_of(line))
    ranged = lines[at - 1][1]
    for n, other in lines:
        if n == at or ranged is None or other is None:
            continue
        above, below = (other, ranged) if n < at else (ranged, other)
        if not all(in_order(above, below, t) for t in (instants[0], instants[-1], instants[len(instants) // 2])):
            raise Fault('script line %d: order with line %d' % (at, n))


def at_instant(script, instant):
    out = []
    for line in lines_of(script):
        words = line.split(b' ')
        for place in ranges_of(line):
            words[place] = b'%d' % instant
        out.append(b' '.join(words) + b'\n')
    return b''.join(out)


def check(data):
    """(status, output, fault) of `check`, with a range or without one"""
    try:
        script = parts(data)[1]
        instants = range_in(script)
        if instants is not None:
            keep_order(script, instants)
    except Fault as f:
        return 1, b'', f.args[0]
    if instants is None:
        return expectations.check(data)
    head = data[:len(data) - len(script)]
    stretches = []
    for instant in instants:
        status, report, fault = expectations.check(head + at_instant(script, instant))
        if not report:
            return status, b'', '%s at %d' % (fault, instant)
        verdicts = [b'ok' if line.startswith(b'ok ') else b'not-ok' for line in report.split(b'\n') if line.startswith((b'ok ', b'not ok '))]
        if stretches and stretches[-1][2] == verdicts:
            stretches[-1][1] = instant
        else:
            stretches.append([instant, instant, verdicts])
    out = b''.join(b' '.join([b'%d..%d' % (first, last)] + verdicts) + b'\n' for first, last, verdicts in stretches)
    failed = any(b'not-ok' in verdicts for _, _, verdicts in stretches)
    return int(failed), out, 'failed tests in the range' if failed else ''
