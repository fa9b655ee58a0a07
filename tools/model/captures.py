"""Expectations of captures and their report: a plain model."""
import expectations
import patterns
import wire
from expectations import MOST, ORDER, escaped, is_pattern, is_remark_called, parse_expectation, parted, remarks_met, remarks_of
from net import Fault
from wire import lines_of, number, skipped

def parts(data):
    """the expectations and the capture, before and after the first line `capture`"""
    lines = data.split(b'\n')
    if b'capture' not in lines:
        raise Fault('no capture line')
    at = lines.index(b'capture')
    return b''.join(line + b'\n' for line in lines[:at]), b'\n'.join(lines[at + 1:])


def wanted(line):
    """what a line expects of remarks: None where it speaks of none, and else whether there is to be one, and a pattern or None"""
    words = line.split(b' ')
    if words[0] != b'expect' or words[1:2] not in ([b'no-remark'], [b'remark']):
        return None
    return words[1] == b'remark', b' '.join(words[2:]) if line != b'expect no-remark' else None


def wanted_fault(line):
    pattern = wanted(line)[1]
    if pattern is None:
        return []
    if not is_pattern(pattern):
        return ['word']
    return [] if is_remark_called(pattern) else ['pattern']


# the words with which an event of a script begins after its time
EVENTS = [b'plug', b'unplug', b'press', b'release', b'send', b'hold', b'drop']


def expected(text):
    """the expectations of readings, {label: line of its instant}, [(line, instant)] and [(line, its text)] of those of remarks"""
    found, labels, instants, remarks = [], {}, [], []
    for n, line in enumerate(lines_of(text), 1):
        if skipped(line):
            continue
        causes, it = [], None
        label, body = parted(line)
        verb = None if body is None else body.split(b' ')[0]
        if wanted(line) is not None:
            causes = wanted_fault(line)
            remarks.append((n, line))
        elif verb == b'expect':
            it = parse_expectation(n, line, label, body, {}, 0) if body.split(b' ')[1:2] not in ([b'refused'], [b'state'], [b'no-remark']) else ['word']
            if isinstance(it, list):
                causes, it = it, None
            else:
                if it.of is not None and it.of not in labels:
                    causes.append('label')
                if not patterns.is_met(it.pattern):
                    causes.append('pattern')
        elif verb == b'at':
            words = body.split(b' ')
            known = len(words) == 2 and label is not None or len(words) > 2 and words[2] in EVENTS
            instant = number(words[1], MOST) if known else None
            causes = ['word'] if not known else ['number'] if instant is None else []
            if label is not None:
                instants.append((n, instant))
        elif label is None and verb in (b'pulse', b'pull', b'pin', b'end'):
            pass
        else:
            causes = ['word']
        if label is not None and (label == b'' or label in labels):
            causes.append('label')
        if causes:
            raise Fault('expectations line %d: %s' % (n, min(causes, key=ORDER.index)))
        if label is not None:
            labels[label] = n if verb == b'at' else None
        if it:
            found.append(it)
    return found, labels, instants, remarks


def judged(want, remarks):
    """whether the remarks are as a line wants them, and those that are shown where they are not"""
    is_wanted, pattern = want
    met = remarks_met(pattern, remarks)
    return bool(met) == is_wanted, (remarks_met(None, remarks) if is_wanted else met)[:expectations.SHOWN]


def check(data):
    """(status, output, fault) of `check --capture` of an edge file"""
    try:
        text, capture = parts(data)
        status, readings, fault = wire.mon(capture)
        if status:
            return status, b'', fault
        found, labels, instants, wants = expected(text)
    except Fault as f:
        return 1, b'', f.args[0]
    judge = expectations.Judge([b'%d event %d ok' % (at, n) for n, at in instants], None, labels, {})
    # A reading that is not over at the end is one as any other.
    judge.rounds = [(int(line.split(b' ')[0]), int(line.split(b' ')[1]), line) for line in lines_of(readings)]
    remarks = remarks_of(capture) if wants else []
    tests = [(it.number, it.text, *judge.judge(it)) for it in found]
    tests += [(n, line, *judged(wanted(line), remarks)) for n, line in wants]
    out = [b'TAP version 13']
    for n, (line, what, right, below) in enumerate(tests, 1):
        out.append(b'%sok %d - line %d: %s' % (b'' if right else b'not ', n, line, escaped(what)))
        if not right:
            out += [b'# ' + it for it in below]
    out.append(b'1..%d' % len(tests))
    failed = sum(not right for _, _, right, _ in tests)
    return (1 if failed else 0), b''.join(line + b'\n' for line in out), 'failed tests %d' % failed if failed else ''
