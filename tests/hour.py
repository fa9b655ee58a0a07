#!/usr/bin/env python3
"""tests/hour.py [PROGRAM [SEED]]: an hour of legal traffic, of which an audit has nothing to remark.

A living room is used for an hour: a key every second or so, devices that come and go. The line of its run, on which senders meet
and lose arbitration, is drawn anew with other widths, each within the windows of the standard (CEC 5.2), and written in each form
that `mon` reads, once with chatter. Of each, `mon --audit --strict` has no remark, and the frames of its readings are those of the
trace; `mon --report` has no fault and no note of what a device says. Where they are installed, cec-ctl and sigrok-cli have to read the same frames. PROGRAM is crates/hdminet/out/hdminet, which
./hdminet builds, where none is given. The last line is 'hour: N passed, M failed', and the status is 0 where M is 0."""
import importlib.machinery
import importlib.util
import os
import random
import shutil
import sys

from built import TOP, Count, program, ran

PROGRAM = program()
SEED = int(sys.argv[2]) if len(sys.argv) > 2 else 1
# microseconds
HOUR = 3_600_000_000
# A slot that is longer ends a frame: its fall is the next frame's.
LONGEST_SLOT = 4_800
# The windows of the standard: how long a start bit, a one and a zero are low, and how long they are from fall to fall.
START, ONE, ZERO = (3_500, 3_900), (400, 800), (1_300, 1_700)
START_TOTAL, TOTAL = (4_300, 4_700), (2_050, 2_750)
# What is less by definition is chatter.
GLITCH = 50
# So many low stretches other tools are asked for.
OTHERS = 3_000
ROOM = '''device tv tv 4
device avr amp 3
device p1 player 0
device p2 player 0
device rec recorder 0
plug avr tv 1
plug p1 avr 1
plug p2 avr 2
plug rec tv 2
script
'''
KEYS = [('tv', 'remote 4 up'), ('tv', 'remote 4 select'), ('tv', 'remote 8 down'), ('tv', 'remote 1 digit-3'), ('tv', 'audio on'), ('tv', 'volume-up'),
        ('tv', 'mute'), ('tv', 'watch 1.1.0.0'), ('tv', 'watch 2.0.0.0'), ('tv', 'watch 1.2.0.0'), ('p1', 'power'), ('p2', 'power'), ('rec', 'power'),
        ('p1', 'play'), ('p1', 'stop'), ('p2', 'play'), ('p2', 'stop'), ('rec', 'play'), ('rec', 'stop')]


def compared():
    """tools/compare-captures, which asks the other tools"""
    loader = importlib.machinery.SourceFileLoader('compare_captures', os.path.join(TOP, 'tools/compare-captures'))
    module = importlib.util.module_from_spec(importlib.util.spec_from_loader('compare_captures', loader))
    loader.exec_module(module)
    return module


def script(rng):
    """an evening with a key every second or so; two keys that come together have their senders meet on the line"""
    at, lines = 2_000_000, []
    while at < HOUR - 5_000_000:
        device, key = rng.choice(KEYS)
        lines.append('at %d press %s %s\n' % (at, device, key))
        if rng.random() < 0.3:
            device, key = rng.choice(KEYS[10:])
            lines.append('at %d press %s %s\n' % (at, device, key))
        at += rng.choice([1_500_000, 2_000_000, 2_600_000])
    return ROOM + ''.join(lines) + 'end %d\n' % HOUR


def output(words, text):
    return ran(PROGRAM, words, text)


def stretches(edges):
    """the low stretches of an edge file, as (fall, rise)"""
    times = [int(line.split()[0]) for line in edges.splitlines() if not line.endswith('end')]
    return list(zip(times[::2], times[1::2]))


def drawn(lows, rng):
    """the same frames with other widths: the low stretches, each slot within its windows"""
    told, at, begins = [], lows[0][0], True
    for k, (fall, rise) in enumerate(lows):
        window, total = (START, START_TOTAL) if begins else (ONE if rise - fall < 1_000 else ZERO, TOTAL)
        told.append((at, at + rng.randint(*window)))
        if k + 1 == len(lows):
            break
        to_next = lows[k + 1][0] - fall
        begins = to_next > LONGEST_SLOT
        at += to_next + rng.randint(0, 2_000) if begins else rng.randint(*total)
    return told


def edges_of(lows):
    return [edge for fall, rise in lows for edge in ((fall, 0), (rise, 1))]


def chattering(edges, rng):
    """the same with pulses of less than 50 microseconds at every tenth edge, at least 100 before or after it"""
    told = []
    for k, (at, level) in enumerate(edges):
        told.append((at, level))
        later = edges[k + 1][0] if k + 1 < len(edges) else at + 1_000
        if later - at > 300 and rng.random() < 0.1:
            begin = rng.randint(at + 100, later - 100 - GLITCH)
            told += [(begin, 1 - level), (begin + rng.randint(1, GLITCH - 1), level)]
    return told


def as_edges(edges, end):
    return ''.join('%d %d\n' % edge for edge in edges) + '%d end\n' % end


def as_vcd(edges, end):
    head = '$timescale 1 us $end\n$scope module bus $end\n$var wire 1 ! CEC $end\n$upscope $end\n$enddefinitions $end\n#0\n1!\n'
    return head + ''.join('#%d\n%d!\n' % edge for edge in edges) + '#%d\n' % end


def as_pin(edges, end):
    """cec-ctl --analyze-pin wants the level once more before the fall of a start bit."""
    head = '# cec-ctl --store-pin\n# version 1\n# start_monotonic 100.000000000\n# start_timeofday 0.000000\n# log_addr_mask 0x0000\n# phys_addr f.f.f.f\n'
    told, was = [(0, 1)], 0
    for at, level in edges + [(end, 1)]:
        told += [(at - 1, 1)] * (level == 0 and at - was > LONGEST_SLOT) + [(at, level)]
        was = at
    return head + ''.join('%d.%06d000 %d\n' % (100 + at // 1_000_000, at % 1_000_000, level) for at, level in told)


def as_csv(edges, end):
    return 'Time [s],CEC\n0.000000,1\n' + ''.join('%d.%06d,%d\n' % (at // 1_000_000, at % 1_000_000, level) for at, level in edges + [(end, 1)])


def readings(text):
    """the frame and the verdict of each complete reading, and the other lines"""
    lines = [line for line in text.splitlines() if not line.startswith(' ')]
    complete = [' '.join(line.split()[3:]) for line in lines if ' complete ' in line]
    return complete, [line for line in lines if ' complete ' not in line]


def ask_others(count, lows):
    """cec-ctl and sigrok-cli read the same frames of the first minutes, where they are installed; sigrok-cli takes its time"""
    tools = compared()
    edges, end = edges_of(lows[:OTHERS]), lows[OTHERS - 1][1] + 3_000_000
    wanted, _ = tools.readings(PROGRAM, as_edges(edges, end).encode())
    if shutil.which('cec-ctl'):
        told, _ = tools.messages(as_pin(edges, end).encode())
        count.note('cec-ctl reads %d frames, and not the %d' % (len(told), len(wanted)), told == wanted)
    if shutil.which('sigrok-cli'):
        told = tools.frames(as_vcd(edges, end).encode())
        count.note('sigrok-cli reads %d frames, and not the %d' % (len(told), len(wanted)), told == wanted)


def main():
    rng, count = random.Random(SEED), Count('hour')
    net = script(rng)
    trace, said, status = output(['run'], net)
    count.note('the room is not run: ' + said, status == 0)
    frames = [' '.join(line.split(' by ')[0].split()[3:]) for line in trace.splitlines() if line.split()[2:3] == ['complete']]
    broken = [line for line in trace.splitlines() if line.split()[2:3] and line.split()[2] in ('short', 'silent', 'bad-start', 'long')]
    met = sum(' by ' in line and ',' in line.split(' by ')[1].split(' out ')[0] or ' out -' not in line and ' out ' in line for line in trace.splitlines())
    edges, _, _ = output(['run', '--edges'], net)
    lows = drawn(stretches(edges), rng)
    end = lows[-1][1] + 3_000_000
    count.note('an hour has %d frames, %d of them where senders met' % (len(frames), met), len(frames) > 2_000 and met > 50)
    for form, written in (('edges', as_edges), ('vcd', as_vcd), ('pin', as_pin), ('csv', as_csv)):
        for chatter in (False, True):
            shown = chattering(edges_of(lows), random.Random(SEED + 1)) if chatter else edges_of(lows)
            text, said, status = output(['mon', '--from', form, '--audit', '--strict'] + ['--glitch', str(GLITCH)] * chatter, written(shown, end))
            complete, others = readings(text)
            what = form + (' with chatter' if chatter else '')
            count.note('%s: status %d, %s' % (what, status, said.strip() or [line for line in text.splitlines() if line.startswith(' ')][:3]), status == 0)
            count.note('%s: %d frames, and not the %d of the trace' % (what, len(complete), len(frames)), complete == frames)
            count.note('%s: %d other lines, %d in the trace' % (what, len(others), len(broken)), len(others) == len(broken))
    told, said, status = output(['mon', '--from', 'edges', '--report', '--strict'], as_edges(edges_of(lows), end))
    broken_rules = [line for line in told.splitlines() if line.split()[0] in ('fault', 'note')]
    count.note('a report: status %d, %s' % (status, said.strip() or broken_rules[:3]), status == 0 and not broken_rules)
    ask_others(count, lows)
    return count.told()


if __name__ == '__main__':
    sys.exit(main())
