#!/usr/bin/env python3
"""name-dump.py [PROGRAM]: tests the dump with names, `run --edges --as vcd --drives --named`, on the rooms of examples/, and on one
whose line pulses break. Two wires of GTKWave's type `string` are worked out here of the dump without names and of the objects of
`run --json`: `frame`, what is read from the begin of a round to its close, and `bit`, which bit of it is on the line. The last line
is 'name-dump: N passed, M failed', and the status is 0 where M is 0."""
import glob
import json
import os
import shutil
import subprocess
import sys
import tempfile

from built import TOP, Count, program

PROGRAM = program()
if not os.path.exists(PROGRAM):
    PROGRAM = os.path.join(TOP, 'release/hdminet')
# The identifiers of the two wires; the others are `!` and letters.
FRAME, BIT = '"', '%'
# From the fall of a bit to where its level is read (CEC 5.2.3), in microseconds.
SAMPLE = 1050
# A block has eight bits of data, the end-of-message bit and the acknowledge bit (CEC 6.1).
SLOTS = 10
BROKEN = """device tv tv 4
device p1 player 0
plug p1 tv 1
script
at 1000000 press p1 play
pulse 1006500 100
pulse 1800000 3000
end 3000000
"""
# What the two wires of that room have from 1,000,000 on, by the trace: `1000000 1006500 short 0`, the frame again at 1017300, the
# key's second frame, and the pulse alone.
BROKEN_FRAMES = ['short 0', '', '4>0 image-view-on ack', '', '4>f active-source 1.0.0.0 ok', '', 'bad-start -', '']
COUNT = Count('name-dump')


def run(words, given=None):
    return subprocess.run(words, input=given, stdout=subprocess.PIPE, check=True).stdout.decode()


# ---- what the two wires have


def rounds_of(objects):
    """begin, close, text and count of bits of each round"""
    for line in objects:
        found = json.loads(line)
        if found['type'] != 'round':
            continue
        text = found['line'].split(' ', 2)[2].rsplit(' by ', 1)[0]
        if found['ending'] == 'complete':
            yield found['begin'], found['close'], text.split(' ', 1)[1], len(found['bytes']) // 2 * SLOTS
        else:
            yield found['begin'], found['close'], text, len(found['bits'] or '')


def edges_of(dump):
    """the instants and levels of the line's edges"""
    now = 0
    for line in dump:
        if line.startswith('#'):
            now = int(line[1:])
        elif line in ('0!', '1!') and now > 0:
            yield now, int(line[0])


def name_of(slot, level):
    """the name of a bit by its slot, from 1; of slot 0, the start bit"""
    if slot == 0:
        return 'start'
    place = (slot - 1) % SLOTS
    return {8: 'EOM=%d', 9: 'ACK=%d'}.get(place, '%d') % level


def bits_of(edges, begin, close, count):
    """the instants at which a round's bits begin, and their names"""
    inside = [(at, level) for at, level in edges if begin <= at < close]
    falls = [at for at, level in inside if level == 0]
    for slot, fall in enumerate(falls[:count + 1]):
        yield fall, name_of(slot, [level for at, level in inside if at <= fall + SAMPLE][-1])


def changes_of(dump, objects):
    """the changes of the two wires, by instant"""
    changes = {}
    edges = list(edges_of(dump))
    first = 0
    for begin, close, text, count in rounds_of(objects):
        while first < len(edges) and edges[first][0] < begin:
            first += 1
        last = first
        while last < len(edges) and edges[last][0] < close:
            last += 1
        changes.setdefault(begin, {})[FRAME] = text
        for at, name in bits_of(edges[first:last], begin, close, count):
            changes.setdefault(at, {})[BIT] = name
        changes.setdefault(close, {}).update({FRAME: '', BIT: ''})
    return changes


def value(text, wire):
    return 's%s %s' % (text.replace('\\', '\\\\').replace(' ', '\\x20'), wire)


def named(dump, changes):
    """the lines of the dump with the two wires; of what comes at one instant the other wires come first"""
    lines, left, now = [], sorted(changes), 0

    def up_to(end):
        while left and left[0] < end:
            at = left.pop(0)
            if at != now:
                lines.append('#%d' % at)
            lines.extend(value(text, wire) for wire, text in changes[at].items())

    for number, line in enumerate(dump):
        if line.startswith('#'):
            # The end is told after all else, also where something comes at that instant.
            up_to(int(line[1:]) if number < len(dump) - 1 else int(line[1:]) + 1)
            now = int(line[1:])
        lines.append(line)
        if line == '$var wire 1 ! CEC $end':
            lines += ['$var string 1 %s frame $end' % FRAME, '$var string 1 %s bit $end' % BIT]
        elif line == '$dumpvars':
            lines += [value('', FRAME), value('', BIT)]
    return lines


# ---- the tests


def try_room(name, room):
    """the frames of a room, with their instants"""
    plain = run([PROGRAM, 'run', '--edges', '--as', 'vcd', '--drives'], room)
    told = run([PROGRAM, 'run', '--edges', '--as', 'vcd', '--drives', '--named'], room)
    changes = changes_of(plain.splitlines(), run([PROGRAM, 'run', '--json'], room).splitlines())
    COUNT.note('%s: its text' % name, told.splitlines() == named(plain.splitlines(), changes))
    COUNT.note('%s: what is read of it' % name, run([PROGRAM, 'mon', '--signal', 'CEC'], told.encode()) == run([PROGRAM, 'mon', '--signal', 'CEC'], plain.encode()))
    if shutil.which('vcd2fst') and shutil.which('fst2vcd'):
        with tempfile.TemporaryDirectory() as folder:
            vcd, fst = os.path.join(folder, 'named.vcd'), os.path.join(folder, 'named.fst')
            with open(vcd, 'w', encoding='utf-8') as out:
                out.write(told)
            subprocess.run(['vcd2fst', vcd, fst], check=True, stdout=subprocess.DEVNULL)
            again = run(['fst2vcd', fst]).replace('\\040', '\\x20').replace('\\"', '"')
            texts = sorted(line.rsplit(' ', 1)[0] for line in again.splitlines() if line.startswith('s'))
            COUNT.note("%s: GTKWave's reader" % name, texts == sorted(line.rsplit(' ', 1)[0] for line in told.splitlines() if line.startswith('s')))
    return frames_of(told)


def frames_of(dump):
    """what `frame` has in a dump, with its instants"""
    found, now = [], 0
    for line in dump.splitlines():
        if line.startswith('#'):
            now = int(line[1:])
        elif line.startswith('s') and line.endswith(' ' + FRAME):
            found.append((now, line[1:-2].replace('\\x20', ' ')))
    return found


for path in sorted(glob.glob(os.path.join(TOP, 'examples/*.net'))):
    with open(path, 'rb') as it:
        try_room(os.path.basename(path), it.read())
found = [text for at, text in try_room('a room with pulses', BROKEN.encode()) if at >= 1000000]
COUNT.note('what pulses break', found == BROKEN_FRAMES)
sys.exit(COUNT.told())
