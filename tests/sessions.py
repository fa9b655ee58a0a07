#!/usr/bin/env python3
"""tests/sessions.py [COUNT [DIR [PROGRAM]]]: COUNT random sessions, line by line by the library that tools/library has installed under
DIR, four at a time, and at once by `PROGRAM live`: are their texts the same, and of topologies at fault the causes? DIR is release/
where none is given, PROGRAM the one there, COUNT 40. Sessions that differ are named. The last line is 'sessions: N alike, M differ'."""
import os
import random
import subprocess
import sys
from concurrent.futures import ThreadPoolExecutor

TOP = os.path.dirname(os.path.dirname(os.path.realpath(__file__)))
COUNT = int(sys.argv[1]) if len(sys.argv) > 1 else 40
DIR = os.path.realpath(sys.argv[2]) if len(sys.argv) > 2 else os.path.join(TOP, 'release')
PROGRAM = os.path.realpath(sys.argv[3]) if len(sys.argv) > 3 else os.path.join(TOP, 'release', 'hdminet')
os.environ['HDMINET_LIBRARY'] = os.path.join(DIR, 'lib', 'libhdminet.so')
sys.dont_write_bytecode = True
sys.path += [os.path.join(TOP, 'python'), os.path.join(TOP, 'tools', 'model')]
import compare  # noqa: E402
import live  # noqa: E402
from hdminet import calls  # noqa: E402

KINDS = ['run', 'feat', 'ops', 'amp', 'pulls', 'pins']
ODD = ['frob', 'show nobody', 'run to x', 'edge', 'pin 5 2', '', ' wait', '# a', 'end', 'end x']


def between(numbers, now, name):
    """A line of a session's own, or a pulse, at an instant about now."""
    at = now + numbers.choice([0, 0, 1, 600, 2400, 30_000, numbers.randrange(1_000_000)])
    return numbers.choice(['run to %d' % at, 'edge %d' % at, 'edge %d' % at, 'wait', 'wait %d' % at, 'show ' + name, 'edges on', 'edges off', 'seats on',
                           'pulse %d 600' % at, 'pin %d 0' % at, 'pin %d 1' % at, numbers.choice(ODD)])


def session(number):
    """A topology, and the lines of a session: a random script, with lines between."""
    numbers = random.Random('session %d' % number)
    topology, _, script = compare.GEN[KINDS[number % len(KINDS)]](numbers)[1].partition('script\n')
    if numbers.random() < 0.05:
        topology = compare.mutate_text(numbers, topology).rstrip('\n') + '\n'
    names = [line.split(' ')[1] for line in topology.split('\n') if line.startswith('device ') and line.count(' ') > 1] or ['tv']
    lines, now = [], 0
    for line in live.in_order(script.split('\n')):
        while numbers.random() < 0.5:
            lines.append(between(numbers, now, numbers.choice(names)))
        # (of lines at the horizon and before it some are refused)
        now = max(now, live.instant(line))
        lines.append(line)
    return topology, lines


def by_library(topology, lines):
    try:
        talk = calls.Session(topology)
    except calls.Error as error:
        family, cause = calls.CODES[error.code].split(': ')
        return '', '%s: %s' % ('%s line %d' % (family, error.line) if error.line else family, cause)
    told = talk.first
    for number, line in enumerate(lines, 1):
        try:
            told += talk.answer(line)
        except calls.Error as error:
            return told, '' if error.code == calls.CLOSED and lines[number - 2].startswith('end ') else str(error)
    talk.close()
    return told, '' if lines and lines[-1].startswith('end ') and told.split('\n')[-2][:1] == '=' else 'script line %d: end' % (len(lines) + 1)


def by_program(topology, lines):
    text = topology + 'script\n' + ''.join(line + '\n' for line in lines)
    ran = subprocess.run([PROGRAM, 'live'], input=text.encode('latin-1'), stdout=subprocess.PIPE, stderr=subprocess.PIPE, check=False)
    return ran.stdout.decode('latin-1'), ran.stderr.decode('latin-1').rstrip('\n').removeprefix('hdminet: ')


def is_alike(number):
    topology, lines = session(number)
    one, two = by_library(topology, lines), by_program(topology, lines)
    if one != two:
        pairs = zip(one[0].split('\n') + [one[1]], two[0].split('\n') + [two[1]])
        print('sessions: %d differs: %s' % (number, next(('%r and %r' % pair for pair in pairs if pair[0] != pair[1]), 'at its end')))
    return one == two


def main():
    if not calls.has_sessions():
        print('sessions: the library in %s has version %d, and no sessions: it is left out' % (DIR, calls.library_version()))
        return 0
    with ThreadPoolExecutor(4) as pool:
        alike = sum(pool.map(is_alike, range(COUNT)))
    print('sessions: %d alike, %d differ' % (alike, COUNT - alike))
    return int(alike != COUNT)


if __name__ == '__main__':
    sys.exit(main())
