"""The cases of tools/bytes: each a name, a command line and an input, alike for a start and a tree.

They are made of the examples by each set of flags that fits; each --help, and command lines that are refused; the cases of tests/cases/;
command lines and inputs in the texts of the crates of tests; stdin and args of crates; EDIDs and frames that go through tables (tools/edid_cases.py);
EDIDs with bits flipped; the lines of runs, and captures, in each form, whole and damaged; inputs of the generators of tools/model,
and inputs of all these that are damaged."""
import glob
import itertools
import multiprocessing
import os
import random
import re
import shlex
import subprocess
import sys

import edid_cases
import tables

TOOLS = os.path.dirname(os.path.realpath(__file__))
sys.path += [os.path.join(TOOLS, 'model'), os.path.join(TOOLS, '../tests')]
import cases as tested  # pylint: disable=wrong-import-position

EDID_FLAGS = [['--text'], ['--words'], ['--hex'], ['--raw'], ['--check'], ['--meaning'], ['--only-address'], ['--ddc'], ['--merge'], ['--eeodb'], ['--as-source'], ['--mend'], ['--room'],
              ['--diff'], ['--eld'], ['--from-eld'], ['--as', 'c'], ['--as', 'xml'], ['--as', 'firmware'], ['--infoframe', '82020d1b 10280010 00000000 00000000 00'],
              ['--address', '2.1.0.0'], ['--port', '3'], ['--below', 'amp'], ['--speakers', 'own'], ['--rows', 'video=own,audio=keep'], ['--nth', '2'], ['--explain']]
FORMS = ['edges', 'vcd', 'pin', 'csv']
FLAGS = {
    'run': [['--edges'], ['--json'], ['--room'], ['--drives'], ['--named'], ['--strict'], ['--explain'], ['--as', 'vcd'], ['--as', 'pin'], ['--as', 'csv']],
    'check': [['--trace'], ['--plain'], ['--json'], ['--progress'], ['--capture'], ['--explain'], ['--from', 'edges'], ['--glitch', '50'], ['--signal', 'CEC']],
    'step': [['--explain']], 'asm': [['--explain']], 'dis': [['--explain'], ['--meaning']], 'lay': [['--explain']], 'live': [['--explain'], ['--json']],
    'mon': [['--from-start'], ['--from-idle'], ['--invert'], ['--audit'], ['--timing'], ['--strict'], ['--fold'], ['--json'], ['--follow'], ['--explain'],
            ['--report'], ['--verdict'], ['--as-test'], ['--replay', '4'], ['--diff'], ['--scale', '0.5'], ['--glitch', '50'], ['--margin', '300'], ['--signal', 'CEC']]
    + [['--from', form] for form in FORMS],
    'edid': EDID_FLAGS,
}
# Sets of more than two flags that belong together.
SETS = {
    'run': [['--edges', '--as', 'vcd', '--drives'], ['--edges', '--as', 'vcd', '--drives', '--named'], ['--json', '--room', '--strict', '--explain']],
    'mon': [['--audit', '--json', '--strict'], ['--timing', '--json', '--fold'],
            ['--timing', '--margin', '20', '--glitch', '50', '--from-start', '--strict', '--json'],
            ['--report', '--json', '--strict'], ['--report', '--margin', '300', '--json'], ['--verdict', '--json', '--invert'], ['--audit', '--strict', '--explain'],
            ['--as-test', '--glitch', '50', '--invert'], ['--replay', '0', '--glitch', '50', '--invert'], ['--edges', '--scale', '1.0417', '--invert', '--glitch', '50'], ['--audit', '--scale', '1000', '--json']]
    + [['--from', form, '--follow', flag] for form in FORMS for flag in ('--audit', '--timing', '--from-start', '--json', '--invert')]
    + [['--from', form, '--follow', '--audit', '--json', '--strict'] for form in FORMS],
    'check': [['--capture', '--from', 'edges', '--json'], ['--capture', '--glitch', '50', '--signal', 'CEC'], ['--trace', '--json', '--progress']],
    'edid': [['--port', '2', '--below', 'amp', '--raw'], ['--port', '2', '--below', 'amp', '--speakers', 'own'], ['--text', '--check', '--explain'],
             ['--words', '--meaning', '--explain'], ['--hex', '--nth', '1', '--meaning'], ['--merge', '--rows', 'video=own,audio=keep', '--raw'],
             ['--as-source', '--check', '--explain'], ['--mend', '--eeodb', '--raw'], ['--mend', '--check', '--explain'], ['--room', '--json', '--port', '2'],
             ['--eld', '--json', '--port', '2'], ['--eld', '--meaning', '--hex'], ['--diff', '--hex', '--json'], ['--eeodb', '--as', 'xml'],
             ['--infoframe', '84010a70 01000000 00000000 0000', '--json', '--port', '2']],
}
# Of which subcommands an example with such an ending is an input.
ENDINGS = [('.net', ['run', 'check', 'live']), ('.test', ['check', 'run']), ('.sweep', ['check']), ('.expect', ['check']), ('.steps', ['step']), ('.lay', ['lay']),
           ('.txt', ['asm', 'edid']), ('.words', ['edid']), ('.hex', ['dis', 'edid']), ('.log', ['dis']), ('.edid', ['edid']), ('.meaning', ['edid']),
           ('.edges', ['mon', 'check']), ('.vcd', ['mon', 'check']), ('.pin', ['mon', 'check']), ('.csv', ['mon']), ('.line', ['mon']), ('.trace', ['dis'])]
# EDIDs, with an extension and without, of which each bit is flipped.
TABLED = ['living-room.edid', 'monitor-1.4.edid']
# How many of a hundred generated inputs each generator of tools/model makes; those that run the model for it are slow.
SHARES = {'run': 6, 'feat': 4, 'ops': 3, 'wire': 1, 'pulls': 8, 'pins': 8, 'amp': 8, 'edges': 2, 'mon': 6, 'fold': 6, 'audit': 6, 'step': 3, 'asm': 8,
          'edid': 5, 'edtext': 6, 'merge': 4, 'check': 5, 'ways': 4, 'room': 2, 'met': 2, 'expect': 1, 'sweep': 1, 'capture': 1, 'json': 1, 'odd': 4}
# The longest input of a case, of one that is damaged, and of a run's line that is.
LONGEST, LONGEST_DAMAGED, LONGEST_LINE = 400000, 20000, 100000
COMMANDS = ['run', 'check', 'step', 'live', 'asm', 'dis', 'lay', 'mon', 'edid']
# Words that stand where another word was.
ODD_WORDS = [b'', b'0', b'00', b'1', b'999999999999999999999', b'x', b'-1']


def read(path):
    with open(path, 'rb') as file:
        return file.read()


# ---------------------------------------------------------------- command lines
def flag_sets(command):
    """none, one and each two of the flags of a subcommand, and its sets of more"""
    for many in (0, 1, 2):
        for some in itertools.combinations(FLAGS[command], many):
            yield [word for flag in some for word in flag]
    yield from SETS.get(command, ())


def of_examples(top):
    for path in filter(os.path.isfile, sorted(glob.glob(top + '/examples/*'))):
        commands = next((commands for ending, commands in ENDINGS if path.endswith(ending)), ())
        for command in commands:
            for flags in flag_sets(command):
                yield [command] + flags, read(path)


def of_helps():
    """each help, and command lines that are refused, without an input"""
    for command in [[]] + [[name] for name in COMMANDS + ['help', 'frob']]:
        for words in (['--help'], ['-h'], ['-V'], ['--version'], ['--frob'], ['x'], ['--'], []):
            yield command + words, b''
    for command, flags in FLAGS.items():
        for flag in flags:
            for words in ([flag[0]], [flag[0] + '=x'] + flag, flag + flag, [flag[0][:-1]]):
                yield [command] + words, b''


# ---------------------------------------------------------------- texts of tests
def texts(top):
    for path in tables.files(top, 'crates/*_tests/src/**/*.rt'):
        for text, _ in tables.texts_of(tables.read(path), tables.RUST):
            yield text
    for case in tested_cases():
        yield from (tested.whole(it.text) for it in case.sections if len(it.text) < LONGEST)


def tested_cases():
    """the cases of tests/cases/ that have no file"""
    for path in tested.files_of():
        yield from (case for case in tested.cases_of(path) if not any(it.name == 'file' for it in case.sections))


def of_cases(program):
    for case in tested_cases():
        yield shlex.split(case.commands[0]), tested.Run(program, case, '.').input


def room_commands(text):
    """the subcommands of a topology and script"""
    if '\nsteps' in text:
        return ['step']
    return ['check'] if re.search(r'\b(expect|label)\b', text) else ['run', 'check', 'live']


def commands_for(text):
    """the subcommands that a text is an input of, by its first word"""
    word = (text.split() or [''])[0]
    if word in ('device', 'plug', 'edid', 'script', 'DEVICE') and 'edid 1.' not in text[:8]:
        return room_commands(text)
    if word in ('at', 'pulse', 'pull', 'pin', 'end', 'expect', 'label'):
        return ['run', 'check']
    if re.fullmatch(r'\d+', word) and not re.match(r'[0-9a-f]{2}( |:|$)', text):
        return ['mon' if re.search(r'^\d+ (0|1|end)$', text, re.M) else 'lay']
    if word.startswith('edid') or word in ('maker', 'cta', 'timing', 'words', 'canonical'):
        return ['edid --text', 'edid --words']
    if re.fullmatch(r'[0-9a-f]{200,}', word):
        return ['edid --hex', 'edid --hex --meaning', 'edid --hex --check']
    return ['dis --meaning', 'asm'] if '>' in text or re.match(r'[0-9a-f]{2}\b', text) else ['asm']


def parts_of(text):
    """a text, its parts between lines `--`, and its lines"""
    yield text
    if '\n' in text:
        yield from text.split('\n--\n')
        yield from text.split('\n')


def of_texts(top):
    """the texts of tests: with their own command line where they begin with one, and else by their first word"""
    for part in dict.fromkeys(part for text in texts(top) for part in parts_of(text)):
        head, _, body = part.partition('\n')
        if re.match(r'(%s)( --?[a-z]|$)' % '|'.join(COMMANDS), head):
            yield head.split(' => ')[0].split(), body.split('=> ')[0].encode()
            continue
        # what stands after an arrow is the answer that the test expects
        data = re.split(r' => |\n=> ', part)[0]
        if '\n' not in data:
            data = data.replace(';', '\n') + '\n'
        if len(data) > 3:
            for line in commands_for(data):
                yield line.split() + ['--explain'] * (len(data) % 2), data.encode()


def of_folders(top):
    for path in sorted(glob.glob(top + '/crates/*/stdin')):
        args = os.path.join(os.path.dirname(path), 'args')
        yield read(args).decode().split() if os.path.exists(args) else [], read(path)


# ---------------------------------------------------------------- changed inputs
def known_edids(top):
    """the EDIDs of examples and those that stand in tests in hex"""
    found = [read(path) for path in glob.glob(top + '/examples/*.edid')]
    for text in texts(top):
        found += [bytes.fromhex(digits) for digits in re.findall(r'(?<![0-9a-f])(?:[0-9a-f]{256})+(?![0-9a-f])', text)]
    return sorted(set(found))


def flipped_edid(r, edids):
    """an EDID with bits flipped, mostly with its sums mended, sometimes cut, and flags"""
    data = bytearray(r.choice(edids))
    for _ in range(r.choice([1, 1, 2, 4, 16])):
        data[r.randrange(len(data))] ^= 1 << r.randrange(8)
    data = edid_cases.mended(data) if r.random() < .8 else bytes(data)
    if r.random() < .1:
        data = data[:r.randrange(len(data))]
    flags = [word for flag in r.sample(EDID_FLAGS[3:], r.choice([0, 1, 1, 2])) for word in flag]
    return ['edid'] + r.choice([flags, ['--meaning'], ['--check'], [], ['--check', '--explain']]), data


def with_bytes_changed(r, data):
    changed = bytearray(data)
    for _ in range(r.choice([1, 3])):
        changed[r.randrange(len(data))] = r.choice([r.randrange(256), 48 + r.randrange(10), 32])
    return bytes(changed)


def with_lines_changed(r, data):
    """an input of which a line is left out, doubled or moved, or a word of one is another"""
    lines, how = data.split(b'\n'), r.randrange(6)
    at, to = r.randrange(len(lines)), r.randrange(len(lines))
    if how == 0:
        del lines[at]
    elif how == 1:
        lines.insert(to, lines[at])
    elif how == 2:
        lines[at], lines[to] = lines[to], lines[at]
    else:
        words = lines[at].split(b' ')
        words[r.randrange(len(words))] = r.choice(ODD_WORDS + [r.choice(words), r.choice(lines[to].split(b' '))])
        lines[at] = b' '.join(words)
    return b'\n'.join(lines)


def damaged(r, data):
    """an input that is cut, has ends of lines of another system, or has bytes or lines changed"""
    how = r.randrange(8)
    if how == 0 or len(data) < 2:
        return data[:r.randrange(len(data) + 1)]
    if how == 1:
        return with_bytes_changed(r, data)
    return data.replace(b'\n', b'\r\n') if how == 2 else with_lines_changed(r, data)


def captures(top, program):
    """the lines of the runs of examples in each form, and the captures of examples"""
    for path in sorted(glob.glob(top + '/examples/*.net') + glob.glob(top + '/examples/*.test')):
        for form in FORMS:
            args = ['run', '--edges'] + ['--as', form] * (form != 'edges')
            line = subprocess.run([program] + args, input=read(path), capture_output=True, check=False).stdout
            if 0 < len(line) < LONGEST_LINE:
                yield line
    for form in FORMS:
        for path in sorted(glob.glob('%s/examples/*.%s' % (top, form))):
            yield read(path)


def monitored(r, lines):
    """a capture, mostly damaged, and flags"""
    flags = [word for flag in r.sample(FLAGS['mon'], r.choice([0, 1, 2, 3])) for word in flag]
    data = r.choice(lines)
    return ['mon'] + flags, data if r.random() < .3 else damaged(r, data)


def generated(kind, number):
    """an input of a generator of tools/model"""
    import compare  # pylint: disable=import-outside-toplevel
    args, data = compare.GEN[kind](random.Random('%s %d' % (kind, number)))
    return args, data if isinstance(data, bytes) else data.encode('latin1', 'replace')


# ---------------------------------------------------------------- all of them
class Cases:
    """a list of cases, each of which stands once"""
    def __init__(self):
        self.all, self.seen = [], set()

    def named(self, kind, found):
        """those of found that are new and not too long, each with its name"""
        cases = []
        for args, data in found:
            key = (tuple(args), data)
            if key not in self.seen and len(data) < LONGEST and not any('\0' in word for word in args):
                self.seen.add(key)
                cases.append(('%s.%d' % (kind, len(self.seen)), args, data))
        return cases

    def add(self, kind, found):
        self.all += self.named(kind, found)


def all_cases(top, program, count, start, processes):
    """about so many cases, and beside them those that go through tables"""
    r, cases = random.Random(start), Cases()
    cases.add('help', of_helps())
    cases.add('stdin', of_folders(top))
    cases.add('case', of_cases(os.path.realpath(program)))
    cases.add('example', of_examples(top))
    of_tests = cases.named('test', of_texts(top))
    cases.all += r.sample(of_tests, min(len(of_tests), count // 8))
    left = max(count // 2, count - len(cases.all))
    cases.add('table', edid_cases.of_tables([read(top + '/examples/' + name) for name in TABLED], texts(top)))
    edids, lines = known_edids(top), list(captures(top, program))
    cases.add('edid', (flipped_edid(r, edids) for _ in range(left // 10)))
    cases.add('capture', (monitored(r, lines) for _ in range(left // 8)))
    wanted = [(kind, start + number) for kind, share in SHARES.items() for number in range(left // 2 * share // sum(SHARES.values()))]
    with multiprocessing.Pool(processes) as pool:
        cases.add('made', pool.starmap(generated, wanted, chunksize=16))
    whole = [case for case in cases.all if len(case[2]) < LONGEST_DAMAGED and not case[0].startswith(('help', 'table'))]
    cases.add('damaged', ((args, damaged(r, data)) for _, args, data in r.choices(whole, k=left // 4)))
    return cases.all
