#!/usr/bin/env python3
"""tests/live.py [PROGRAM]: drives `hdminet live` as a co-process, which no test of `rt ci` can. PROGRAM is
crates/hdminet/out/hdminet, which ./hdminet builds, where none is given. The last line is 'live: N passed, M failed'."""
import json
import os
import random
import select
import signal
import subprocess
import sys
import tempfile

from built import TOP, program, tests_told

PROGRAM = program()
ROOM = 'device tv tv 4\ndevice p1 player 0\nplug p1 tv 1\nscript\n'
SEAT = 'device tv tv 2\ndevice p1 player 0\ndevice dut outside 0\nplug p1 tv 1\nplug dut tv 2\nscript\n'
OWN = ('run', 'wait', 'show', 'edge', 'edges', 'seats')


class Session:
    """A session, and what was sent and told in it."""

    def __init__(self, start, *flags):
        self.live = subprocess.Popen([PROGRAM, 'live', *flags], stdin=subprocess.PIPE, stdout=subprocess.PIPE, stderr=subprocess.PIPE)
        self.send(start)
        self.script, self.trace, self.edges = [], [], []

    def send(self, text):
        self.live.stdin.write(text.encode())
        self.live.stdin.flush()

    def is_quiet(self, seconds=0.05):
        """Nothing comes."""
        return not select.select([self.live.stdout], [], [], seconds)[0]

    def answer(self):
        """What comes up to an answer."""
        told = []
        while True:
            got = self.live.stdout.readline().decode()
            if not got or got[0] in '=!':
                return told, got
            told.append(got)

    def ask(self, line):
        self.send(line + '\n')
        told, answer = self.answer()
        self.script.append('' if line.split(' ')[0] in OWN or answer[:1] != '=' else line)
        self.trace += [line for line in told if line[0] not in '~*']
        self.edges += [line for line in told if line[0] == '~']
        return answer

    def ended(self):
        """The status, what is still told, and the fault, once the input has come to its end."""
        rest, fault = self.live.communicate()
        return self.live.returncode, rest.decode(), fault.decode()


def run(text):
    return subprocess.run([PROGRAM, 'run'], input=text.encode(), stdout=subprocess.PIPE).stdout.decode()


def answers_at_once():
    """Each answer comes while the driver's end of the pipe is open, and none before its line is whole."""
    s = Session(ROOM)
    right = s.is_quiet()
    s.send('run to 400')
    right = right and s.is_quiet()
    s.send('000\n')
    told, answer = s.answer()
    right = right and len(told) == 4 and answer == '= 400000\n'
    right = right and s.ask('wait') == '= 400000 idle\n' and s.ask('frob') == '! 3 word\n'
    right = right and s.ask('run to 399999') == '! 4 past\n' and s.ask('show p1').startswith('= state p1 player 4 1.0.0.0 on ')
    right = right and s.ask('end 400000') == '= 400000\n' and s.ended() == (0, '', '')
    return right


def ends_early():
    """A driver that goes away leaves its front."""
    s = Session(ROOM)
    right = s.ask('run to 50000') == '= 50000\n' and s.trace == ['12000 39150 complete 0>0 nack by tv out -\n']
    return right and s.ended() == (1, '', 'hdminet: script line 2: end\n')


def has_faults():
    """The faults before `script` are those of `run`."""
    right = True
    for text in ['', 'device tv tv 4\n', 'device tv tv 4\nfrob\nscript\n', 'edid 00\ndevice tv tv 4\nscript\n', 'script\n']:
        ran = [subprocess.run([PROGRAM, word], input=(text + 'end 5\n' if 'script' in text else text).encode(), capture_output=True) for word in ('run', 'live')]
        right = right and ran[0].returncode == ran[1].returncode == 1 and ran[0].stderr == ran[1].stderr and ran[1].stdout == b''
    return right


def closed():
    """A driver that stops reading ends the session with the count of what was written."""
    s = Session(ROOM)
    s.ask('run to 50000')
    s.live.stdout.close()
    s.send('run to 400000\n')
    fault = s.live.stderr.read().decode()
    s.live.stdin.close()
    return s.live.wait() == 3 and fault == 'hdminet: write fault after 50 bytes\n'


def read(object_line):
    """The line of an object, and the object, which has it first."""
    told = json.loads(object_line)
    return told['line'] + '\n', told if list(told)[:2] == ['line', 'type'] else None


def objects():
    """With --json each line is an object as soon as it would come as a line: of each plain session the same lines."""
    lines = ['run to 400000', 'wait', 'frob', 'edges on', 'at 1000000 press p1 play', 'pulse 1006500 100', 'wait', 'show p1', 'edge 1050000',
             'at 1400000 send p1 4>0 frob', 'run to 1', 'edges off', 'run to 1399999', 'end 1500000']
    plain, told = Session(ROOM), Session(ROOM, '--json')
    right, trace, kinds = True, [], set()
    for line in lines:
        plain.send(line + '\n')
        told.send(line + '\n')
        want, answer = plain.answer()
        for each in want + [answer]:
            text, got = read(told.live.stdout.readline())
            right = right and text == each and got is not None
            kinds.add(got['type'])
            trace += [got] if each[0] not in '=!~*' else []
        # After the last line the pipe is closed, which is no quiet.
        right = right and (line.startswith('end ') or told.is_quiet(0.01))
    script = ['' if line.split(' ')[0] in OWN or line == 'frob' or line.endswith(' frob') else line for line in lines]
    text = ROOM + ''.join(line + '\n' for line in script)
    ran = subprocess.run([PROGRAM, 'run', '--json'], input=text.encode(), stdout=subprocess.PIPE).stdout.decode()
    right = right and plain.ended() == told.ended() == (0, '', '') and trace == [json.loads(line) for line in ran.splitlines()]
    return right and kinds == {'round', 'event', 'state', 'end', 'horizon', 'refusal', 'edge'}


def objects_closed():
    """A driver that stops reading objects ends the session with the count of their bytes."""
    s = Session(ROOM, '--json')
    s.send('run to 1\n')
    count = len(s.live.stdout.readline())
    s.live.stdout.close()
    s.send('run to 400000\n')
    fault = s.live.stderr.read().decode()
    s.live.stdin.close()
    return s.live.wait() == 3 and fault == 'hdminet: write fault after %d bytes\n' % count


def instant(line):
    numbers = [word for word in line.split() if word.isdigit()]
    return int(numbers[0]) if numbers else 0


def in_order(script):
    """The lines of a script in the order of their times, `end` last."""
    lines = [line for line in script if line and not line.startswith('#')]
    return sorted((line for line in lines if not line.startswith('end ')), key=instant) + [line for line in lines if line.startswith('end ')]


def rooms():
    """The rooms of examples/ and of tests/rooms/: the name of each, and its text."""
    for folder in ('examples', 'tests/rooms'):
        for name in sorted(os.listdir(os.path.join(TOP, folder))):
            if name.endswith('.net'):
                with open(os.path.join(TOP, folder, name)) as file:
                    yield name, file.read()


def edges_of(text):
    """The edges of a run, as a session tells them."""
    ran = subprocess.run([PROGRAM, 'run', '--edges'], input=text.encode(), stdout=subprocess.PIPE).stdout.decode()
    return ['~ %s\n' % line for line in ran.split('\n') if line and not line.endswith(' end')]


def is_trace(text, start):
    """A script, cut into a session at random with other lines between, tells what `run` writes of the lines that were taken."""
    numbers = random.Random(start)
    topology, script = text.split('script\n', 1)
    s = Session(topology + 'script\n')
    now = 0
    for line in in_order(script.split('\n')):
        while numbers.random() < 0.7:
            kind = numbers.randrange(5)
            if kind == 0:
                s.ask(numbers.choice(['frob', 'show nobody', 'pulse 1 1 1', 'run to x', '# \u00e9', '']))
            elif kind == 1:
                s.ask('pulse %d %d' % (now + numbers.choice([0, 1, 24999, 25000]), numbers.choice([0, 1, 600, 10000])))
            elif kind == 2 and now < instant(line):
                answer = s.ask('wait')
                if int(answer.split()[1]) > instant(line):
                    now = int(answer.split()[1])
                    break
                now = int(answer.split()[1])
            elif kind == 3:
                s.ask(numbers.choice(['edges on', 'edges off', 'seats on', 'seats off', 'wait %d' % now, 'edge x', 'edge %d' % now]))
            else:
                now = numbers.randint(now, max(now, instant(line)))
                s.ask('run to %d' % now)
        s.ask(line)
    if s.live.poll() is None and not s.script[-1].startswith('end '):
        s.ask('end 1000000000')
    right = s.ended() == (0, '', '')
    return right and ''.join(s.trace) == run(topology + 'script\n' + ''.join(line + '\n' for line in s.script))


def rooms_cut():
    right = True
    for name, text in rooms():
        for start in range(20):
            if not is_trace(text, start):
                print('live: %s, cut by %d, is another trace' % (name, start))
                right = False
    return right


def are_edges(text, start):
    """A script, cut into a session with edges at random with lines that are refused between, tells the edges of its run."""
    numbers = random.Random(start)
    topology, script = text.split('\nscript\n', 1)
    s, now = Session(topology + '\nscript\n'), 0
    s.ask('edges on')
    for line in script.splitlines():
        for _ in range(numbers.randrange(4)):
            kind = numbers.randrange(3)
            now = numbers.randint(now, max(now, instant(line))) if kind == 2 else now
            s.ask(['frob', '# a remark', 'run to %d' % now][kind])
        s.ask(line)
    return s.ended() == (0, '', '') and s.edges == edges_of(text)


def come_one_by_one(text, count):
    """A session that is asked for one edge so many times, up to the end of its script, tells the edges of its run, and at most one for
    each answer."""
    topology, script = text.split('\nscript\n', 1)
    s, right = Session(topology + '\nscript\n'), True
    for line in script.splitlines():
        if line.startswith('end '):
            for _ in range(count):
                many = len(s.edges)
                s.ask('edge ' + line.split()[1])
                right = right and len(s.edges) <= many + 1
            s.ask('edges on')
        s.ask(line)
    return right and s.ended() == (0, '', '') and s.edges == edges_of(text)


def rooms_by_edges():
    """Sessions tell the edges that `run --edges` writes, all together, cut at random, and edge after edge."""
    right = True
    for name, text in rooms():
        told = [are_edges(text, 10), are_edges(text, 11), come_one_by_one(text, 0), come_one_by_one(text, 7), come_one_by_one(text, 2000)]
        if not all(told):
            print('live: %s has other edges: %s' % (name, told))
            right = False
    return right


def five_thousand_pulses():
    """A session in which time goes on after each pulse takes 5,000 of them, and tells the rounds of a run that has the first 4,096."""
    onsets = [25_100 * number + 1_000 * (number % 30) + 30_000 * (number // 30) for number in range(5_001)]
    s = Session('device tv tv 1\nscript\n')
    right = all(s.ask('pulse %d 100' % at)[0] == '=' and s.ask('run to %d' % at) == '= %d\n' % at for at in onsets[:5_000])
    right = right and s.ask('end %d' % onsets[5_000])[0] == '=' and s.ended() == (0, '', '')
    script = ''.join('pulse %d 100\n' % at for at in onsets[:4_096]) + 'end %d\n' % onsets[4_096]
    rounds = run('device tv tv 1\nscript\n' + script).split('state ')[0]
    return right and ''.join(s.trace).startswith(rounds) and any(line.startswith('%d ' % onsets[4_999]) for line in s.trace)


def pulses_let_go():
    """A pulse that a told round has taken counts no more: 4,096 wait at most, and a session has any number of them."""
    s = Session(ROOM)
    right = all(s.ask('pulse %d 100' % (20_000 + 25_100 * number)) == '= 0\n' for number in range(4096))
    right = right and s.ask('pulse 200000000 100') == '! 4097 too-many\n'
    right = right and s.ask('run to 30000000') == '= 30000000\n' and s.ask('pulse 200000000 100') == '= 30000000\n'
    right = right and s.ask('end 200100000') == '= 200100000\n' and s.ended() == (0, '', '')
    return right and ' '.join(s.trace).count(' 200000000 200000100 ') == 1


def edge_by_edge():
    """A driver that asks for edge after edge has each edge of the run once, none at the horizon or later, and no round's line before
    one of its edges; a pulse that it pulls in a round changes the edges that come."""
    s = Session(ROOM)
    right, horizon, steps = True, 0, 0
    s.ask('at 500000 press p1 play')
    while right and horizon < 1_000_000 and steps < 10_000:
        before, many = horizon, len(s.edges)
        if steps == 300:
            s.ask('pulse %d 700' % horizon)
        horizon = int(s.ask('edge 1000000').split()[1])
        told = [int(line.split()[1]) for line in s.edges[many:]]
        right = before <= horizon and len(told) <= 1 and all(before <= at == horizon - 1 for at in told)
        steps += 1
    right = right and s.ask('edge 999999').endswith(' past\n') and s.ask('edges on') == '= 1000000\n' and s.ask('end 1000000') == '= 1000000\n'
    right = right and s.ended() == (0, '', '')
    text = ROOM + ''.join(line + '\n' for line in s.script)
    edges = edges_of(text)
    return right and ' pulse ' in ' ' + text.replace('\n', ' ') and len(edges) > 200 and s.edges == edges and ''.join(s.trace) == run(text)


def is_held(start):
    """A pin that goes low and high at random, dense and wide, leaves the trace and the edges of the run of the lines taken."""
    numbers = random.Random(start)
    s = Session(SEAT)
    s.ask('edges on')
    s.ask('at 450000 send p1 4>8 give-osd-name')
    horizon, level = 0, 1
    while horizon < 600_000:
        ahead = numbers.choice([0, 1, 300, 600, 1500, 2400, 3700, numbers.randrange(30_000)])
        line = numbers.choice(['run to %d' % (horizon + ahead), 'edge %d' % (horizon + ahead), 'wait', 'pin %d %d' % (horizon + ahead, 1 - level)])
        answer = s.ask(line)
        if answer[0] == '=':
            horizon = int(answer.split()[1])
            level = 1 - level if line[0] == 'p' else level
    right = all(s.ask('pin %d %d' % (horizon - 1, each))[0] == '!' for each in (0, 1)) and s.ask('end %d' % (horizon - 1)).endswith(' past\n')
    right = right and s.ask('end %d' % (horizon + 1000))[0] == '=' and s.ended() == (0, '', '')
    text = SEAT + ''.join(line + '\n' for line in s.script)
    return right and '\npin ' in text and s.edges == edges_of(text) and ''.join(s.trace) == run(text)


def held_at_random():
    """Sessions whose pin goes low and high at random."""
    right = True
    for start in range(20):
        if not is_held(start):
            print('live: the session %d of a pin is another run' % start)
            right = False
    return right


def pin_by_levels():
    """Firmware acknowledges a frame by its pin where its interrupts are early enough; where they are late it reads another address."""
    acknowledged = '1000000 1051150 complete 4>8 give-osd-name ack by p1 out -\n'
    misread = '1000000 1028851 silent 0100100001 by - out p1@10\n'
    right = True
    for late, line in [(1, acknowledged), (100, acknowledged), (300, acknowledged), (500, misread)]:
        ran = subprocess.run([os.path.join(TOP, 'examples/live/pin.py'), PROGRAM, str(late)], capture_output=True, text=True)
        right = right and ran.returncode == 0 and ran.stdout == line
    return right


def driver():
    """The driver in Python ends well, and its room was asked and answered."""
    ran = subprocess.run([os.path.join(TOP, 'examples/live/active-source.py'), PROGRAM], capture_output=True, text=True)
    return ran.returncode == 0 and ran.stdout.count(' give-osd-name ') >= 2 and ran.stdout.count(' set-osd-name ') >= 2


def is_right(name):
    """A driver of examples/live ends with status 0."""
    ran = subprocess.run([os.path.join(TOP, 'examples/live', name), PROGRAM], capture_output=True, text=True)
    return ran.returncode == 0


def device_under_test():
    """A device from outside polls, claims an address, and answers in time."""
    return is_right('dut.py')


def television_under_test():
    """A television from outside takes address 0, is woken, asks, answers and sends all to sleep."""
    return is_right('television.py')


def claimed_twice():
    """A device from outside claims an address that another one holds."""
    return is_right('claims.py')


def sent_together():
    """Of a round that two devices send together room.py names both."""
    sys.path.insert(0, os.path.join(TOP, 'examples/live'))
    from room import Room, rounds
    room = Room(PROGRAM, 'device tv tv 2\ndevice one outside 0\ndevice two outside 0\nplug one tv 1\nplug two tv 2\n')
    for name in ('one', 'two'):
        room.ask('at 500000 send %s 4>0 image-view-on' % name)
    told, _ = room.ask('run to 600000')
    room.ask('end 700000')
    room.live.communicate()
    return [one.senders for one in rounds(told)][-1] == ['one', 'two']


def shell():
    """The driver in bash goes through its room."""
    ran = subprocess.run([os.path.join(TOP, 'examples/live/room.sh'), PROGRAM], capture_output=True, text=True)
    lines = ran.stdout.split('\n')
    told = [line for line in lines if line and line[0] not in '=!']
    want = run(ROOM + 'at 1000000 press p1 play\nend 2000000\n')
    return ran.returncode == 0 and ''.join(line + '\n' for line in told) == want and any(line.startswith('= state tv ') for line in lines)


# The drivers of examples/, with the words after the program's name and with what stands on standard input.
DRIVERS = [('live/active-source.py', [], ''), ('live/claims.py', [], ''), ('live/dut.py', [], ''), ('live/pin.py', ['300'], ''), ('live/room.sh', [], ''),
           ('live/television.py', [], ''), ('suite/emulated.py', [], 'start 0 player\naddress 0 2.0.0.0\nsent 40000 4>4 44 nack\npress 500000 play\n')]


def stops(path, words, given, fault):
    """A driver ends by itself, with status 2 and one line by its name, which says this."""
    try:
        ran = subprocess.run([os.path.join(TOP, 'examples', path), *words], input=given, capture_output=True, text=True, timeout=30)
    except subprocess.TimeoutExpired:
        print('live: %s %s does not end' % (path, ' '.join(words)))
        return False
    said = [line for line in ran.stderr.splitlines() if not line.startswith('hdminet: ')]
    right = ran.returncode == 2 and len(said) == 1 and said[0].startswith(os.path.basename(path) + ': ' + fault)
    if not right:
        print('live: %s %s: status %d: %s' % (path, ' '.join(words), ran.returncode, ran.stderr))
    return right


def drivers_stop():
    """Where there is no session, or it ends before its driver, the driver says so and ends."""
    right = True
    with tempfile.TemporaryDirectory() as room:
        # A session that takes so many lines, and a program that is right otherwise.
        cut = []
        for count in (3, 6, 7, 9):
            cut.append(os.path.join(room, 'cut%d' % count))
            with open(cut[-1], 'w') as file:
                file.write('#!/bin/sh\n[ "$1" = live ] || exec "%s" "$@"\nsed -u %dq | "%s" live\n' % (PROGRAM, count, PROGRAM))
            os.chmod(cut[-1], 0o755)
        for path, words, given in DRIVERS:
            right = stops(path, [], given, 'usage: ') and stops(path, [PROGRAM, *words, 'player', 'more'], given, 'usage: ') and right
            for program in ['/bin/false', '/bin/true'] + cut:
                right = stops(path, [program, *words], given, 'the session is over') and right
    return stops('live/pin.py', [PROGRAM, 'soon'], '', 'LATENCY is a number') and right


def main():
    if not os.access(PROGRAM, os.X_OK):
        sys.exit('live: no program at %s: ./hdminet --prove builds it' % PROGRAM)
    signal.alarm(600)
    sys.exit(tests_told('live', [answers_at_once, ends_early, has_faults, closed, objects, objects_closed, rooms_cut, rooms_by_edges, pulses_let_go, five_thousand_pulses, edge_by_edge, held_at_random, pin_by_levels, driver, device_under_test, television_under_test, claimed_twice, sent_together, shell, drivers_stop]))


if __name__ == '__main__':
    main()
