#!/usr/bin/env python3
"""python3 compare.py PROGRAM KIND COUNT START: random inputs of KIND through PROGRAM and the model; prints differences.
KIND: run feat wire edges mon audit step asm edid edtext merge check ways room met expect sweep capture json odd."""
import os, random, re, subprocess, sys, time
import wire, captures, edid, expectations, merge, net, patterns, sweep
from model import model


MAXDIFF = int(os.environ.get('MODEL_MAX', '5'))
KINDS6 = ['tv', 'amp', 'player', 'recorder', 'switch', 'combo', 'combo', 'outside']
ROOTS = ['tv', 'tv', 'tv', 'tv', 'outside-tv']


def prog(program, args, data):
    try:
        p = subprocess.run([program] + args, input=data, capture_output=True, timeout=120)
    except subprocess.TimeoutExpired:
        return 'timeout', b'', ''
    said = p.stderr.decode('latin1').split('\n')[:-1] if '--merge' in args or '--mend' in args else p.stderr.decode('latin1').split('\n')[:1]
    f = '\n'.join(e[9:] if e.startswith('hdminet: ') else ('?' + e if e else '') for e in said)
    if args[0] == 'mon' and p.returncode == 0: f = ''      # what may have to be asked for otherwise is not in the model
    out = p.stdout
    if '--audit' in args or '--timing' in args:     # what the standard calls what is left as bytes is not in the model
        out = b''.join(line for line in out.splitlines(True) if not line.startswith((b'  # ', b'{"line":"  # ')))
    return p.returncode, out, f


def differs(program, args, data):
    try:
        m = model(args, data)
    except Exception as x:
        m = ('model', b'', repr(x))
        raise
    g = prog(program, args, data)
    return (m, g) if m != g else None


def minimise(program, args, data, budget=250):
    """drops lines, then words' digits are left alone"""
    if b'\0' in data[:64] or args[:1] == ['edid'] and '--text' not in args:
        return data
    def cls(d):
        m, g = d
        return (m[0], g[0], m[2].split(' ')[0], g[2].split(' ')[0])
    first = differs(program, args, data)
    want = cls(first)
    ls = data.split(b'\n')
    n = max(1, len(ls) // 2)
    while n >= 1 and budget > 0:
        i = 0
        changed = False
        while i < len(ls) and budget > 0:
            cand = ls[:i] + ls[i + n:]
            budget -= 1
            d = b'\n'.join(cand)
            try: x = differs(program, args, d)
            except Exception: x = None
            if x and cls(x) == want:
                ls = cand
                changed = True
            else: i += n
        if n == 1 and not changed: break
        n = max(1, n // 2) if n > 1 else (1 if changed else 0)
    return b'\n'.join(ls)


# ------------------------------------------------------------------ generators
B = bytes.fromhex('00ffffffffffff004c2d0201010000000a15010380341d780aee91a3544c99260f5054000000' + '0101' * 8 + '023a801871382d40582c450008222100001e000000fc004c4f554e474520545620303031' + ('00000010' + '00' * 14) * 2 + '0151')
X = bytes.fromhex('020316f143900403230907078301000065030c000000' + '00' * 105 + 'e8')


def gen_block_hdmi(r):
    return bytes([3, 12, 0, r.choice([0, 0x10, 0xff]), 0]) + r.randbytes(r.choice([0, 0, 1, 3, 26]))


def gen_timing(r):
    b = bytearray(r.randbytes(18))
    if not (b[0] or b[1]): b[0] = 1
    return bytes(b)


def gen_ext(r, room_mode=True):
    """a CTA extension of random make, often full or nearly so"""
    k = r.random()
    if k < .08:
        b = bytearray(r.randbytes(128))
        if r.random() < .5: b[0:2] = b'\x02\x03'
        if r.random() < .3: b[2] = r.choice([0, 1, 2, 3, 4, 5, 126, 127, 128, 255])
        return edid.mend(bytes(b))
    if k < .16:
        t = bytearray(r.choice([123 * b'\0', r.randbytes(123)]))
        if r.random() < .5: t[r.randrange(123):] = bytes(len(t[r.randrange(123):]))
        t = bytes(t[:123]).ljust(123, b'\0')
        return edid.mend(bytes([2, 3, 0, r.randrange(256)]) + t + b'\0')
    body = b''
    for _ in range(r.choice([0, 1, 2, 3, 4, 5, 8])):
        if r.random() < .35: tag, d = 3, gen_block_hdmi(r)
        else:
            tag = r.choice([1, 1, 1, 2, 3, 4, 7, 0, 5, 6])
            d = r.randbytes(r.choice([0, 1, 2, 3, 4, 5, 6, 7, 9, 12, 15, 30, 31]))
            if tag == 3 and r.random() < .3: d = bytes([3, 12, 0]) + d[:2]
        if len(body) + 1 + len(d) <= 123: body += bytes([tag << 5 | len(d)]) + d
    if r.random() < .15:    # fill up to leave a small room
        want = 123 - r.choice([0, 0, 1, 2, 3, 5, 6, 17, 18, 19])
        while len(body) < want:
            n = min(31, want - len(body) - 1)
            body += bytes([r.choice([1, 2, 4, 7, 6]) << 5 | n]) + r.randbytes(n)
    d = 4 + len(body)
    for _ in range(r.choice([0, 0, 1, 2, 6])):
        if len(body) + 18 <= 123: body += gen_timing(r)
    room = 123 - len(body)
    tail = r.choice([b'', b'', r.randbytes(r.randrange(0, room + 1)), b'\0\0' + r.randbytes(min(room, 20)), r.randbytes(room)])[:room]
    b = bytes([2, 3, d, r.randrange(256)]) + body + tail.ljust(room, b'\0')
    if r.random() < .06:
        b = bytearray(b); b[2] = r.choice([d + 1, d - 1, 1, 2, 3, 128, 255]) & 255; b = bytes(b)
    return edid.mend(b + b'\0')


def gen_desc(r):
    k = r.random()
    if k < .3: return gen_timing(r)
    if k < .6:
        n = r.choice([0, 1, 5, 12, 13])
        t = bytes(r.choice([32, 126, 65, r.randrange(32, 127)]) for _ in range(n))
        if n < 13: t = t + b'\n' + b' ' * (12 - n)
        d = bytearray(bytes([0, 0, 0, r.choice([0xFF, 0xFE, 0xFC]), 0]) + t)
        if r.random() < .3: d[r.randrange(2, 18)] = r.choice([0, 10, 13, 32, 34, 127, 128, 31])
        return bytes(d)
    if k < .75: return bytes([0, 0, r.choice([0, 0, 0, 1]), 0xFD]) + r.randbytes(14)
    if k < .9: return bytes([0, 0, 0, 0x10]) + r.choice([bytes(14), bytes(14), bytes(13) + b'\1'])
    return bytes([0, 0]) + r.randbytes(16)


def gen_edid(r, exts=None):
    b = bytearray(128)
    b[0:8] = B[0:8]
    m = r.randrange(1, 27) << 10 | r.randrange(1, 27) << 5 | r.randrange(1, 27)
    b[8:10] = m.to_bytes(2, 'big')
    b[10:18] = r.randbytes(8)
    b[18], b[19] = 1, r.choice([3, 4])
    b[20:38] = r.randbytes(18)
    for i in range(8):
        b[38 + 2 * i:40 + 2 * i] = r.choice([b'\1\1', b'\1\1', r.randbytes(2), b'\1\0', b'\0\1', b'\0\0', b'\1\x41'])
    for i in range(4): b[54 + 18 * i:72 + 18 * i] = gen_desc(r)
    n = r.choice([0, 1, 1, 1, 2, 3]) if exts is None else exts
    b[126] = n
    return edid.mend(bytes(b)) + b''.join(gen_ext(r) for _ in range(n))


def gen_topology(r, edid_chance=.15):
    n = r.choice([1, 2, 2, 3, 3, 4, 5, 6, 8, 15])
    ls, names, ports, kinds = [], [], [], []
    tv = r.randrange(n)
    for i in range(n):
        k = r.choice(ROOTS) if i == tv else r.choice(KINDS6[1:])
        p = r.choice([0, 1, 2, 3, 4, 15]) if i != tv else r.choice([1, 3, 4, 8, 15])
        if k == 'switch' and r.random() < .7: p = r.choice([1, 2, 3, 4])
        nm = '%s%d' % (k[0], i)
        names.append(nm); ports.append(p); kinds.append(k)
        ls.append('device %s %s %d' % (nm, k, p))
    on = [tv]
    taken = set()
    order = [i for i in range(n) if i != tv]
    r.shuffle(order)
    for i in order:
        if r.random() < .12: continue
        c = [(p, q) for p in on for q in range(1, ports[p] + 1) if (p, q) not in taken]
        if not c: continue
        if r.random() < .5:     # prefer depth
            c = [x for x in c if x[0] == c[-1][0]] or c
        p, q = r.choice(c)
        taken.add((p, q))
        ls.append('plug %s %s %d' % (names[i], names[p], q))
        on.append(i)
    if r.random() < edid_chance:
        while True:
            e = gen_edid(r, r.choice([1, 1, 2, 3]))
            if edid.first_hdmi(e) is not None or r.random() < .02: break
        ls.append('edid ' + e.hex())
    return ls, names, ports, kinds


def text_word(r, least, most):
    n = r.choice([least, least + 1, 5, most, r.randrange(least, most + 1)])
    return '"' + ''.join(chr(r.choice([32, 65, 97, 126, 35, 58])) for _ in range(n)) + '"'


def pa_word(r, near=None):
    if near and r.random() < .6: return r.choice(near)
    return r.choice(['0.0.0.0', '1.0.0.0', '2.0.0.0', '1.1.0.0', '3.1.2.0', 'f.f.f.f', '1.2.0.0', '1.1.1.0', '1.1.1.1', '1.1.2.0', '%x.%x.%x.%x' % tuple(r.randrange(16) for _ in range(4))])


def gen_frame(r, src=None, dst=None, near=None, op=None):
    s = '%x' % (src if src is not None else r.randrange(16))
    d = '%x' % (dst if dst is not None else r.choice([0, 4, 5, 15, r.randrange(16)]))
    if op is None:
        if r.random() < .04: return s + '>' + d
        op = r.choice(list(wire.ROWS) * 4 + list(wire.SECOND) + [0xE5, 0x02, 0xFE])
    if op in wire.ROWS and r.random() < .82:
        name, ops, to = wire.ROWS[op]
        if dst is None and r.random() < .9: d = 'f' if to == 'B' else d
        ws = []
        for k in ops:
            if k == 'byte': ws.append('%02x' % r.choice([0, 0x44, r.randrange(256)]))
            elif k == 'pa': ws.append(pa_word(r, near))
            elif k == 'pa?':
                if r.random() < .6: ws.append(pa_word(r, near))
            elif k == 'id': ws.append(r.randbytes(3).hex())
            elif k == 'lang': ws.append(''.join(r.choice('abz') for _ in range(3)))
            elif k == 'text14': ws.append(text_word(r, 1, 14))
            elif k == 'text13?':
                if r.random() < .7: ws.append(text_word(r, 1, 13))
            elif k == 'vol': ws += [r.choice(['mute', 'sound']), str(r.choice([0, 1, 20, 99, 100]))]
            else: ws.append(r.choice(list(wire.SETS[k].values())))
        t = ' '.join(['%s>%s' % (s, d), name] + ws)
        try:
            wire.assemble(t.encode())
            return t
        except wire.Refused:
            pass
    data = r.randbytes(r.choice([0, 1, 1, 2, 2, 3, 4, 5, 14]))
    if op in wire.ROWS and r.random() < .5:
        x = bytearray(data)
        for i in range(len(x)): x[i] = r.choice([0, 1, 2, 3, 4, 0x10, 0x24, 0x40, 0x80, 0x41, x[i]])
        data = bytes(x)
    return wire.frame_text(bytes([int(s, 16) << 4 | int(d, 16), op]) + data)


def gen_key(r, kind, near=None):
    deck = ['play', 'stop', 'eject', 'load', 'menu', 'power', 'play']
    tv = ['power', 'watch ' + pa_word(r, near), 'audio on', 'audio off', 'arc on', 'arc off', 'volume-up', 'volume-down', 'mute',
          'language ' + r.choice(['eng', 'ger', 'zzz']), 'remote %x %s' % (r.randrange(1, 15), r.choice(list(wire.SETS['code'].values()))),
          'remote %s %s' % (r.choice('45118'), r.choice(['power', 'volume-up', 'mute', 'play', 'stop', 'root-menu', 'exit', 'power-on', 'power-off', 'pause']))]
    amp = ['power', 'arc on', 'arc off', 'volume-up', 'volume-down', 'mute']
    sw = ['power', 'port %d' % r.choice([0, 1, 2, 3, 4, 15, 255, 300])] + ['port %d' % r.choice([1, 2, 3])] * 3
    by = {'outside': deck, 'outside-tv': tv, 'combo': deck, 'tv': tv, 'amp': amp, 'player': deck, 'recorder': deck, 'switch': sw}
    if r.random() < .07: kind = r.choice(KINDS6)
    return r.choice(by[kind])


def addresses(topo):
    """{name: (la or None, phys)} after 3 s"""
    st, out, f = model(['run'], ('\n'.join(topo) + '\nscript\nend 3500000\n').encode())
    res = {}
    for l in out.decode('latin1').splitlines():
        if l.startswith('state '):
            w = l.split(' ')
            la = [x for x in w[3].split('+') if x != '-']
            res[w[1]] = (int(la[-1], 16) if la else None, w[4])
    return res


def send_named(r, line, names):
    """a script's line; of a `send`, names now and then in the place of addresses"""
    w = line.split(' ')
    if len(w) < 5 or w[2] != 'send' or not re.fullmatch('[0-9a-f]>[0-9a-f]', w[4]): return line
    given = ['attempts', str(r.choice([1, 2, 4, 6, r.randrange(1, 7)]))] if r.random() < .2 else []
    if r.random() < .1:
        try:
            return ' '.join(w[:4] + given + ['hex', r.choice(['', ':', ' ']).join('%02x' % x for x in wire.assemble(' '.join(w[4:]).encode()))])
        except Exception:
            pass
    if r.random() < .7: return ' '.join(w[:4] + given + w[4:])
    a, b = w[4].split('>')
    if r.random() < .7: a = '@' + (w[3] if r.random() < .9 else r.choice(names))
    if r.random() < .6 and (b != 'f' or r.random() < .1): b = '@' + r.choice(names)
    return ' '.join(w[:4] + given + [a + '>' + b] + w[5:])


def gen_act(r, name, las, near):
    """what a device from outside is told"""
    k = r.random()
    if k < .1: return 'drop ' + name
    if k < .4:
        a = '%x' % r.choice((las or [4]) + [0, 4, 8, 14]) if r.random() < .7 else '%x' % r.randrange(15)
        b = '%x' % r.randrange(14)
        a = 'e' if a == 'f' else a
        many = r.sample('0123456789abcde', r.choice([3, 4]))
        return 'hold %s %s' % (name, r.choice([a, a, '-', a + '+' + (b if b != a else 'e' if a != 'e' else '0'), '+'.join(many)]))
    src = r.choice((las or [4]) + [4, 8, 15, None])
    if k < .55: return 'send %s %x>%x' % (name, *[r.choice([4, 8, 0, 5])] * 2)
    return 'send %s %s' % (name, gen_frame(r, src, r.choice((las or [0]) + [15, None]), near))


def gen_script(r, topo, names, ports, kinds, feat=False):
    adr = addresses(topo)
    las = [a for a, p in adr.values() if a is not None]
    near = [p for a, p in adr.values() if p != '-'] or None
    start = 3500000 if feat and len(names) > 5 else 1200000 if not feat and r.random() < .5 else 2600000
    if not feat and r.random() < .25: start = r.choice([0, 1, 30000, 100000, 300000, 600000])
    t = start
    ls = []
    n = r.choice([1, 3, 10, 25]) if not feat else r.choice([20, 40])
    for _ in range(n):
        t += r.choice([0, 0, 1, 1000, 40000, 160000, 160000, 300000]) if not feat else r.choice([0, 1, 20000, 90000, 160000, 160000, 250000])
        i = r.randrange(len(names))
        k = r.random()
        if (kinds[i] in net.OUTSIDE and r.random() < .7) or r.random() < .01:
            ls.append('at %d %s' % (t, gen_act(r, names[i], las, near)))
            continue
        if k < (.06 if feat else .2):
            j = r.randrange(len(names))
            if r.random() < .5: ls.append('at %d unplug %s' % (t, names[i]))
            else: ls.append('at %d plug %s %s %d' % (t, names[i], names[j], r.choice([1, 2, 3, r.randrange(0, 17), 255, 999])))
        elif k < (.45 if feat else .6):
            ls.append('at %d %s %s %s' % (t, r.choice(['press', 'press', 'press', 'release']), names[i], gen_key(r, kinds[i], near)))
        else:
            la = adr.get(names[i], (None, '-'))[0]
            src = la if r.random() < .95 and la is not None else None
            dst = r.choice(las) if las and r.random() < .75 else None
            ls.append('at %d send %s %s' % (t, names[i], gen_frame(r, src, dst, near)))
    if r.random() < .15:    # a burst that fills a queue
        i = r.randrange(len(names))
        la = adr.get(names[i], (None, '-'))[0]
        for _ in range(r.choice([14, 15, 16, 17])):
            ls.append('at %d send %s %s' % (t, names[i], gen_frame(r, la, r.choice([0, 15, 3]), near, 0x36)))
        for _ in range(r.choice([1, 4])):
            ls.append('at %d press %s %s' % (t, names[i], gen_key(r, kinds[i], near)))
        j = r.randrange(len(names))
        for _ in range(r.choice([0, 2, 20])):
            ls.append('at %d send %s %s' % (t, names[j], gen_frame(r, adr.get(names[j], (None, '-'))[0], la, near, r.choice([0x46, 0x8F, 0x9F, 0x83]))))
        t += r.choice([1, 4000000])
    end = t + r.choice([1, 1000, 100000, 1000000, 2000000])
    return [send_named(r, l, names) for l in ls], start, end


def gen_pulses(r, end, n=None):
    out = []
    t = r.choice([0, 1, 11000, 50000, 1200000])
    for _ in range(n or r.choice([0, 0, 1, 3, 10, 40])):
        w = r.choice(([3700, 3501, 10000, 4700] if net.MAX_WIDTH > 3000 else []) + [1, 2, 100, 400, 600, 1000, 1050, 1500, 2400, 2999, 3000, r.randrange(1, 3001)])
        if t >= end: break
        out.append('pulse %d %d' % (t, w))
        t += w + 25000 + r.choice([0, 0, 1, 500, 3000, 20000, 100000, r.randrange(200000)])
    return out


def gen_run(r, feat=False):
    topo, names, ports, kinds = gen_topology(r, .04 if feat else .12)
    ev, start, end = gen_script(r, topo, names, ports, kinds, feat)
    pul = [] if feat else gen_pulses(r, end)
    # merge in any order: pulses are independent of the at lines
    body = ev + pul if r.random() < .5 else pul + ev
    return ['run'], '\n'.join(topo + ['script'] + body + ['end %d' % end]) + '\n'


def gen_feat(r):
    """five kinds settled; frames by true initiators over the whole opcode table"""
    shapes = [
        ['device tv tv 4', 'device amp amp 2', 'device p player 0', 'device rec recorder 0', 'device sw switch 3', 'plug amp tv 1', 'plug p amp 1', 'plug sw tv 2', 'plug rec sw 2'],
        ['device p player 1', 'device tv tv 3', 'device rec recorder 0', 'device amp amp 3', 'plug p tv 2', 'plug rec tv 3', 'plug amp tv 1'],
        ['device tv tv 2', 'device sw switch 4', 'device s2 switch 2', 'device s3 switch 2', 'device s4 switch 1', 'device p player 0', 'plug sw tv 1', 'plug s2 sw 2', 'plug s3 s2 1', 'plug s4 s3 2', 'plug p s3 1'],
    ]
    if r.random() < .25: return gen_run(r, True)
    topo = list(r.choice(shapes))
    names, kinds = [], []
    for l in topo:
        w = l.split()
        if w[0] == 'device': names.append(w[1]); kinds.append(w[2])
    adr = addresses(topo)
    near = [p for a, p in adr.values()] * 2 + ['1.2.0.0', '1.3.0.0', '2.1.0.0', '2.2.0.0', '1.2.1.2', '1.2.2.0', '1.4.0.0', '2.3.0.0', '2.4.0.0']
    las = [a for a, p in adr.values() if a < 15]
    t = 2000000
    ls = []
    focus = r.choice([None, None, [0x1A, 0x1A, 0x41, 0x42, 0x44, 0x36, 0x1B], [0x70, 0x71, 0x72, 0x7D, 0x44, 0x45, 0xC0, 0xC1, 0xC2, 0xC3, 0xC4, 0xC5, 0x36, 0x04],
                      [0x80, 0x81, 0x82, 0x82, 0x85, 0x86, 0x86, 0x9D, 0x36, 0x04], [0x04, 0x0D, 0x36, 0x64, 0x64, 0x44, 0x8F, 0x8D, 0x32, 0x91, 0x46]])
    for _ in range(r.choice([10, 30, 50])):
        t += r.choice([0, 100000, 180000, 250000, 400000])
        i = r.randrange(len(names))
        k = r.random()
        if k < .3: ls.append('at %d %s %s %s' % (t, r.choice(['press', 'press', 'press', 'release']), names[i], gen_key(r, kinds[i], near)))
        else:
            la = adr[names[i]][0]
            dst = r.choice(las + [None])
            if k > .9 and la < 15 and kinds[i] != 'switch':
                dst = r.choice([a for a in las if a != la] or [None])
            op = r.choice(focus) if focus and r.random() < .9 else None
            ls.append('at %d send %s %s' % (t, names[i], gen_frame(r, la, None if op in wire.ROWS and wire.ROWS[op][2] == 'B' and r.random() < .95 else dst, near, op)))
    return ['run'], '\n'.join(topo + ['script'] + ls + ['end %d' % (t + r.choice([300000, 1500000]))]) + '\n'


OFFS = sorted(set(x + d for x in [0, 350, 450, 600, 700, 1050, 1500, 1700, 2050, 2100, 2400, 2700, 2750, 2751, 3500, 3600, 3700, 3900, 3901,
                                   4300, 4500, 4700, 4701, 7200, 12000, 16800] for d in (-1, 0, 1)) |
              set(-x + d for x in [0, 200, 350, 600, 1050, 1500, 2050, 2400, 2750, 3000] for d in (-1, 0, 1)))


BORDER = [a + d for a in (1050, 1500, 2050, 2051, 2100, 2399, 2750, 2751, 3500, 3700, 3900, 4300, 4500, 4700, 7200) for d in (-1, 0, 1)] + [-350, -351, -349, -200, -201, -1, 0, 1, 600, 601]


def gen_wire(r, edges=False):
    topo = r.choice([
        ['device tv tv 4', 'device p1 player 0', 'plug p1 tv 1'],
        ['device tv tv 2', 'device amp amp 0', 'device p1 player 0', 'plug amp tv 1', 'plug p1 tv 2'],
        ['device tv tv 1'],
        ['device tv tv 4', 'device p1 player 0', 'device p2 player 0', 'device sw switch 2', 'plug p1 tv 1', 'plug p2 tv 2', 'plug sw tv 3'],
        ['device tv tv 4', 'device r1 recorder 0', 'device p2 player 0', 'device amp amp 2', 'plug r1 tv 1', 'plug p2 amp 2', 'plug amp tv 3'],
    ])
    names = [l.split()[1] for l in topo if l.startswith('device')]
    adr = addresses(topo)
    ls = []
    t = 1500000 if len(names) < 3 else 2500000
    base = t
    for _ in range(r.choice([0, 1, 2, 4])):
        nm = r.choice(names)
        la = adr[nm][0]
        ls.append('at %d send %s %s' % (t, nm, gen_frame(r, la, r.choice([0, 4, 5, 15, 8, 3]), None, r.choice([0x04, 0x46, 0x83, 0x8F, 0x36, 0x85, 0x9F, 0x47, None]))))
        t += r.choice([0, 0, 0, 30000, 150000])
    end = t + 400000
    pulses = []
    low = 0
    border = r.random() < .5
    persist = r.random() < .15
    for _ in range(r.choice([1, 1, 2, 3, 6]) if not persist else 14):
        text = '\n'.join(topo + ['script'] + ls + ['pulse %d %d' % p for p in pulses] + ['end %d' % end]) + '\n'
        st, out, f = model(['run', '--edges'], text.encode())
        assert st == 0, (text, f)
        E = [int(l.split()[0]) for l in out.decode().splitlines()[:-1] if not border or l.endswith(' 0')]
        after = low if (not ls or r.random() < .3) else max(low, base - 1000)
        if persist:             # the next round, again and again
            after = low
        elif r.random() < .4:     # about the endings
            st, out, f = model(['run'], text.encode())
            E = [int(l.split()[1]) for l in out.decode().splitlines() if (l.split() + ['', ''])[2] in ('complete', 'short', 'silent', 'bad-start')]
            E = [x - d for x in E for d in (0, 1050, 2751)]
        E = [x for x in E if x >= after - 4000] or [after + r.randrange(50000)]
        x = r.choice(E[:r.choice([2, 12, 60, 10000])] if not persist else E[:12])
        if border and not persist and r.random() < .2:
            st, out, f = model(['run'], text.encode())
            S = [int(l.split()[0]) for l in out.decode().splitlines() if (l.split() + ['', ''])[2] in ('complete', 'short', 'silent', 'bad-start') and int(l.split()[0]) >= after]
            if S: x = r.choice(S[:4])
        w = r.choice(([3700, 3500, 3499, 3900, 3901, 5000, 9999, 10000, r.randrange(3000, 10001)] * 2 if net.MAX_WIDTH > 3000 else []) + [1, 2, 100, 349, 350, 351, 400, 449, 450, 451, 600, 1049, 1050, 1051, 1500, 1501, 2050, 2999, 3000, r.randrange(1, 3001)])
        on = x + r.choice(OFFS if not border else BORDER)
        if border and r.random() < .3: w = r.choice([351, 350, 352, 1, 2, 400])
        if persist and r.random() < .8: on, w = x + r.randrange(1600, 2040), 100
        elif r.random() < .3: on -= w
        if on < low or on < 0: continue
        pulses.append((on, w))
        low = on + w + 25000
        if r.random() < .1: low += 0
    text = '\n'.join(topo + ['script'] + ls + ['pulse %d %d' % p for p in pulses] + ['end %d' % end]) + '\n'
    return (['run', '--edges'] if edges else ['run']), text


def gen_amp(r):
    """port EDIDs: trees with amplifiers and EDIDs that have an audio block and an HDMI block"""
    topo, names, ports, kinds = gen_topology(r, 0)
    exts = []
    n = r.choice([1, 1, 2, 3])
    for i in range(n):
        if i and r.random() < .5:
            exts.append(gen_ext(r))
            continue
        blocks = [bytes([1 << 5 | L]) + r.randbytes(L) for L in [r.choice([0, 1, 2, 3, 4, 5, 5, 6, 7, 8, 12, 30, 31]) for _ in range(r.choice([0, 1, 1, 1, 2]))]]
        h = gen_block_hdmi(r)
        blocks.append(bytes([3 << 5 | len(h)]) + h)
        if r.random() < .3:
            h = gen_block_hdmi(r); blocks.append(bytes([3 << 5 | len(h)]) + h)
        if r.random() < .4:
            L = r.choice([0, 3, 9, 31]); blocks.append(bytes([r.choice([2, 4, 7, 0, 5, 6]) << 5 | L]) + r.randbytes(L))
        r.shuffle(blocks)
        body = b''
        for b in blocks:
            if len(body) + len(b) <= 123: body += b
        d = 4 + len(body)
        if r.random() < .3:     # nearly full
            while len(body) + 32 <= 123 - r.choice([0, 5]): body += bytes([2 << 5 | 31]) + r.randbytes(31)
            L = 123 - len(body) - r.choice([0, 1, 2, 3, 4, 5, 6, 7])
            if 1 <= L <= 32: body += bytes([2 << 5 | (L - 1)]) + r.randbytes(L - 1)
            d = 4 + len(body)
        for _ in range(r.choice([0, 0, 1, 2, 6])):
            if len(body) + 18 <= 123: body += gen_timing(r)
        room = 123 - len(body)
        z = r.choice([0, 1, 2, 3, 4, 5, 6, 7, room, room])
        tail = r.randbytes(max(0, room - z))
        if tail and r.random() < .5: tail = b'\0\0' + tail[2:]
        tail = tail[:room]
        exts.append(edid.mend(bytes([2, 3, d, r.randrange(256)]) + body + tail.ljust(room, b'\0') + b'\0'))
    b = bytearray(B); b[126] = n
    topo.insert(r.randrange(len(topo) + 1), 'edid ' + (edid.mend(bytes(b)) + b''.join(exts)).hex())
    t = 1
    ls = []
    for _ in range(r.choice([0, 3])):
        ls.append('at %d %s' % (t, r.choice(['unplug ' + r.choice(names), 'plug %s %s %d' % (r.choice(names), r.choice(names), r.choice([1, 2, 3]))])))
        t += r.choice([0, 1, 300000])
    return ['run'], '\n'.join(topo + ['script'] + ls + ['end %d' % (t + 5)]) + '\n'


def gen_ops(r):
    """every opcode and operand byte alike, from every kind of initiator, in varying states"""
    topo = ['device tv tv 4', 'device amp amp 2', 'device p player 0', 'device rec recorder 0', 'device sw switch 3', 'plug amp tv 1', 'plug p amp 1', 'plug sw tv 2', 'plug rec sw 2']
    names, kinds = ['tv', 'amp', 'p', 'rec', 'sw'], ['tv', 'amp', 'player', 'recorder', 'switch']
    topo += ['device box combo 1', 'plug box tv 3']
    names.append('box'); kinds.append('combo')
    las = {'tv': [0], 'amp': [5], 'p': [4], 'rec': [1], 'sw': [15]}
    st, out, f = model(['run'], ('\n'.join(topo) + '\nscript\nend 3500000\n').encode())
    for l in out.decode().splitlines():
        w = l.split(' ')
        if w[0] == 'state': las[w[1]] = [int(x, 16) for x in w[3].split('+')]
    t = 3000000
    ls = []
    allas = [a for x in las.values() for a in x]
    for _ in range(40):
        i = r.choice(names)
        src = r.choice(las[i])
        dst = r.choice(allas + [15, 15])
        if r.random() < .15: ls.append('at %d press %s %s' % (t, i, gen_key(r, kinds[names.index(i)])))
        op = r.randrange(256) if r.random() < .5 else r.choice(list(wire.ROWS))
        data = bytearray(r.randbytes(r.choice([0, 1, 1, 1, 2, 2, 3, 4, 5, 14])))
        if data and r.random() < .5: data[0] = r.choice([0, 1, 2, 3, 4, 0x10, 0x12, 0x20, 0x24, 0x25, 5, 6, 7, 9, 10, 11, 0x40, 0x41, 0x42, 0x43, 0x44, 0x45, 0x46, 0x6C, 0x6D, 0x80, 0xD])
        if len(data) > 1 and r.random() < .5: data[1] = r.choice([0, 0, 0, 0x10, 0x20])
        ls.append('at %d send %s %s' % (t, i, wire.frame_text(bytes([src << 4 | dst, op]) + bytes(data))))
        t += 300000
    return ['run'], '\n'.join(topo + ['script'] + ls + ['end %d' % (t + 500000)]) + '\n'


def frame_pulls(r, at, frame):
    """a frame laid as pulls, at nominal times or beside them"""
    far = r.choice([0, 0, 60, 200])
    out = [(at, 3700)] + [(at + 4500 + 2400 * k, 600 if b else 1500) for k, b in enumerate(wire.bits_of(frame))]
    return [(max(0, t + r.randrange(-far, far + 1)), max(1, w + r.randrange(-far, far + 1))) for t, w in out]


def chatter(r, at):
    out = []
    for _ in range(r.randrange(1, 80)):
        w = r.choice([1, 50, 400, 600, 1500, 3600, r.randrange(1, 4000)])
        out.append((at, w))
        at += w + r.choice([1, 1, 50, 900, 1650, 1800, r.randrange(1, 4000)])
    return out


def near_slots(r, at):
    """about the slots of a sender, sooner by more and more, so that readings go on"""
    out, d, t = [], r.choice([0, 100, 200]), at
    for k in range(1, r.randrange(2, 42)):
        own = at + 4500 + 2400 * (k - 1)
        if d or r.random() < .1: out.append((own - d, r.choice([1, 20, 200, 590, 700, d, d + 1, d + r.randrange(1, 1500)])))
        d = max(0, min(d + r.choice([0, 0, 50, 350, 350, -100]), r.choice([350, 450, 800, 899, 899, 1249, 1350])))
    return out


def gen_pulls_run(r):
    """rooms in which anything is pulled from outside: laid frames, chatter, stuck lines, pulls that drag a frame's slots"""
    topo = ['device tv %s 5' % r.choice(['tv', 'tv', 'outside-tv']), 'device p1 player 0', 'device dut outside 0', 'plug p1 tv 1', 'plug dut tv 2']
    if r.random() < .4: topo += ['device a outside 0', 'device b outside 0', 'plug a tv 3', 'plug b tv 4']
    base = r.choice([0, 12000, 50705, 1000000, 1000000, 1000000])
    ls = ['at 900000 hold dut %s' % r.choice('0148e-')] if r.random() < .3 else []
    for name, frames in ('p1', ['4>0 standby', '4>f standby', '4>8 give-osd-name', '4>0 image-view-on']), ('tv', ['0>4 standby', '0>f standby']), ('dut', ['8>8', '8>4 give-osd-name']), \
            ('a', ['4>0 deck-status stop', '4>f standby']), ('b', ['4>0 abort']):
        if r.random() < .5 and 'device %s ' % name in '\n'.join(topo): ls.append('at 1000000 send %s %s' % (name, r.choice(frames)))
    pulls, low, at = [], 0, base + r.choice([0, 0, 1, 50, 100, 350, r.randrange(3000)])
    for _ in range(r.choice([1, 1, 2, 4])):
        style = r.choice([frame_pulls, chatter, near_slots, near_slots, None])
        if style is None: more = [(at + r.randrange(60000), r.choice([1, 3599, 3600, 3601, 3700, 3901, 5000, 10000, 100000, 1000000, r.randrange(1, 300000)]))]
        elif style is frame_pulls: more = frame_pulls(r, at, bytes.fromhex(r.choice(['8446', '4446', '0f36', '44', '88', '8483', '40', '4f82', '80', '8447' + '41' * r.choice([3, 14, 15])])))
        else: more = style(r, at)
        for t, w in more:
            if r.random() < .02: t = low
            if t > low or t == low == 0:
                kind = 'pulse' if w <= 10000 and (t >= low + 25000 or not pulls) and r.random() < .5 else 'pull'
                pulls.append('%s %d %d' % (kind, t, w))
                low = t + w
        at = max(low, at) + r.choice([1, 50, 2000, 7200, 30000, 200000])
    lines = ls + pulls if r.random() < .5 else pulls + ls
    text = '\n'.join(topo + ['script'] + lines + ['end %d' % max(1000001, base + r.choice([30000, 100000, 400000]))]) + '\n'
    return ['run'] + (['--edges'] if r.random() < .3 else []), text


def as_pins(r, lines):
    """some pulls of a script as levels of the pin, now and then one said twice, at an instant beside, or not let go"""
    out, share, slips = [], r.choice([.3, .7, 1]), r.choice([0, 0, 0, .02, .1])
    for line in lines:
        verb, *words = line.split(' ')
        if verb not in ('pulse', 'pull') or r.random() > share:
            out.append(line)
            continue
        t, w = map(int, words)
        levels = [(t, 0), (t + w, 1)]
        if r.random() < slips: levels.insert(r.choice([0, 1, 2]), (t + r.choice([-1, 0, 1, w - 1, w, w + 1]), r.choice([0, 1])))
        if r.random() < slips / 5: levels.pop(r.randrange(len(levels)))
        out += ['pin %d %d' % (max(0, at), level) for at, level in levels]
    return out


def gen_pins_run(r):
    """the same rooms with a device's own pin: its levels in the place of pulls, some wrong, the last pull perhaps let go by the end"""
    a, text = gen_pulls_run(r)
    lines = as_pins(r, text.split('\n'))
    levels = [i for i, line in enumerate(lines) if line.startswith('pin ')]
    if levels and r.random() < .3: lines = [line for i, line in enumerate(lines) if i < levels[-1] or not line.startswith(('pin ', 'pulse ', 'pull '))]
    return a, '\n'.join(lines)


def gen_edges(r):
    k = r.random()
    if k < .5: return gen_wire(r, True)
    a, t = gen_run(r)
    return ['run', '--edges'], t


def gen_mon(r):
    ls = []
    t = r.choice([0, 0, 1, 1000, 12345, 10 ** 12])
    if r.random() < .25:    # a run's edges, disturbed a little
        a, text = gen_wire(r, True)
        st, out, f = model(a, text.encode())
        ls = out.decode().splitlines()[:400]
        if not ls[-1].endswith('end'): ls.append(str(int(ls[-1].split()[0]) + 5000) + ' end')
        for _ in range(r.choice([0, 1, 3])):
            i = r.randrange(len(ls))
            w = ls[i].split()
            w[0] = str(max(0, int(w[0]) + r.choice([-2400, -1050, -350, -1, 1, 350, 351, 1050])))
            ls[i] = ' '.join(w)
    else:
        dice = r.choice([0, .02, .1])
        for _ in range(r.choice([1, 1, 2, 4])):
            long = r.random() < .08
            blocks = 16 if long else r.choice([1, 1, 2, 3, 5])
            e = t
            ls.append('%d 0' % t)
            up = e + r.choice([3700] * 6 + [3499, 3500, 3900, 3901, 3902, 100, 5000, 4701])
            ls.append('%d 1' % up)
            t = max(up + 1, e + r.choice([4500] * 8 + [4299, 4300, 4700, 4701, 4702, 9000]))
            n = 10 * blocks
            if r.random() < .5: n = r.randrange(1, n + 1)
            for k in range(1, n + 1):
                ls.append('%d 0' % t)
                eom = 1 if k == 10 * blocks - 1 and not (long and r.random() < .5) else 0
                b = eom if k % 10 == 9 else r.randrange(2)
                w = 600 if b else 1500
                if r.random() < dice: w = r.choice([1, 1049, 1050, 1051, 2000, 2049, 2750, 2751, 3000, 2400])
                ls.append('%d 1' % (t + w))
                gap = 2400
                if r.random() < dice: gap = r.choice([2049, 2050, 2051, 2749, 2750, 2751, 2752, 1050, 1051, 1049, 700, 5000])
                t = max(t + w + 1, t + gap)
            t += r.choice([0, 1, 10, 351, 1000, 2000, 4800, 20000])
        lastfall = max([int(l.split()[0]) for l in ls if l.endswith(' 0')] or [0])
        lastedge = int(ls[-1].split()[0])
        ls.append('%d end' % r.choice([max(lastedge, lastfall + r.choice([1050, 2751, 3901, 4701, 2050]) + r.choice([-1, 0, 1]))] * 6 + [t, t + 1, t + 1050, t + 5000, t + 100000, max(0, int(ls[-1].split()[0])), int(ls[-1].split()[0]) + r.choice([1, 449, 450, 451, 2150, 2151, 3000])]))
    if r.random() < .25:
        i = r.randrange(len(ls))
        ls = r.choice([ls[:i] + ls[i + 1:], ls[:i] + [''] + ls[i:], ls[:i] + ['# x'] + ls[i:], ls[:i] + [ls[i]] + ls[i:], ls[:i] + [ls[i] + ' '] + ls[i + 1:],
                       ls[:i] + ['0' + ls[i]] + ls[i + 1:], ls + ls[-1:], ls + ['zz'], ls[:-1], ls[:i] + ['%d 0' % (2 * 10 ** 12 + r.randrange(-1, 2))] + ls[i:]])
    return ['mon', '--from', 'edges'], '\n'.join(ls) + r.choice(['\n', '\n', ''])


def gen_frame_slots(r, frame, takes, at):
    """the edges of a frame from `at` on, as the emulator would send it, block by block while it is taken; and its last fall"""
    lines = ['%d 0' % at, '%d 1' % (at + 3700)]
    e = at + 4500
    for k, byte in enumerate(frame):
        bits = [byte >> i & 1 for i in range(7, -1, -1)] + [int(k == len(frame) - 1)]
        ack = takes and k < takes
        bits.append((0 if ack else 1) if frame[0] & 15 != 15 else (1 if ack else 0))
        for bit in bits:
            lines += ['%d 0' % e, '%d 1' % (e + (600 if bit else 1500))]
            e += 2400
        if not ack: break
    return lines, e - 2400


def gen_margin(r):
    """the same, by wider windows or not, with its levels turned or not"""
    args, text = gen_mon(r)
    if r.random() < .2: args = args + ['--invert']
    if r.random() < .2: args = args + ['--scale', r.choice(['0.5', '0.0001', '1', '1.0417', '2', '24', '0.9999', '1000', '%d.%04d' % (r.randrange(3), r.randrange(1, 10000))])]
    return args + r.choice([[], ['--margin', str(r.choice([0, 1, 20, 50, 300, r.randrange(301)]))]]), text


def gen_fold(r):
    """bad starts one after another, between readings of other kinds, as they stand or in an audit"""
    lines, at = [], r.choice([0, 20000])
    for _ in range(r.choice([1, 3, 6])):
        for _ in range(r.choice([0, 1, 1, 2, 3, 9])):
            lines += ['%d 0' % at, '%d 1' % (at + r.choice([1, 400, 1500, 3499, 3901, 6000]))]
            at += r.choice([6001, 7000, 30000])
        if r.random() < .7:
            more, last = gen_frame_slots(r, r.choice([b'\x40', b'\x04\x8f', b'\x4f\x82\x10\0']), r.choice([0, 1, 9]), at)
            lines += more[:r.choice([len(more), len(more), 4])]
            at = int(lines[-1].split()[0]) + r.choice([3000, 7200, 20000])
    lines.append('%d end' % (at + r.choice([0, 3000])))
    args = ['mon', '--from', 'edges', '--fold'] + r.choice([[], [], ['--from-start'], ['--audit'], ['--timing', '--strict'], ['--invert'], ['--margin', '300']])
    return args, '\n'.join(lines) + '\n'


def gen_audit(r):
    """frames that are tried again, answered late, too soon, to others than they are for; or any edges"""
    flags = r.choice([['--audit'], ['--audit'], ['--timing'], ['--audit', '--timing']])
    flags += r.choice([[], [], ['--strict']]) + r.choice([[], [], ['--json']])
    flags += r.choice([[], [], ['--margin', str(r.choice([1, 20, 50, 300, r.randrange(301)]))]])
    if r.random() < .3:
        args, text = gen_mon(r)
        return args + flags, text
    lines, at = [], r.choice([0, 20000, 100000])
    frame = None
    few = [bytes([a << 4 | b]) + f for a, b, f in [(r.choice([0, 1, 4, 4, 5, 15]), r.choice([0, 1, 4, 5, 15]), r.choice(
        [b'', b'\x8f', b'\x90\0', b'\x46', b'\x47A', b'\0\x8f\0', b'\0\xff\4', b'\xff', b'\x11', b'\xa5', b'\x36', b'\x84\x10\0\4', b'\x84 \0\4', b'\x82\x10\0',
         b'\x82 \0', b'\x70', b'\x41', b'\x04', bytes([r.randrange(256)])])) for _ in range(r.choice([2, 3, 5]))]]
    for _ in range(r.choice([3, 8, 15])):
        frame = r.choice(few) if frame is None or r.random() < .6 else frame
        more, last = gen_frame_slots(r, frame, r.choice([0, 1, len(frame), len(frame)]), at)
        if r.random() < .1: more = more[:2 * r.randrange(1, len(more) // 2 + 1)]
        if r.random() < .1:         # held low in the last slot
            t = int(more[-2].split()[0])
            more[-1] = '%d 1' % (t + r.choice([1699, 1701, 3359, 3360, 3600, 5540, 5541, 9000]))
        lines += more
        last, edge = int(more[-2].split()[0]), int(more[-1].split()[0])
        gap = r.choice([7200] * 3 + [7199, 8100, 11999, 12000, 12001, 16799, 16800, 16801, 900000, 1000000, 1050000, 4900000, 5100000, 3000])
        at = max(edge + 1, last + gap + r.choice([0, 0, 0, 1, 600, 1500]))
        if r.random() < .1:
            lines += ['%d 0' % at, '%d 1' % (at + r.choice([40, 600, 1500, 2599, 2600, 3950]))]
            at += r.choice([5000, 12000, 20000])
    lines.append('%d end' % (at + r.choice([0, 3000, 1000000, 1100000])))
    return ['mon', '--from', 'edges'] + flags, '\n'.join(lines) + '\n'


def gen_step(r):
    k = r.random()
    if k < .4: a, t = gen_wire(r)
    elif k < .7: a, t = gen_run(r)
    else: a, t = gen_feat(r)
    names = [l.split()[1] for l in t.splitlines() if l.startswith('device ')]
    ops = ['84', '82', '04', '46', '47', '00', '36', '90', '8f', 'ff', '9f']
    ls = []
    for _ in range(r.choice([1, 5, 15, 40])):
        ls.append(r.choice(['edge'] * 4 + ['round'] * 3 + ['until opcode ' + r.choice(ops), 'until device ' + r.choice(names), 'until break', 'show ' + r.choice(names), 'show ' + r.choice(names)]))
        if ls[-1] == 'edge' and r.random() < .5: ls += ['edge'] * r.choice([1, 3, 10, 60])
    if r.random() < .08:
        i = r.randrange(len(ls))
        ls[i] = r.choice(['edge ', 'Edge', 'until', 'until opcode 8A', 'until opcode 8', 'until opcode 084', 'until device nosuch', 'show', 'show nosuch', '', '# c', 'until break x', 'round 3'])
    return ['step'], t + 'steps\n' + '\n'.join(ls) + r.choice(['\n', ''])


def mutate_text(r, t):
    k = r.randrange(12)
    if not t: return t
    i = r.randrange(len(t))
    if k == 0: return t[:i]
    if k == 1: return t[:i] + t[i + 1:]
    if k == 2: return t[:i] + r.choice(list('0123456789abcdefxzAF:" >.-#\t\r')) + t[i:]
    if k == 3: return t[:i] + r.choice(list('0123456789abcdefxzAF:" >.-\x7f\x80\x00')) + t[i + 1:]
    if k == 4:
        w = t.split(' '); j = r.randrange(len(w)); return ' '.join(w[:j] + w[j + 1:])
    if k == 5:
        w = t.split(' '); j = r.randrange(len(w)); return ' '.join(w[:j] + [w[j]] + w[j:])
    if k == 6:
        w = t.split(' '); j = r.randrange(len(w)); w[j] = r.choice(['', '0', '00', '1', '15', '16', '255', '256', '101', 'f.f.f.f', '"x"', ':', ':00', 'on', 'off', 'tv', 'play', 'x', w[j].upper()]); return ' '.join(w)
    if k == 7: return t + ' '
    if k == 8: return ' ' + t
    if k == 9: return t.upper()
    if k == 10: return t.replace(' ', '  ', 1)
    return t + r.choice(['0', ' 0', ' :', '"', ' x'])


def gen_asm(r):
    ls = []
    for _ in range(r.choice([1, 1, 1, 5, 20])):
        t = gen_frame(r)
        if r.random() < .3 and len(t) > 3:
            # raw spelling of any length, with perhaps a fault
            sp = t.split(' ')
            t = sp[0] + ' ' + (sp[1] if len(sp) > 1 else 'play') + ' :' + r.randbytes(r.choice([0, 1, 2, 3, 13, 14, 15, 16])).hex()
        if r.random() < .35: t = mutate_text(r, t)
        if r.random() < .03: t = r.choice(['', '#', '# 4>4', ' '])
        ls.append(t)
    return ['asm'], ('\n'.join(ls) + r.choice(['\n', '\n', ''])).encode('latin1', 'replace')


def gen_edidcmd(r):
    e = gen_edid(r)
    k = r.random()
    if k < .3:
        b = bytearray(e)
        for _ in range(r.choice([1, 1, 2, 4])): b[r.randrange(len(b))] = r.choice([0, 1, 255, r.randrange(256)])
        if r.random() < .6:
            e = b''.join(edid.mend(bytes(b[i:i + 128])) for i in range(0, len(b), 128))
        else: e = bytes(b)
    elif k < .36: e = e[:r.choice([0, 1, 64, 127, 128, 129, 255, 256, 257, 384, 511])]
    elif k < .4: e = e + r.choice([b'\0', bytes(128), gen_ext(r)])
    return ['edid'], e


def gen_edtext(r):
    e = gen_edid(r)
    t = edid.edid_text(e).decode('latin1')
    k = r.random()
    if k < .75:
        ls = t.split('\n')
        for _ in range(r.choice([1, 1, 1, 2])):
            i = r.randrange(len(ls))
            if len(ls) > 24 and r.random() < .5: i = r.randrange(20, len(ls))
            m = r.random()
            if m < .12: ls = ls[:i] + ls[i + 1:]
            elif m < .24: ls = ls[:i] + [ls[i]] + ls[i:]
            elif m < .32:
                j = r.randrange(len(ls)); ls[i], ls[j] = ls[j], ls[i]
            elif m < .45:
                ls = ls[:i] + [r.choice(['audio -', 'audio ' + '00' * r.choice([30, 31, 32]), 'vendor 030c000000', 'vendor 030c0000', 'hdmi 1.0.0.0 -', 'hdmi 1.0.0.0 ' + '00' * r.choice([25, 26, 27]),
                                 'tail -', 'tail 00', 'tail 0100', 'tail 01', 'cta f1', 'cta-none f1', 'timing 1 1 1 1 1 1 1 1 1 1 1 1 1 00', 'timing 0 1 1 1 1 1 1 1 1 1 1 1 1 00',
                                 'standard 256 0 61', 'standard 248 0 60', 'standard 2288 3 123', 'standard 2296 3 123', 'raw ' + '00' * 18, 'raw 00000001' + '00' * 14, 'raw 00000010' + '00' * 14, 'raw 000000fd' + '00' * 14,
                                 'raw 000001fd' + '00' * 14, 'raw 000000fc00' + '20' * 13, 'raw 000000fc01' + '20' * 13, 'name ""', 'name "' + 'x' * 13 + '"', 'name "' + 'x' * 14 + '"', 'name "a"b"', 'name x', 'name', 'name "a" ', 'text "a b c"', 'text a"b c"', 'range -', 'range ' + '00' * 14,
                                 'dummy ', 'ext -', 'ext ' + '00' * 128, 'ext ' + '02030001' + '00' * 123 + 'fa', 'ext ' + '02030101' + '00' * 123 + 'f9', 'extended -', 'tag0 -', 'tag1 00', 'raw ' + '00' * 17])] + ls[i:]
            else: ls[i] = mutate_text(r, ls[i])
        t = '\n'.join(ls)
    if r.random() < .05: t = t[:r.randrange(len(t))]
    return ['edid', '--text'], t.encode('latin1', 'replace')


with open(os.path.join(os.path.dirname(os.path.realpath(__file__)), '../../examples/living-room.edid'), 'rb') as example:
    EXAMPLE = example.read()


def gen_check(r):
    """an EDID near one that breaks few rules, as a display's or as a port's"""
    b = bytearray(EXAMPLE if r.random() < .6 else gen_edid(r))
    for _ in range(r.choice([0, 1, 1, 2, 4])):
        place = r.choice([r.randrange(12, 126), r.randrange(54, 126), r.randrange(128, len(b)) if len(b) > 128 else 24, 24, 16])
        if place not in (18, 19, 126):
            b[place] = r.choice([0, 1, 255, r.randrange(256), b[place] ^ 1 << r.randrange(8)])
    if r.random() < .3:
        b[19] = r.choice([3, 4])
    way = r.choice([[], [], ['--port', str(r.randint(1, 15))], ['--address', pa_word(r)]])
    if r.random() < .2 and len(b) > 128:
        # an override of the count in the place of the first data block, and perhaps another byte 126
        b[132:135] = bytes([0xe2, 0x78, r.choice([1, 1, len(b) // 128 - 1, r.randrange(4)])])
        b[126] = r.choice([1, 1, 2, 3, len(b) // 128 - 1])
        way.append('--eeodb')
    e = b''.join(edid.mend(bytes(b[i:i + 128])) for i in range(0, len(b), 128))
    return ['edid', '--check'] + way, e


def gen_ways(r):
    e = gen_edidcmd(r)[1] if r.random() < .5 else EXAMPLE
    amp = ['--port', str(r.randint(1, 15)), '--below', 'amp']
    way = r.choice([['--port', str(r.randint(1, 15))], amp, amp + ['--speakers', 'own'], ['--address', pa_word(r)], ['--only-address']])
    return ['edid'] + way + r.choice([[], ['--raw']] if way != ['--only-address'] else [[]]), e


def gen_room(r):
    """an EDID whose room is asked for, or one that is set right: bytes of it are others, and perhaps its sums and its count"""
    b = bytearray(EXAMPLE if r.random() < .5 else gen_edidcmd(r)[1])
    for _ in range(r.choice([0, 1, 1, 2, 4])):
        if b:
            b[r.randrange(len(b))] = r.choice([0, 1, 255, r.randrange(256)])
    if r.random() < .2 and len(b) > 256:
        b[128:135] = bytes([2, 3, r.choice([7, 9, 30]), 0, 0xe2, 0x78, r.randrange(4)])
    if r.random() < .3:
        b = b[:r.choice([128, 256, 384])]
    way = r.choice([['--room'], ['--room', '--mend'], ['--room', '--mend', '--eeodb'], ['--mend'], ['--mend', '--raw'], ['--mend', '--eeodb', '--raw']])
    if '--mend' not in way and len(b) % 128 == 0:
        b = b''.join(edid.mend(bytes(b[i:i + 128])) for i in range(0, len(b), 128))
    return ['edid'] + way, bytes(b)


def gen_sink(r):
    """an EDID of one block of CTA with what a receiver and a display may both have"""
    b = bytearray(EXAMPLE if r.random() < .5 else gen_edid(r, 1))
    body = b''
    some = [(1, b''.join(bytes([r.choice([9, 15, 0x3d, 0x57]), r.randrange(128), r.randrange(256)]) for _ in range(r.randint(1, 4)))),
            (2, bytes(r.choice([1, 3, 4, 16, 31, 0x90, 97]) for _ in range(r.randint(1, 8)))), (4, bytes(r.randrange(256) for _ in range(r.choice([3, 3, 4, 7])))),
            (3, bytes([3, 12, 0, r.randrange(256), r.randrange(256)] + [r.randrange(256) for _ in range(r.randint(0, 9))])),
            (3, bytes([0xd8, 0x5d, 0xc4] + [r.randrange(256) if r.random() < .7 else 0 for _ in range(r.randint(0, 12))])),
            (7, bytes([r.choice([0, 5, 6, 1, 7, 14, 15, 17, 18, 20, 0x78, 32])] + [r.randrange(256) for _ in range(r.randint(0, 6))])),
            (7, bytes([r.choice([0, 5, 6])] + [r.randrange(256) for _ in range(r.randint(0, 4))])), (7, b''), (5, b'x'), (3, b'\x46\xd0\0\1')]
    for tag, data in r.sample(some, r.randint(3, len(some))):
        if len(body) + 1 + len(data) <= 123: body += bytes([tag << 5 | len(data)]) + data
    tail = bytes(b[54:72]) * r.choice([0, 0, 1, 2]) + (b'\1' if r.random() < .1 else b'')
    b[126] = 1
    for at in (72, 90, 108):
        if r.random() < .6:
            text = b'NAME' + bytes([48 + r.randrange(10)]) + b'\n' + b' ' * 7
            b[at:at + 18] = r.choice([b'\0\0\0\xfc\0' + text, b'\0\0\0\xfc\0' + text, b'\0\0\0\xff\0' + text, b'\0\0\0\xfe\0' + text, b'\0\0\0\x10' + bytes(14)])
    ext = (bytes([2, 3, 4 + len(body), r.randrange(256)]) + body + tail)[:127].ljust(127, b'\0') + b'\0'
    return edid.mend(bytes(b[:128])) + edid.mend(ext)


def gen_merge(r):
    """two EDIDs, of which one is made, perhaps with rows, or one below an amplifier with its speakers"""
    if r.random() < .3:
        return ['edid', '--port', '2', '--below', 'amp', '--speakers', 'own'], gen_sink(r)
    rows = []
    for kind in r.sample(list(merge.ROWS), r.choice([0, 0, 1, 2, 5, 12])):
        rows.append('%s=%s' % (kind, r.choice(merge.words_of(kind))))
    two = [gen_sink(r) if r.random() < .95 else gen_edidcmd(r)[1] for _ in range(2)]
    way = r.choice([[], ['--raw'], ['--check'], ['--port', '3']])
    return ['edid', '--merge'] + (['--rows', ','.join(rows)] if rows else []) + way, b''.join(two)


def star(r, word):
    """the word with some of its bytes as a star, or more of them"""
    i, j = sorted(r.randrange(len(word) + 1) for _ in range(2))
    if r.random() < .15: return '**' if r.random() < .5 else word[:i] + '*' + word[i:]
    return word[:i] + '*' + word[j:]


def gen_pattern(r, line):
    """a pattern near what a round's line says, seldom an empty one, one with too many stars, or one that no line meets"""
    while True:
        text = near_pattern(r, line)
        if 1 <= len(text) <= 160 and text.count('*') <= 4 and patterns.is_met(text.encode()) or r.random() < .02: return text


def near_pattern(r, line):
    """what a round's line says, or a front of it, with stars; now and then next to that"""
    words = line.split(' ', 2)[2].split(' ')
    if words[0] == 'complete': words = words[1:]
    k = r.random()
    words = words[:len(words) if k < .2 else r.randrange(1, len(words) + 1)]
    for _ in range(r.choice([0, 0, 0, 1, 1, 2, 4, 5])):
        i = r.randrange(len(words))
        words[i] = star(r, words[i])
    text = ' '.join(words)
    k = r.random()
    if k < .08: text = text[:r.randrange(len(text) + 1)]
    elif k < .12: text += r.choice([' ', ' *', '*', ' -', 'x', '#', '\\'])
    elif k < .14: text = r.choice(['*', '* *', '* * * *', '* * * * *', 'short', 'silent', 'bad-start', 'bad-start -', 'complete', 'long', '4>f', '*>f active-source', '* by *', 'x' * r.choice([159, 160, 161])])
    return text


def said(r):
    """what the line of a round may say, whoever sends"""
    if r.random() < .15:
        ending, fewest, most = r.choice(patterns.ENDINGS[:-1])
        text = '%s %s' % (ending, patterns.some_bits(r, r.choice([fewest, most, min(most, fewest + r.randrange(20))])) or '-')
    else:
        frame = gen_frame(r)
        text = '%s %s' % (frame, r.choice(['ok', 'refused'] if frame[2] == 'f' else ['ack', 'nack']))
    return '%s by %s out %s' % (text, r.choice(['tv', 'p1', 'tv,p1']), r.choice(['-', 'p1@7']))


def gen_met(r):
    """one pattern near what some round says, often with a byte changed: a line that some of a hundred such texts meets is not refused"""
    while True:
        text = near_pattern(r, '0 0 ' + said(r))
        if text and r.random() < .5:
            i = r.randrange(len(text))
            text = text[:i] + r.choice('abcdefx0159 :.->"-_F') + text[i + (r.random() < .7):]
        if 1 <= len(text) <= 160 and text.count('*') <= 4: break
    whole = re.fullmatch(r'([^*@]+) (?:ok|refused|ack|nack) by [^ *]+ out [^ *]+', text)
    if not patterns.is_met(text.encode('latin1', 'replace'), ['tv', 'p1']):
        # The model by places against the meaning of a pattern.
        assert not any(expectations.fits(text.encode('latin1', 'replace'), said(r).encode()) for _ in range(100)), text
    elif whole:
        # A frame that a pattern has whole is one that `asm` takes.
        wire.assemble(whole[1].encode('latin1'))
    return ['check'], 'device tv tv 4\ndevice p1 player 0\nscript\nexpect from 0 to 1 %s\nend 1\n' % text


def gen_window(r, lines, labels, end, near):
    """a window about the round with this line, or any"""
    begin, close = (int(x) for x in near.split(' ')[:2])
    k = r.random()
    if labels and k < .55:
        label, at = r.choice(labels)
        span = close - at if at is not None and close >= at and r.random() < .8 else r.choice([0, 1, 50000, 100000, 200000, 600000, 10 ** 12])
        return 'within %d of %s' % (max(0, span + r.choice([0, 0, 0, 0, -1, 1, 100000])), label)
    low, high = begin + r.choice([0, 0, 0, -1, 1, -100000]), close + r.choice([0, 0, 0, -1, 1, 100000])
    if k > .9: low, high = r.choice([0, end // 2]), r.choice([end, 10 ** 12, end // 2])
    low, high = max(0, low), max(0, high)
    return 'from %d to %d' % (min(low, high), max(low, high)) if r.random() < .995 else 'from %d to %d' % (high, low)


REFUSALS = ['port-range', 'port-taken', 'not-loose', 'loop', 'not-plugged', 'off-wire', 'not-for-kind', 'no-address', 'own-address', 'queue-full', 'nonsense']


def with_names(r, body, trace):
    """names of devices in the place of addresses in the header of a pattern, mostly of those that hold them at the end"""
    states = [l.split(' ')[1:4] for l in trace if l.startswith('state ')]

    def name(address):
        holders = [s[0] for s in states if address in s[2].split('+')]
        if r.random() < .2 or r.random() < .9 and not holders: return address
        if r.random() < .02: return r.choice(['@nosuch', '@', '@tv@tv', '*@tv'])
        return '@' + r.choice(holders if holders and r.random() < .8 else [s[0] for s in states])
    return re.sub(r' ([0-9a-f*])>([0-9a-f*])(?= |$)', lambda m: ' %s>%s' % (name(m[1]), name(m[2])), body, count=1)


def gen_unremarked(r):
    return 'expect no-remark' + r.choice(['', ' ' + r.choice(expectations.KINDS).decode(), ' *-answer', ' bit-*', ' fre', ' '])


def gen_count(r):
    """how often a round is expected"""
    return r.choice(['', '', '', 'none ', 'once '] + [words + ' %d ' % r.choice([0, 1, 1, 2, 2, 3, 5, 9]) for words in ('exactly', 'at most', 'at least')])


def gen_expect(r):
    """a run with labels and expectations of its rounds, many at the border of what holds; a part with a line at fault"""
    trace = []
    while len(trace) < 2:
        # A run that is refused has no trace.
        args, text = r.choice([gen_run, gen_feat, gen_feat, gen_wire, gen_wire])(r)
        trace = model(['run'], text.encode())[1].decode('latin1').split('\n')
    topology, script = text.split('\nscript\n')
    lines = script.split('\n')[:-1]
    rounds = [l for l in trace if re.match(r'\d+ \d+ ', l)] or ['0 27150 complete 0>0 nack by tv out -']
    events = {l.split(' ')[2]: l.split(' ') for l in trace if ' event ' in l}
    end = int(trace[-2].split(' ')[0])
    out, labels, slips = [], [], []

    def expectation():
        near = r.choice(rounds)
        body = 'expect %s%s %s' % (gen_count(r), gen_window(r, rounds, labels, end, near), gen_pattern(r, near))
        if slips and r.random() < .3:
            label, word = r.choice(slips)
            body = 'expect refused %s%s' % (label + ' ' if r.random() < .97 else '', word if r.random() < .8 else r.choice(REFUSALS))
        elif named and r.random() < .6:
            body = with_names(r, body, trace)
        elif r.random() < .15:
            body = gen_state(r, trace, end)
        elif r.random() < .05:
            body = gen_unremarked(r)
        if r.random() < .3:
            label = 'e%d' % len(labels)
            body = 'label %s %s' % (label, body)
            labels.append((label, int(near.split(' ')[1])))
        return body
    inside = r.choice([0, .1, .3])
    named = r.random() < .3
    for n, line in enumerate(lines, 1):
        out.append((n, line))
        if r.random() < inside: out.append((None, None))
    out += [(None, None)] * r.choice([1, 2, 5, 10])
    if r.random() < .1: out.insert(r.randrange(len(out)), (None, None))
    lines = []
    for n, line in out:
        if n is None:
            line = expectation()
        elif line.startswith(('pulse ', 'pull ', 'pin ')) and r.random() < .5:
            labels.append(('l%d' % n, int(line.split(' ')[1])))
            line = 'label l%d %s' % (n, line)
        elif line.startswith('at ') and r.random() < .5 or str(n) in events and events[str(n)][3] == 'refused' and r.random() < .7:
            label = 'l%d' % n if r.random() < .995 else 'l1'
            event = events.get(str(n))
            labels.append((label, int(event[0]) if event else None))
            if event and event[3] == 'refused': slips.append((label, event[4]))
            elif r.random() < .1: slips.append((label, r.choice(REFUSALS)))
            line = 'label %s %s' % (label, line)
            if r.random() < .3:
                lines.append(line)
                line = 'expect refused ' + (event[4] if event and event[3] == 'refused' and r.random() < .9 else r.choice(REFUSALS))
        elif r.random() < .01:
            line = r.choice(['# ' + line] * 9 + ['label x # ' + line])
        lines.append(line)
    if r.random() < .25:
        special = [i for i, l in enumerate(lines) if l.startswith(('label', 'expect'))] or [0]
        i = r.choice(special)
        if r.random() < .6: lines[i] = mutate_text(r, lines[i])
        else:
            lines.insert(i, r.choice(['expect', 'expect ', 'label', 'label ', 'label x', 'label x ', 'label  at 5', 'label x expect', 'expect none', 'expect once', 'expect some from 0 to 1 *', 'expect from 0 to 1', 'expect from 0 to 1 ', 'expect from 0 to 1  ',
                                      'expect from 1 to 0 *', 'expect from 0 to 01 *', 'expect from 0 to 1000000000001 *', 'expect from 0 to 1000000000000 *', 'expect within 5 of nosuch *', 'expect within x of nosuch *', 'expect within 5 of', 'expect within 5 of l1', 'expect within 5 of  *',
                                      'expect from 0 to 18446744073709551615 *', 'expect from 0 to 18446744073709551616 *', 'expect from 0 to 1 * ', 'label y end 5', 'label y # x', 'expect refused', 'expect refused nosuch', 'expect refused off-wire', 'expect refused ', 'expect refused nosuch off-wire', 'expect refused l1 nonsense', 'expect refused l1 off-wire x', 'expect refused e0 off-wire', 'label y label z at 5 press tv power', 'label y expect within 5 of y *', 'label y expect from 0 to 1 * * * * *',
                                      'expect from 0 to 1 ' + 'x' * 160, 'expect from 0 to 1 ' + 'x' * 161, 'label y expect from 9 to 8 *', 'label l1 expect from 9 to 8 *', 'label y expect within x of nosuch ', 'expect  from 0 to 1 *', ' expect from 0 to 1 *', 'Expect from 0 to 1 *', 'expect once none from 0 to 1 *', 'expect at', 'expect at most', 'expect at most 2', 'expect at least 0 from 0 to 1 *', 'expect at last 2 from 0 to 1 *', 'expect exactly 02 from 0 to 1 *', 'expect exactly 2 from 0 to 01 *',
                                      'expect at most x from 0 to 1', 'expect exactly from 0 to 1 *', 'expect at most 18446744073709551615 from 0 to 1 *', 'expect at least 18446744073709551616 from 0 to 1 *', 'expect at most 2..5 from 0 to 1 *', 'label y expect at most 2 within 5 of y *']))
    return ['check'], topology + '\nscript\n' + '\n'.join(lines) + r.choice(['\n', '\n', ''])




def near_word(r, word):
    """another word of a state, or one next to it"""
    key, _, value = word.rpartition('=')
    if key and r.random() < .4: return '%s=%s' % (key, r.choice(['0' + value, value + '0', value + value, value.upper(), '-', '', '0', '15', '16', '17', '100', '101', str(2 ** 64 - 1), str(2 ** 64)]))
    if '+' in word and r.random() < .4: return r.choice(['-+-', '-+4', '4+-', '4+8', '+'])
    return r.choice(['on', 'active=-', 'volume=20', 'standby', word + 'x', word[:-1]])


def gen_state(r, trace, end):
    """words of a device's state line, some of them changed, at any time"""
    state = r.choice([l for l in trace if l.startswith('state ')]).split(' ')
    words = [w if r.random() < .9 else near_word(r, w) for w in r.sample(state[1:], r.choice([1, 1, 2, 4]))]
    at = r.choice([end, end, end - 1, r.randrange(end + 1), r.randrange(end + 1), end + 1 if r.random() < .1 else 1])
    return 'expect state %d %s %s%s' % (at, state[1] if r.random() < .98 else 'nosuch', 'not ' if r.random() < .25 else '', ' '.join(words))


def sweep_word(r, time):
    """a range about a time, of a few instants; seldom one at fault"""
    step = r.choice([1, 1, 1, 2, 7, 1000, 30000])
    first = max(0, time + r.choice([0, 0, -1, -2, -5, 1]) * step)
    word = '%d..%d' % (first, first + r.choice([0, 1, 2, 4, 6]) * step + r.choice([0, 0, step // 2]))
    if step > 1: word += '/%d' % step
    if r.random() < .9: return word
    return r.choice(['..', '5..', '..5', '9..8', '5..6/0', '5..6/', '5..06', '05..6', '5..6/01', '5...6', '5..1000000000001', '0..1000000', '5..6/1000000000001', '5..6..7', '5.6', word + '/', word + '.', word + '/1/1'])


def gen_sweep(r):
    """a run with expectations and a range in the place of a time, now and then of a second one"""
    args, text = gen_expect(r)
    topology, script = text.split('\nscript\n', 1)
    lines = script.split('\n')
    places = [(i, place) for i, line in enumerate(lines) for place in sweep.time_places(line.encode('latin1', 'replace').split(b' '))]
    for _ in range(r.choice([1, 1, 1, 1, 1, 1, 1, 1, 0, 2])):
        if not places: break
        i, place = r.choice(places)
        words = lines[i].split(' ')
        if place < len(words):
            words[place] = sweep_word(r, int(words[place]) if re.fullmatch('[0-9]{1,12}', words[place]) else 5)
            lines[i] = ' '.join(words)
    return args + r.choice([[], [], ['--json']]), topology + '\nscript\n' + '\n'.join(lines)


def gen_capture(r):
    """a capture with labels and expectations of its readings and remarks, many at the border of what holds; a part with a line at fault"""
    capture = r.choice([gen_mon, gen_audit, gen_audit])(r)[1]
    readings = [line.decode() for line in wire.mon(capture.encode())[1].splitlines()] or ['0 27150 complete 0>0 nack']
    remarks = captures.remarks_of(capture.encode()) if wire.mon(capture.encode())[0] == 0 else []
    out, labels = [], []
    for _ in range(r.choice([0, 2, 5, 9])):
        near = r.choice(readings)
        begin, close = (int(x) for x in near.split(' ')[:2])
        k = r.random()
        if k < .2:
            labels.append(('a%d' % len(labels), max(0, begin + r.choice([0, 0, -1, 1, -50000]))))
            out.append('label %s at %d' % labels[-1])
        elif k < .35:
            out.append(gen_unremarked(r))
        elif k < .6:
            kind, line = r.choice(remarks) if remarks and r.random() < .9 else (r.choice(expectations.KINDS), b'  no answer to 4>0 8f of 5')
            words = [kind.decode()] + line.decode()[2:].split(' ')
            words = words[:r.choice([1, 1, len(words), r.randrange(1, len(words) + 1)])]
            for _ in range(r.choice([0, 0, 1, 2])):
                i = r.randrange(len(words))
                words[i] = star(r, words[i])
            out.append('expect remark ' + ' '.join(words))
        else:
            pattern = gen_pattern(r, near)
            out.append('expect %s%s %s' % (gen_count(r), gen_window(r, readings, labels, close, near), pattern))
    if r.random() < .15:
        out.insert(r.randrange(len(out) + 1), r.choice(['', '# a remark', 'expect no-remark ', 'expect no-remark x', 'expect remark', 'expect remark fre', 'expect remark attempt',
            'expect remark * * * * *', 'label b expect no-remark', 'expect refused a off-wire', 'expect state 5 tv on', 'at 5', 'end 10', 'label x', 'label', 'label a0 at 5', 'label  at 5', 'label y at 05']))
    return ['check', '--capture', '--from', 'edges'], '\n'.join(out + ['capture', capture])


def gen_odd(r):
    g = r.choice(ODD)
    a, d = g(r)
    if isinstance(d, str): d = d.encode('latin1', 'replace')
    k = r.random()
    if k < .25: d = d[:r.randrange(len(d) + 1)]
    elif k < .75 and d:
        for _ in range(r.choice([1, 1, 1, 2, 3])):
            ls = d.decode('latin1').split('\n')
            i = r.randrange(len(ls))
            m = r.random()
            if m < .7: ls[i] = mutate_text(r, ls[i])
            elif m < .8: ls = ls[:i] + ls[i + 1:]
            elif m < .9: ls = ls[:i] + [ls[i]] + ls[i:]
            else:
                j = r.randrange(len(ls)); ls[i], ls[j] = ls[j], ls[i]
            d = '\n'.join(ls).encode('latin1', 'replace')
    elif k < .85:
        b = bytearray(d)
        for _ in range(r.choice([1, 3])):
            if b: b[r.randrange(len(b))] = r.randrange(256)
        d = bytes(b)
    elif k < .9: d = d.replace(b'\n', b'\r\n')
    elif k < .93: d = b'\xef\xbb\xbf' + d
    else:
        # special lines of topologies and scripts
        ls = d.decode('latin1').split('\n')
        i = r.randrange(len(ls))
        sp = r.choice(['device x tv 1', 'device x outside-tv 1', 'device x player 16', 'device x player 015', 'device xxxxxxxxxxxxxxx player 1', 'device -x player 1', 'device X player 1', 'device x combo 0', 'device x tv', 'device x tv 1 1',
                       'plug x y 1', 'plug x', 'plug tv tv 1', 'plug p1 tv 0', 'plug p1 tv 300', 'plug tv p1 1', 'edid 00', 'edid zz', 'edid 0', 'edid', 'edid -', 'edid ', 'device  tv 1', 'device x player ', 'device x  1',
                       'end 5', 'end', 'end 1000000000001', 'end 1000000000000', 'end 01', 'end x', 'end ', 'pulse 5 0', 'pulse 5 1', 'pulse 5 3001', 'pulse 1000000000001 1', 'pulse 5', 'pulse 5 99999999999999999999999', 'pulse 5 01', 'pulse  5', 'pull 5 0', 'pull 5 1', 'pull 5 10000000', 'pull 5 10000001', 'pull 1000000000001 1', 'pull 5', 'pull 5 99999999999999999999999', 'pull 5 01', 'pull  5', 'pin 5 0', 'pin 5 1', 'pin 5 2', 'pin 5 01', 'pin 1000000000001 0', 'pin 1000000000000 0', 'pin 5', 'pin  0', 'pin 05 0',
                       'at 5 plug p1 tv', 'at 5 plug p1 tv x', 'at 5 unplug', 'at 5 unplug x', 'at 5 unplug ', 'at 5 press tv', 'at 5 press tv ', 'at 5 press tv power ', 'at 5 press tv watch 1.0.0', 'at 5 press tv port 01', 'at 5 press tv port x', 'at 5 press x port x', 'at 5 press x power',
                       'at 5 press tv language EN', 'at 5 press tv language deu', 'at 5 press tv remote f play', 'at 5 press tv remote 0 play', 'at 5 press tv remote 4 frob', 'at 5 press tv remote 4', 'at 5 press tv audio', 'at 5 press tv audio up', 'at x press x play',
                       'at 5 send tv', 'at 5 send tv ', 'at 5 send tv attempts', 'at 5 send tv attempts 4', 'at 5 send tv attempts 0 0>4', 'at 5 send tv attempts 7 hex 04', 'at 5 send tv attempts 6 hex 04:36', 'at 5 send x hex 4', 'at 5 send tv hex', 'at 5 send tv hex 4', 'at 5 send tv hex 0x04 36', 'at 5 send tv hex 04 attempts 4', 'at 5 hold tv 1+2+3+4', 'at 5 hold tv 1+2+3+1', 'at 5 hold tv 1+2+3+4+5', 'at 5 send tv 0>f', 'at 5 send x 0>g', 'at 5 send tv 0>g', 'at 5 send tv 0>4 frob', 'at 5 send tv 0>4 play', 'at 5 send tv 0>4 play :24', 'at 5 send tv 0>4 play :' + '00' * 15, 'at 5 send tv @tv>4 image-view-on', 'at 5 send tv 0>@tv image-view-on', 'at 5 send tv @tv>@p1 standby', 'at 5 send tv @tv>f standby', 'at 5 send tv @>4', 'at 5 send tv @x>g', 'at 5 send tv @tv', 'at 5 send tv @tv>', 'at 5 send tv @tv>>4', 'at 5 send tv 00>@tv', 'at 5 send tv @tv>@tv>0', 'at 5 send tv F>@x', 'at 5 send x @x>@x', 'at 5 send tv @x>4 frob', 'at 5 send tv @tv>4 frob', 'at 5 send tv @tv>4 standby 1', 'at 5 send tv @tv>4 ', 'at 5 send tv  @tv>4', 'at 5 send tv @tv>f :' + '00' * 15, 'at 1000000000001 send tv 0>4', 'at 99999999999 send tv 0>g', 'at 5', 'at', 'script', 'steps', 'edge', 'until opcode 84'])
        ls = ls[:i] + [sp] + ls[i:]
        d = '\n'.join(ls).encode('latin1', 'replace')
    return a, d


def gen_json(r):
    """lines of runs, of captures and of reports as objects"""
    a, d = r.choice([gen_run, gen_feat, gen_wire, gen_mon, gen_expect])(r)
    room = r.choice([[], ['--room']]) if a[:1] == ['run'] else []
    return [w for w in a if w != '--edges'] + ['--json'] + room, d


def small_run(r):
    a, t = gen_wire(r)
    return a, t


ODD = [gen_run, gen_pulls_run, gen_pins_run, small_run, small_run, gen_asm, gen_edidcmd, gen_edtext, gen_mon, gen_step, gen_expect]
GEN = dict(pulls=gen_pulls_run, pins=gen_pins_run, ops=gen_ops, met=gen_met, amp=gen_amp, run=gen_run, feat=gen_feat, wire=gen_wire, edges=gen_edges, mon=gen_margin, fold=gen_fold, audit=gen_audit, step=gen_step, asm=gen_asm, edid=gen_edidcmd, edtext=gen_edtext, merge=gen_merge, check=gen_check, ways=gen_ways, room=gen_room, expect=gen_expect, sweep=gen_sweep, capture=gen_capture, json=gen_json, odd=gen_odd)


def main():
    program, kind, count, start = sys.argv[1], sys.argv[2], int(sys.argv[3]), int(sys.argv[4])
    if '/' not in program: program = './' + program
    os.nice(10)
    t0 = time.time()
    nd = 0
    stat = {}
    for n in range(count):
        r = random.Random('%s %d' % (kind, start + n))
        args, data = GEN[kind](r)
        if isinstance(data, str): data = data.encode('latin1', 'replace')
        if len(data) > 1048576: continue
        try:
            d = differs(program, args, data)
        except Exception as x:
            print('MODEL FAILS at start', start + n, repr(x))
            open('model-fails', 'wb').write(data)
            raise
        m = model(args, data) if not d else d[0]
        key = '%s %s' % (args[0], 'ok' if m[0] == 0 else ' '.join(w for w in m[2].split() if not w.isdigit()))
        stat[key] = stat.get(key, 0) + 1
        if d:
            nd += 1
            if nd > MAXDIFF: continue
            small = minimise(program, args, data)
            (ms, mo, mf), (gs, go, gf) = differs(program, args, small)
            print('=' * 30, kind, 'start', start + n, args)
            print(small.decode('latin1') if '\0' not in small.decode('latin1') else small.hex())
            print('-- model: %r %s' % (ms, mf)); print('-- found: %r %s' % (gs, gf))
            ml, gl = mo.decode('latin1').splitlines(), go.decode('latin1').splitlines()
            for i in range(max(len(ml), len(gl))):
                a = ml[i] if i < len(ml) else '(none)'
                b = gl[i] if i < len(gl) else '(none)'
                if a != b:
                    print('-- line %d expected: %s\n--        found:    %s' % (i + 1, a[:700], b[:700]))
                    break
            open('differs-%s-%d' % (kind, start + n), 'wb').write(small)
    print('%s: %d inputs from start %d, %d differ, %.0f s; %s' % (kind, count, start, nd, time.time() - t0, ', '.join('%s %d' % x for x in sorted(stat.items(), key=lambda x: -x[1])[:40])))
    return nd != 0


if __name__ == '__main__':
    sys.exit(main())
