#!/usr/bin/env python3
"""python3 model.py SUB [flag] < input: the model as a program; fault text on standard error."""
import sys
import audit, captures, check, net, objects, sweep, wire, edid

LIMIT = 1048576


def margin_of(args):
    """the margin that is asked for"""
    return int(args[args.index('--margin') + 1]) if '--margin' in args else 0


def plain(data):
    """a capture without the byte order mark at its front and the carriage return at the end of each line"""
    data = data.removeprefix(b'\xef\xbb\xbf').replace(b'\r\n', b'\n')
    return data.removesuffix(b'\r')


def model(args, data):
    """(status, output, fault) of the subcommand on these bytes"""
    if len(data) > LIMIT:
        return 3, b'', 'input too long'
    sub = args[0] if args else 'run'
    if '--from' in args:
        place = args.index('--from')
        return model(args[:place] + args[place + 2:], plain(data))
    if '--json' in args:
        status, out, fault = model([word for word in args if word not in ('--json', '--room')], data)
        if '--room' in args:
            return status, objects.room_objects(data, out) if out else b'', fault
        if sub == 'mon' and ('--audit' in args or '--timing' in args):
            return status, objects.objects(out, objects.audit_told_of), fault
        told_of = objects.told_of if sub != 'check' else objects.report_told_of if out.startswith(b'TAP') else objects.stretch_told_of
        return status, objects.objects(out, told_of), fault
    if sub == 'mon' and '--invert' in args:
        return model([word for word in args if word != '--invert'], wire.turned(data)) if wire.mon(data)[0] == 0 else wire.mon(data)
    if sub == 'mon' and '--scale' in args:
        status, out, fault = wire.mon(data)
        if status: return status, out, fault
        place = args.index('--scale')
        line = wire.scaled(data, args[place + 1])
        return model(args[:place] + args[place + 2:], line) if line else (1, b'', 'scale: late')
    if sub == 'mon' and '--fold' in args:
        status, out, fault = model([word for word in args if word != '--fold'], data)
        return status, wire.folded(out), fault
    if sub == 'run': return net.run(data, '--edges' in args)
    if sub == 'check' and '--capture' in args: return captures.check(data)
    if sub == 'check': return sweep.check(data)
    if sub == 'step': return net.step(data)
    if sub == 'mon' and ('--audit' in args or '--timing' in args):
        status, out, fault = audit.audit(data, '--timing' in args, margin_of(args))
        if '--strict' in args and objects.has_remark(out): return 1, out, 'the audit has a remark'
        return status, out, fault
    if sub == 'mon': return wire.mon(data, margin_of(args))
    if sub == 'asm': return wire.asm(data)
    if sub == 'edid' and '--text' in args:
        status, out, fault = edid.text_cmd(data)
        return status, bytes.fromhex(out.decode()) if '--raw' in args else out, fault
    if sub == 'edid': return check.edid_way(args, data) if args[1:] else edid.edid_cmd(data)
    return 2, b'', 'command line'


if __name__ == '__main__':
    st, out, fault = model(sys.argv[1:], sys.stdin.buffer.read())
    sys.stdout.buffer.write(out)
    if fault: sys.stderr.write('hdminet: ' + fault + '\n')
    sys.exit(st)
