"""What tests/page.py shows: rooms, and inputs that no program wrote."""
import json
import random

# A lost arbitration, six attempts, a refused event, a device that loses its address, and a pulse that is no start bit.
RETRIES = """device tv tv 4
device amp amp 2
device p1 player 0
device p2 player 0
device dut outside 0
plug amp tv 1
plug p1 amp 1
plug p2 amp 2
plug dut tv 3
script
at 2000000 send tv 0>3 give-osd-name
at 3000000 press p1 play
at 3000000 press p2 play
at 4000000 unplug amp
at 4500000 plug amp tv 2
at 6000000 hold dut 1
at 6000000 send dut 1>f active-source 3.0.0.0
at 6000000 send dut 1>5 give-audio-status
at 6500000 send tv 0>1 give-osd-name
at 6700000 send tv 0>4 record-on :0102
pulse 7006500 700
at 7000000 send p1 4>0 image-view-on
at 7000000 send p2 8>0 image-view-on
at 7500000 press p1 volume-up
pulse 8000000 700
end 9000000
"""

MARKUP = '<img src=x onerror="window.hit=1">'


def hostile_inputs(program, room):
    """Inputs that no program of ours wrote, and changed ones of what it writes of a room: names and texts."""
    def line(**fields):
        return json.dumps(fields)
    complete = {"type": "round", "begin": 12000, "close": 39150, "ending": "complete", "initiator": "4", "destination": "0",
                "bytes": "4004", "verdict": "ack"}
    named = line(**complete, line=f"1 2 complete 4>0 x ack by {MARKUP}",
                 frame=f"4>0 {MARKUP}</script><script>window.hit=1</script>", by=[MARKUP],
                 out=[{"device": '"><svg onload=window.hit=1>', "slot": 1}])
    state = line(line=MARKUP, type="state", device=MARKUP, kind=MARKUP, logical_addresses=[MARKUP], physical_address=MARKUP,
                 osd_text=MARKUP.encode().hex())
    yield "names", ["\n".join([named, state, line(line="end", type="end", at=99999)])]
    yield "empty", [""]
    yield "blank", ["\n\n  \n"]
    yield "no text of ours", ["hello\nworld\n"]
    yield "half a line", [named[:80]]
    yield "broken lines", ["\n".join([named, '{"type":', "[1,2]", "null", "5", line(type="round"),
                                      line(type="round", begin="x", close=None),
                                      line(type="event", at=5, script_line={}, verdict=[], cause=None)])]
    yield "wrong types", ["\n".join([
        line(type="round", begin=1, close=2, ending=None, frame=5, initiator=[], destination={}, bytes=12, verdict=True, by="x",
             out={"device": 1}, bits=7),
        line(type="state", device=None, logical_addresses=5, kind={}), line(type="test", test="a", holds="yes", expectation=5),
        line(type="window"), line(type="stretch", holds=3)])]
    yield "a room that hangs below itself", ["\n".join([
        *(line(type="device", device=name, kind=MARKUP) for name in ("a", "b", MARKUP)),
        line(type="plug", device="a", parent="b", port=1), line(type="plug", device="b", parent="a", port=MARKUP),
        line(type="plug", device=MARKUP, parent=MARKUP, port=1), line(**complete, line="r", by=["a"], out=[]),
        line(line="= 5", type="horizon", at="x"), line(line="= state a", type="state", device="a", logical_addresses=5),
        line(line="= 5", type="horizon", at=5), line(line="= state", type="state", device=MARKUP, physical_address=MARKUP),
        line(line=f"= state {MARKUP}", type="state", device=MARKUP, kind=MARKUP, logical_addresses=[MARKUP], heard=MARKUP,
             active_source={"a": MARKUP}, physical_address="0.0.0.0", deck=MARKUP, osd_text=MARKUP),
        line(line=MARKUP, type="remark", remark=MARKUP, section=MARKUP, attempt="x"), line(type="note", note=5, attempt=-1)])]
    frame = {"type": "frame", "line": MARKUP, "frame": MARKUP, "bytes": "4004", "initiator": "4", "destination": MARKUP, "opcode": "04", "name": MARKUP}
    yield "what frames mean", [named, "\n".join([
        line(type="meaning", line=MARKUP), line(**frame), line(type="meaning", line=f"  {MARKUP}", sender=MARKUP, receiver=MARKUP, operand=MARKUP),
        line(type="frame", bytes=4, initiator=[], opcode={}, name=5), line(type="meaning", sender={"a": MARKUP}, receiver=[MARKUP], word=9),
        line(**{**frame, "name": "deck-status", "bytes": "401b"}), line(type="meaning", operand=None, word=MARKUP)])]
    yield "widths of no reading", ["\n".join([
        line(type="widths", kind=MARKUP, least=MARKUP), line(**{**complete, "type": "reading"}, line=MARKUP),
        line(type="widths", kind="start low", least=MARKUP, greatest=None), line(type="widths", kind=MARKUP, least=1e300, greatest=-1),
        line(type="remark", remark="start-low", slot=MARKUP, least={}), line(type="remark", remark="bit-low", slot=1e9, least=400)])]
    silent = {"type": "reading", "begin": 12000, "close": 39150, "ending": "silent", "bits": "0100000001"}
    yield "blocks that nobody took", ["\n".join([
        line(**silent, line=MARKUP), line(type="note", note="attempt", verdict=MARKUP, block=MARKUP, attempt=1),
        line(**silent, line="r"), line(type="note", note="attempt", verdict="nack", block={}, attempt=2), line(type="summary")])]
    yield "rules of no EDID", [f"fail {MARKUP}\n  {MARKUP}\n  here: {MARKUP}\n", f"warn x\n{MARKUP}\n"]
    part = {"type": "part", "block": 1, "byte": 4, "bytes": "e200cf", "name": MARKUP, "cut": 9e9, "left": MARKUP}
    field = {"type": "field", "block": 1, "byte": 4, "high": 7, "low": 5, "name": MARKUP, "value": 7, "meaning": MARKUP, "found": MARKUP}
    yield "bytes of no EDID", ["\n".join([
        line(**field), line(**part), *(line(**{**field, "byte": at}) for at in range(4, 7)), line(**part), line(**{**part, "byte": 5}),
        *(line(**{**part, **one}) for one in ({"block": 4}, {"block": -1}, {"block": 1e9}, {"byte": 126}, {"byte": None}, {"bytes": ""},
                                               {"bytes": MARKUP}, {"bytes": "e2" * 300}, {"block": 0, "byte": 0}, {"name": None})),
        *(line(**{**field, **one}) for one in ({"high": 4}, {"high": 8}, {"value": 256}, {"value": "7"}, {"byte": 127}, {"found": 5},
                                                {"found": "constructor"})),
        line(line=f"fail {MARKUP}", type="finding", timing=1e9), line(line="warn x", type="finding", timing="x")]),
        f"edid 1.3\n{MARKUP}\n  {MARKUP}\ncta\n{MARKUP}\ntail\ntiming\n" + "ext\n" * 9]
    yield "an EDID of bytes alone", ["00ffffffffffff00" + "zz", "00ffffffffffff00" + "12" * 700, "00FF FFFF FFFF FF00 1"]
    yield "huge times", ["\n".join([line(**{**complete, "begin": -1e300, "close": 1e300}, by=["a"], out=[]),
                                    line(type="round", line="a", begin=1e15, close=1, ending="short", bits="0", by=[], out=[])])]
    yield "a plain trace", ["12000 39150 complete 0>0 nack by tv out -\n"]
    yield "a dump", ["$timescale 1 us $end\n$var wire 1 ! CEC $end\n$enddefinitions $end\n"
                     "#x\n0!\n#-5\n#99999999999999999999999\n1!\nzzz\n"]
    yield "no dump", ["$enddefinitions"]
    yield "no scale", ["$timescale 7 parsecs $end $enddefinitions $end"]
    yield "names of JavaScript", ["\n".join([
        line(**{**complete, "verdict": "constructor"}, line="__proto__", by=["__proto__", "constructor"], out=[]),
        line(type="state", device="__proto__", kind="constructor", logical_addresses=["toString"])])]
    yield "a room", ["device <b> tv 4\nplug x y\nplug\nscript\nat\nlabel\n"]
    yield "control characters", ["\0\1\2" * 1000]
    yield "a long line", ['{"type":"round","line":"' + "a" * 1000000 + '"}']
    yield "edges out of order", ["5 1\n5 1\n3 0\n9 0\n9 0\n1 end\n"]
    draw = random.Random("texts")
    objects = program(room, "run", "--json")
    dump = program(room, "run", "--edges", "--as", "vcd", "--drives")

    def mutant(text):
        characters = list(text)
        for _ in range(draw.randint(1, 30)):
            at = draw.randrange(len(characters))
            kind = draw.random()
            if kind < 0.4:
                characters[at] = draw.choice('0123456789{}[]":,<>abcfxyz -\n')
            elif kind < 0.7:
                del characters[at:at + draw.randint(1, 200)]
            else:
                characters[at:at] = characters[draw.randrange(len(characters)):][:draw.randint(1, 200)]
        return "".join(characters)

    for number in range(8):
        yield f"mutant {number}", [mutant(objects), mutant(dump)] if number % 3 else [mutant(objects), dump, mutant(room)]


def random_room(draw):
    kinds = ["amp", "player", "player", "recorder", "switch", "combo", "outside"]
    frames = ["give-osd-name", "give-physical-address", "give-device-power-status", "image-view-on", "standby",
              "request-active-source", "active-source 1.0.0.0", "menu-request query", "give-deck-status on", "op-e5 :",
              "get-menu-language", 'set-osd-string hold "x"', "routing-change 1.0.0.0 2.0.0.0"]
    keys = ["play", "stop", "power", "menu", "eject", "volume-up", "audio on", "arc on", "port 2"]
    names = ["tv"]
    lines = [f"device tv {draw.choice(['tv', 'tv', 'outside-tv'])} 4"]
    free = [("tv", port) for port in range(1, 5)]
    plugs = []
    for number in range(draw.randint(1, 9)):
        kind, ports = draw.choice(kinds), draw.choice([0, 1, 1, 3])
        name = f"{kind[:2]}{number}"
        names.append(name)
        lines.append(f"device {name} {kind} {ports}")
        if free and draw.random() < 0.85:
            place = free.pop(draw.randrange(len(free)))
            plugs.append(f"plug {name} {place[0]} {place[1]}")
        free += [(name, port) for port in range(1, ports + 1)]
    lines += [*plugs, "script"]
    now = draw.choice([0, 100000, 2000000])
    next_pulse = 0
    for _ in range(draw.randint(2, 30)):
        now += draw.choice([0, 0, 1000, 60000, 300000, 1000000])
        name, chance = draw.choice(names), draw.random()
        if chance < 0.4:
            initiator, destination = draw.choice("0123456789abcdef"), draw.choice("0123456789abcdef")
            lines.append(f"at {now} send {name} {initiator}>{destination} {draw.choice(frames)}")
        elif chance < 0.55:
            lines.append(f"at {now} press {name} {draw.choice(keys)}")
        elif chance < 0.65:
            lines.append(f"at {now} unplug {name}")
        elif chance < 0.75:
            lines.append(f"at {now} plug {name} {draw.choice(names)} {draw.randint(1, 4)}")
        elif chance < 0.85:
            lines.append(f"at {now} hold {name} {draw.choice(['-', '1', '4+1', 'b', 'e', '0+5'])}")
        elif now + 500000 > next_pulse:
            width = draw.randint(1, 9000)
            at = max(next_pulse, now + draw.randint(0, 300000))
            lines.append(f"pulse {at} {width}")
            next_pulse = at + width + 25000
    return "\n".join(lines) + f"\nend {max(now, next_pulse) + 3000000}\n"


def long_room(questions=10000):
    """A room whose run has 20,000 rounds: 10,000 questions and their answers, and ten that nobody takes; or of fewer questions."""
    lines = ["device tv tv 4", "device amp amp 3", "device p1 player 0", "plug amp tv 1", "plug p1 amp 1", "script"]
    frames = ["0>4 give-osd-name", "0>5 give-audio-status", "0>4 give-device-power-status"]
    for number in range(questions):
        frame = "0>9 give-deck-status once" if number % 997 == 400 else frames[number % 3]
        lines.append(f"at {4000000 + 400000 * number} send tv {frame}")
    return "\n".join(lines) + f"\nend {5000000 + 400000 * questions}\n"
