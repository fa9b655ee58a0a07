"""What the page is to show of a run or a capture: each value from the program's objects, each word by hand. Nothing here is taken
from view/."""
import json
import re

# HDMI 1.4 CEC, table 5
ADDRESSES = ["TV", "Recording 1", "Recording 2", "Tuner 1", "Playback 1", "Audio System", "Tuner 2", "Tuner 3", "Playback 2",
             "Recording 3", "Tuner 4", "Playback 3", "the reserved address 12", "the reserved address 13", "Specific Use",
             "an unregistered device"]
# The windows of CEC 5.2.1 and 5.2.2, in the order in which the page has them
WINDOWS = {"start low": (3500, 3900), "start total": (4300, 4700), "0 low": (1300, 1700), "1 low": (400, 800),
           "bit total": (2050, 2750)}
KINDS = {"start low": "start low", "start total": "start total", "zero low": "0 low", "one low": "1 low", "bit total": "bit total"}
ENDINGS = {
    "short": "A fall came too early for the next slot (2050..2750 after the one before).",
    "silent": "No fall came in time for the next slot.",
    "bad-start": "The start bit was out of time (3500..3900 low, 4300..4700 in all).",
    "long": "A sixteenth block was not the last.",
    "open": "The capture ends before this does.",
    "joined": "The capture may have begun in the middle of a frame.",
}
VERDICTS = {
    "ack": "Each block was acknowledged.",
    "ok": "It went to all, and nobody refused it.",
    "nack": "Nobody acknowledged a block.",
    "refused": "It went to all, and somebody refused it.",
    "free": "Nobody answered the poll: its sender takes the address.",
    "taken": "Somebody acknowledged the poll: the address is taken.",
}
# docs/run.md, causes of a refused event
CAUSES = {
    "port-range": "the parent has no such port",
    "port-taken": "something is plugged into that port",
    "not-loose": "the child is plugged in already, or is the television",
    "loop": "the parent is the child, or hangs below it",
    "not-plugged": "it is plugged in nowhere",
    "off-wire": "the device is not joined to the television",
    "not-for-kind": "a device of this kind has no such key",
    "no-address": "the device has not settled yet, or the frame's initiator is not its address",
    "own-address": "the frame goes to the sender's own address",
    "queue-full": "sixteen frames wait already",
}
SAMPLE = 1050  # CEC 5.2.3: a bit is read 1,050 microseconds after its fall
FOLDED = 250000
MINUS = "–"


def in_words(digit):
    """An address as the standard has it, in a sentence."""
    return re.sub("^(Recording|Playback) ", "\\1 Device\u00a0", ADDRESSES[int(digit, 16)])


def duration(time):
    if time >= 1000000:
        return f"{(time + 500) // 1000 / 1000:g} s"
    return f"{(time + 50) // 100 / 10:g} ms" if time >= 10000 else f"{time} µs"


def seconds(time):
    return f"{time // 1000000}.{time % 1000000:06d}"


class Line:
    """The falls and rises of a line, or of a wire that pulls it."""

    def __init__(self, changes):
        self.changes = changes

    def is_low(self, at):
        return len([one for one in self.changes if one <= at]) % 2 == 1

    def slots(self, begin, end):
        """(fall, low, total) of each slot from a fall on."""
        found = []
        for i in range(0, len(self.changes), 2):
            if begin <= self.changes[i] < end:
                after = self.changes[i + 2] if i + 2 < len(self.changes) else None
                found.append((self.changes[i], self.changes[i + 1] - self.changes[i], after and after - self.changes[i]))
        return found


def wires_of(dump):
    """The wires of a dump that the program wrote: (name, its line) by identifier."""
    wires, now = {}, 0
    for line in dump.splitlines():
        word = line.split(" ")
        if word[0] == "$var":
            wires[word[3]] = (word[4], Line([]))
        elif line.startswith("#"):
            now = int(line[1:])
        elif line[:1] in "01" and now > 0 and line[1:] in wires:
            wires[line[1:]][1].changes.append(now)
    return list(wires.values())


def bits_of(dump):
    """The slots of a dump with names, as the program has them: (fall, `start`, `0`, `1`, `EOM=1` or `ACK=0`)."""
    found, now = [], 0
    for line in dump.splitlines():
        if line.startswith("#"):
            now = int(line[1:])
        elif re.match(r"s\S+ %$", line):
            found.append((now, line[1:-2]))
    return found


class Run:
    """A room's run, or a capture, as the program tells it."""

    def __init__(self, program, room=None, capture=None, flags=(), changes=()):
        self.is_capture = room is None
        if self.is_capture:
            told = program(capture, "mon", "--audit", "--json", *flags)
            timing = program(capture, "mon", "--timing", "--json", *flags)
            self.objects = [json.loads(line) for line in told.splitlines()]
            self.wires = [("CEC", Line(list(changes)))]
        else:
            self.objects = [json.loads(line) for line in program(room, "run", "--json", "--room").splitlines()]
            dump = program(room, "run", "--edges", "--as", "vcd", "--drives")
            told, timing = (program(dump, "mon", flag, "--json", "--from", "vcd") for flag in ("--audit", "--timing"))
            self.wires = wires_of(dump)
        self.audit = below([json.loads(line) for line in told.splitlines()])
        self.timing = below([json.loads(line) for line in timing.splitlines()])
        self.rounds = [one for one in self.objects if one["type"] in ("round", "reading")]
        self.devices = [one["device"] for one in self.objects if one["type"] == "state"]
        self.kinds = {one["device"]: one["kind"] for one in self.objects if one["type"] == "state"}
        frames = [one["bytes"] for one in self.rounds if "bytes" in one]
        lines = program("\n".join(frames) + "\n", "dis", "--meaning").splitlines() if frames else []
        self.sentences = dict(zip(frames, [line[2:] for line in lines if line.startswith("  ")]))
        self.opcodes = {one["bytes"][2:4]: one["frame"].split(" ")[1] for one in self.rounds if len(one.get("bytes") or "") > 2}
        self.pairs = None
        self.rows = self.rows_of()
        if not self.is_capture:
            self.states = self.states_of(program, room)

    def rows_of(self):
        """The rows of the chart: rounds, events, the end, and idle time from a quarter of a second on."""
        rows, close = [], 0
        for one in self.objects:
            at = one.get("begin", one.get("at"))
            if one["type"] not in ("round", "reading", "event", "end", "port"):
                continue
            if at - close > FOLDED and rows:
                rows.append({"type": "gap", "at": close, "until": at})
            if one["type"] == "port" and rows and rows[-1]["type"] == "port" and rows[-1]["at"] == at:
                continue
            rows.append(one)
            close = max(close, one.get("close", at)) if one["type"] != "port" else at
        return rows

    def states_of(self, program, room):
        """By row, what each device's state line says after it: of a session that has heard the whole script at first."""
        head, _, script = room.partition("script\n")
        lines = script.splitlines()
        last = [line for line in lines if line.startswith("end ")][-1]
        told = [i for i, row in enumerate(self.rows) if row["type"] in ("round", "reading", "event")]
        starts = [self.rows[i].get("begin", self.rows[i].get("at")) for i in told]
        # What is so after a row is so before the next one begins; of rows that end at one instant the last one has it.
        closes = [self.rows[i].get("close", self.rows[i].get("at")) for i in told]
        ends = [max(after, close + 1) for close, after in zip(closes, [*starts[1:], int(last.split(" ")[1])])]
        asked = [line for line in lines if not line.startswith("end ")]
        for end in ends:
            asked += [f"run to {end}", *(f"show {name}" for name in self.devices)]
        out = program("\n".join([head + "script", *asked, last, ""]), "live", "--json").splitlines()
        answers = iter([json.loads(line) for line in out if line.startswith('{"line":"= state ')])
        first = program("\n".join([head + "script", *(f"show {name}" for name in self.devices), "end 1", ""]), "live", "--json")
        known = {one["device"]: one for one in map(json.loads, first.splitlines()) if one["line"].startswith("= state ")}
        states, before = [], known
        for i in range(len(self.rows)):
            if i in told:
                known = {name: next(answers) for name in self.devices}
            states.append((before, known))
            before = known
        return states

    def answers(self):
        """Pairs of a request and the first frame that answers it, within five seconds: by the names of the messages (CEC 13)."""
        if self.pairs is None:
            self.pairs, taken = [], set()
            whole = [one for one in self.rounds if one["ending"] == "complete" and one["verdict"] in ("ack", "ok") and len(one["bytes"]) > 2]
            for number, answer in enumerate(whole):
                for request in whole[:number]:
                    if id(request) in taken or answer["begin"] - request["close"] > 5000000 or not is_answer(request, answer):
                        continue
                    taken.add(id(request))
                    self.pairs.append((request, answer))
                    break
        return self.pairs

    def lanes(self):
        """The lanes of a capture: who sends or acknowledges."""
        sent = {sender_of(one) for one in self.rounds} - {""}
        return sorted(sent | {one["destination"] for one in self.rounds if one.get("verdict") == "ack" and one["destination"] != "f"})

    def remarks(self, one):
        return [below for below in self.audit.get((one["begin"], one["close"]), []) if below["type"] == "remark"]

    def notes(self, one):
        return [below for below in self.audit.get((one["begin"], one["close"]), []) if below["type"] == "note"]

    def attempt(self, one):
        found = [below["attempt"] for below in [*self.remarks(one), *self.notes(one)] if "attempt" in below]
        return found[0] if found else None


def below(objects):
    """By begin and close of a reading what stands below it."""
    found, last = {}, None
    for one in objects:
        if one["type"] == "reading":
            last = found.setdefault((one["begin"], one["close"]), [])
        elif one["type"] == "summary":
            last = found.setdefault("all readings", [])
        elif last is not None:
            last.append(one)
    return found


# CEC 13: which message answers which
REPLIES = {"give-osd-name": "set-osd-name", "give-physical-address": "report-physical-address", "give-device-vendor-id": "device-vendor-id",
           "get-cec-version": "cec-version", "get-menu-language": "set-menu-language", "give-device-power-status": "report-power-status",
           "give-audio-status": "report-audio-status", "give-system-audio-mode-status": "system-audio-mode-status",
           "system-audio-mode-request": "set-system-audio-mode", "give-deck-status": "deck-status", "menu-request": "menu-status",
           "give-tuner-device-status": "tuner-device-status", "request-active-source": "active-source"}


def is_answer(request, answer):
    asked, said = request["frame"].split(" ")[1], answer["frame"].split(" ")[1]
    is_to = answer["destination"] in (request["initiator"], "f")
    is_from = request["destination"] in (answer["initiator"], "f")
    is_abort = said == "feature-abort" and answer["bytes"][4:6] == request["bytes"][2:4]
    if is_abort and (asked == "feature-abort" or request["destination"] == "f" and asked not in REPLIES):
        return False
    return is_to and is_from and (is_abort or REPLIES.get(asked) == said)


def logical(state):
    return "+".join(filter(None, state["logical_addresses"])) if state["physical_address"] else ""


def head(state):
    """The third line of a head: a device's addresses at an instant."""
    if not state["physical_address"]:
        return "not joined"
    return f"{logical(state) or MINUS} {state['physical_address']}"


def sender_of(one):
    bits = one.get("bits") or ""
    return one.get("initiator") or (f"{int(bits[:4], 2):x}" if len(bits) >= 4 else "")


def is_poll(one):
    return len(one.get("bytes") or "") == 2 and one["initiator"] == one["destination"]


def stopped(one):
    """A round that is silent after whole blocks, the last of which nobody took or somebody refused."""
    bits = one.get("bits") or ""
    if one["ending"] != "silent" or not bits or len(bits) % 10:
        return None
    is_broadcast = bits[4:8] == "1111"
    return {True: {"0": "refused"}, False: {"1": "nack"}}[is_broadcast].get(bits[-1])


def label(one):
    if one["ending"] == "complete":
        if len(one["frame"]) > 3:
            return one["frame"][4:]
        return f"poll {one['initiator']}" + ("" if is_poll(one) else f" to {one['destination']}")
    bits = one.get("bits") or ""
    if stopped(one):
        return f"block {len(bits) // 10} " + ("not acknowledged" if stopped(one) == "nack" else "refused")
    if one["ending"] == "joined":
        return "read before the line was first idle"
    return one["ending"] + (f" after {bits}" if bits else "")


def verdict(one):
    if one["ending"] != "complete":
        return one["ending"]
    return {"nack": "free", "ack": "taken"}[one["verdict"]] if is_poll(one) else one["verdict"]


class Page:
    """What the page shows of a row of a run."""

    def __init__(self, run, number):
        self.run = run
        self.row = run.rows[number]
        self.before, self.after = run.states[number]

    def heads(self):
        return [[device, self.run.kinds[device], head(self.after[device])] for device in self.run.devices]

    def party(self, name):
        return f"{name} ({logical(self.before[name])})" if logical(self.before[name]) else name

    def senders(self):
        one = self.row
        if one["by"] or not stopped(one):
            return one["by"]
        last = max(out["slot"] for out in one["out"])
        return [out["device"] for out in one["out"] if out["slot"] == last]

    def receivers(self):
        one = self.row
        to = one.get("destination") or (f"{int(one['bits'][4:8], 2):x}" if len(one.get("bits") or "") >= 8 else "")
        if (one["ending"] != "complete" and not stopped(one)) or is_poll(one):
            return to, []
        holds = {name: to in logical(state).split("+") if to != "f" else bool(state["physical_address"])
                 for name, state in self.before.items()}
        return to, [name for name in self.run.devices if holds[name] and name not in self.senders()]

    def losers(self):
        return [out for out in self.row["out"] if out["device"] not in self.senders()]

    def why(self, out):
        slot = out["slot"]
        if slot <= 4:
            return f"{out['device']} lost the arbitration at bit {slot} of the initiator's address"
        return f"{out['device']} stopped at slot {slot}, block {-(-slot // 10)} bit {(slot - 1) % 10 + 1}"

    def sentence(self):
        before = reversed(self.before.items())
        return self.sentence_with({state["physical_address"]: name for name, state in before if state["physical_address"]})

    def sentence_with(self, places):
        """The program's sentence, and after each physical address in it who is there."""
        one = self.row
        if one["ending"] != "complete":
            if stopped(one):
                why = "nobody acknowledged" if stopped(one) == "nack" else "somebody refused"
                return f"The sender stopped there, since {why} the block. What it wanted to say is not on the line."
            return ENDINGS[one["ending"]]
        said = self.run.sentences[one["bytes"]]
        if '"' not in said:
            said = re.sub(r"\b[0-9a-f](\.[0-9a-f]){3}\b", lambda at: f"{at[0]} ({places[at[0]]})" if at[0] in places else at[0], said)
        said = said[0].upper() + said[1:] + "."
        if is_poll(one):
            said += " Nobody answers: it takes it." if one["verdict"] == "nack" else " Somebody acknowledges: it is taken."
        return said

    def verdict_in_words(self):
        one = self.row
        words = VERDICTS[stopped(one) or verdict(one)] if stopped(one) or verdict(one) in VERDICTS else ENDINGS[one["ending"]]
        remarks = "; ".join(remark["line"].strip() for remark in self.run.remarks(one))
        return f"{words} ⚠ {remarks}" if remarks else words

    def parties(self):
        one = self.row
        to, receivers = self.receivers()
        rows = [["From", " and ".join(self.party(name) for name in self.senders()) or (f"address {to}" and MINUS)]]
        if to:
            nobody = f"address {to}" + ("" if one.get("verdict") == "ack" else ", which nobody here holds")
            rows.append(["To", "all" if to == "f" else " and ".join(self.party(name) for name in receivers) or nobody])
        if self.losers():
            rows.append(["Out", "; ".join(self.why(out) for out in self.losers())])
        if self.run.attempt(one) is not None:
            rows.append(["Attempt", str(self.run.attempt(one))])
        rows += [["Begin", f"{one['begin']} µs"], ["Close", f"{one['close']} µs, {one['close'] - one['begin']} later"]]
        place = self.run.rounds.index(one)
        if place > 0:
            since = one["begin"] - self.run.rounds[place - 1]["close"]
            rows.append(["Before", f"{since} µs since the close of the round above"])
        answers = self.run.answers()
        for request, answer in answers:
            delay = duration(answer["begin"] - request["close"])
            if request is one:
                rows.append(["Answer", f"{label(answer)}, {delay}"])
        for request, answer in answers:
            if answer is one:
                rows.append(["Answers", f"{label(request)}, {duration(answer['begin'] - request['close'])}"])
        return rows

    def blocks(self):
        """The table of blocks: names, bytes, what they mean, who pulled their acknowledge slot."""
        one = self.row
        if not one.get("bytes"):
            return None
        data = re.findall("..", one["bytes"])
        is_broadcast = one["destination"] == "f"
        rows = []
        for i, byte in enumerate(data):
            meaning = ""
            if i == 0:
                meaning = f"{in_words(byte[0])} to {'all' if is_broadcast else in_words(byte[1])}"
            elif i == 1:
                meaning = self.run.opcodes[byte]
            elif data[1] in ("47", "64", "67", "32") and 0x20 <= int(byte, 16) < 0x7f:
                meaning = f"'{chr(int(byte, 16))}'"
            who = self.pulling(10 * (i + 1))
            taken = f"{'refused' if is_broadcast else 'acknowledged'} by {', '.join(who)}" if who else ""
            rows.append([["header", "opcode"][i] if i < 2 else f"operand {i - 1}", byte, meaning, taken])
        return rows

    def pulling(self, slot):
        if self.run.is_capture:
            return []
        line, *wires = self.run.wires
        at = line[1].slots(self.row["begin"], self.row["close"])[slot][0] + SAMPLE
        return ["a pulse" if name == "pulses" else name for name, wire in wires if wire.is_low(at)]

    def widths(self):
        """The table of widths, of what the audit measured, by the windows of the standard."""
        found = {}
        for one in self.run.timing[self.row["begin"], self.row["close"]]:
            if one["type"] == "widths":
                found[KINDS[one["kind"]]] = (one["least"], one["greatest"])
        rows = []
        for name, (least, most) in WINDOWS.items():
            if name in found:
                first, last = found[name]
                rows.append([name, str(first) if first == last else f"{first}..{last}", f"{least}..{most}",
                             "in" if least <= first and last <= most else "out"])
        return rows

    def free(self):
        """How long the line was high before the round; the free times are those of CEC 9.1 from the last bit's rise on."""
        line = self.run.wires[0][1].changes
        rises = [at for at in line[1::2] if at < self.row["begin"]]
        if not rises:
            return None
        free = self.row["begin"] - rises[-1]
        due = " (7200 to send again, 12000 for a new initiator, 16800 for the last one)" if free >= 7200 else ""
        return f"The line was high for {free} µs before{due}."

    def claims(self):
        """The addresses that devices have from here on."""
        return [f"{name} {logical(self.after[name]) or MINUS}" for name in self.run.devices
                if logical(self.after[name]) != logical(self.before[name])]


# docs/run.md, the state line; CEC 17, Deck Info
DECKS = {"11": "play", "12": "record", "13": "play reverse", "14": "still", "15": "slow", "16": "slow reverse", "17": "fast forward",
         "18": "fast reverse", "19": "no media", "1a": "stop", "1b": "skip forward", "1c": "skip reverse", "1d": "index search forward",
         "1e": "index search reverse", "1f": "other"}


def state_cell(key, value, opcodes):
    """A field of a state in the table of devices at the end."""
    if value is None:
        return MINUS
    if key == "deck":
        return DECKS[value]
    if key in ("menu_language", "osd_text"):
        return bytes.fromhex(value).decode()
    if isinstance(value, bool):
        return "on" if value else "off"
    if isinstance(value, list):
        return "+".join(one or MINUS for one in value)
    if isinstance(value, dict):
        return f"{opcodes.get(value['opcode'], value['opcode'])} from {value['initiator']}"
    return str(value)


def states_table(run):
    states = [one for one in run.objects if one["type"] == "state"]
    keys = [key for key in states[0] if key not in ("line", "type", "device", "kind")]
    rows = [[key.replace("_", " "), *(state_cell(key, state[key], run.opcodes) for state in states)] for key in keys]
    return [["", *run.devices], ["kind", *(run.kinds[name] for name in run.devices)], *rows]


def talk_table(run, pages):
    """Who sent what: rounds, and how many of them were taken."""
    counts = {}
    for page in pages:
        one = page.row
        who = " ".join(page.senders()) or "?"
        if one["ending"] == "complete":
            what = "poll" if len(one["bytes"]) == 2 else one["frame"].split(" ")[1]
        else:
            what = label(one) if stopped(one) else one["ending"]
        found = counts.setdefault((who, what), [0, 0])
        found[0] += 1
        found[1] += one.get("verdict") in ("ack", "ok")
    return {(who, what): tuple(found) for (who, what), found in counts.items()}


def grid_row(page):
    """A row of the table of rows: its time, who, to whom, what, verdict, addresses from here on, remarks."""
    run, one = page.run, page.row
    to, receivers = page.receivers()
    attempt = run.attempt(one)
    what = label(one) + "".join(f"; {page.why(out)}" for out in page.losers())
    what += f"; attempt {attempt}" if attempt and attempt > 1 else ""
    return [seconds(one["begin"]), ", ".join(page.senders()), "all" if to == "f" else ", ".join(receivers) or to, what, verdict(one),
            ", ".join(page.claims()), "; ".join(remark["line"].strip() for remark in run.remarks(one))]


CLASSES = ["ack", "ok", "nack", "refused", "broken", "poll", "event"]


def class_of(one):
    if one["type"] == "event":
        return "event"
    if stopped(one):
        return stopped(one)
    if one["ending"] != "complete":
        return "broken"
    return "poll" if is_poll(one) else one["verdict"]


class PageOfCapture(Page):
    """What it shows of a reading: a lane is an address there, with the name and the place that it has told so far."""

    def __init__(self, run, number):
        self.run = run
        self.row = run.rows[number]
        self.so_far = [row for row in run.rows[:number + 1] if row["type"] == "reading"]

    def name_of(self, digit):
        told = [one["bytes"] for one in self.run.rounds if one.get("initiator") == digit and one["bytes"][2:4] == "47"]
        return bytes.fromhex(told[-1][4:]).decode() if told else ""

    def place_of(self, digit, rows):
        told = [one["bytes"] for one in rows if one.get("initiator") == digit and one["bytes"][2:4] == "84"]
        return ".".join(told[-1][4:8]) if told else ""

    def heads(self):
        return [[self.name_of(digit) or ADDRESSES[int(digit, 16)], "", f"{digit} {self.place_of(digit, self.so_far) or MINUS}"]
                for digit in self.run.lanes()]

    def party(self, digit):
        name = self.name_of(digit)
        return (f'"{name}" ' if name else "") + f"{ADDRESSES[int(digit, 16)]} ({digit})"

    def senders(self):
        return [sender_of(self.row)] if sender_of(self.row) else []

    def losers(self):
        return []

    def claims(self):
        return []

    def receivers(self):
        one = self.row
        to = one.get("destination") or (f"{int(one['bits'][4:8], 2):x}" if len(one.get("bits") or "") >= 8 else "")
        if (one["ending"] != "complete" and not stopped(one)) or is_poll(one):
            return to, []
        return to, [digit for digit in self.run.lanes() if digit not in self.senders() and to in ("f", digit)]

    def sentence(self):
        before = [one for one in self.so_far if one["close"] <= self.row["begin"]]
        places = {self.place_of(digit, before): self.name_of(digit) or digit for digit in reversed(self.run.lanes())}
        places.pop("", None)
        return self.sentence_with(places)

    def parties(self):
        rows = super().parties()
        if is_poll(self.row):
            rows[0][1] = "a device without an address"
        return rows
