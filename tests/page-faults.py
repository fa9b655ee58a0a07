#!/usr/bin/env python3
"""Plants a fault of the page in a copy of it, one after another, and sees the tests of tests/page.py fail.

    tests/page-faults.py BROWSER PROGRAM [NAME..]     all of them, or those whose names have one of these words
    tests/page-faults.py --apply                      only sees that each edit still applies, which takes no browser

It takes some minutes, so the gate does not run it; tests/page.sh sees that the edits apply. HDMINET_BROWSERS says how many browsers
run at once, one where it does not. The last line is 'N of M are found'.
"""
import contextlib
import io
import multiprocessing
import os
import shutil
import sys
import tempfile
import time

sys.dont_write_bytecode = True

TOP = os.path.dirname(os.path.dirname(os.path.realpath(__file__)))
ROOM, CAPTURE, WORDS, REPORT = "values_of_retries", "values_of_a_capture", "words_are_the_standards", "reports_are_shown"
EVENING, LOOSE, SEARCH = "values_of_an_evening", "values_of_a_loose_device", "searches_find"
FOLDED, PASSED = "retries_are_folded", "passed_on_edids_are_shown"
BYTES, REACHED, FIT, LIVE_BYTES = "bytes_are_shown", "bytes_are_reached", "bytes_fit", "live_bytes_are_run"
VERDICTS = "verdicts_are_shown"

# What is wrong, the file of view/, what stands there and what is planted, and the test that is to fail.
PLANTS = [
    ("a verdict that is fine", "words.js", "export const FINE = ['fine', 'mid-frame'];", "export const FINE = ['fine'];", VERDICTS),
    ("the value of a verdict's flag", "view.js", "[hint, value].filter(Boolean)", "[hint].filter(Boolean)", VERDICTS),
    ("a verdict that comes later", "view.js", "isAdded(text) || isVerdict(text) ||", "isAdded(text) ||", VERDICTS),
    ("a remedy of another verdict", "words.js", "'mid-frame': 'The first", "'in-frame': 'The first", VERDICTS),
    ("a window of CEC 5.2", "slots.js", "one: [400, 800]", "one: [400, 900]", ROOM),
    ("the names of addresses", "texts.js", "model.addresses.set(initiator, sender)", "model.addresses.set(destination, sender)", WORDS),
    ("takes it, and is taken", "words.js", "(verdict === 'nack' ? 'Nobody", "(verdict !== 'nack' ? 'Nobody", ROOM),
    ("free times", "panels.js", "12000 for a new initiator, 16800 for the last one", "16800 for a new initiator, 12000 for the last one",
     ROOM),
    ("times with five decimals", "elements.js", "toFixed(6)", "toFixed(5)", ROOM),
    ("durations ten times too large", "elements.js", "Math.round(microseconds / 100) / 10", "Math.round(microseconds / 10) / 10", ROOM),
    ("heads of lanes at the begin", "chart.js", "const at = now ? overOf(now) : 0;", "const at = 0;", ROOM),
    ("the strip's click mirrored", "strip.js", "selectAt(event.offsetX / this.width)", "selectAt(1 - event.offsetX / this.width)", ROOM),
    ("idle time from a third of a second on", "model.js", "const FOLDED_IDLE = 250000;", "const FOLDED_IDLE = 350000;", EVENING),
    ("an arbitration one slot too high", "chart.js", "at bit ${slot} of", "at bit ${slot + 1} of", ROOM),
    ("attempts that are not the audit's", "model.js", "row.attempt = said ? said.attempt : null;",
     "row.attempt = said ? said.attempt + 1 : null;", ROOM),
    ("the time since the close, from the begin", "panels.js", "round.begin - before.close", "round.begin - before.begin", ROOM),
    ("the words of two refusals", "words.js", "'not-plugged': 'it is plugged in nowhere'",
     "'not-plugged': 'the device is not joined to the television'", WORDS),
    ("a window that is out is in", "panels.js", "greatest <= to ? 'in' : bad('out')", "greatest <= to ? 'in' : 'in'", CAPTURE),
    ("the widths of another kind", "panels.js", "seen.filter(one => one.kind === kind)", "seen.filter(one => one.kind !== kind)", ROOM),
    ("the greatest width alone", "panels.js", "least >= from && greatest <= to", "greatest <= to", CAPTURE),
    ("which slot is marked", "slots.js", "one.kind === 'bit-low' && one.slot === slot", "one.kind === 'bit-low' && one.slot === slot + 1",
     CAPTURE),
    ("when a bit is read", "slots.js", "const SAMPLE = 1050;", "const SAMPLE = 1500;", ROOM),
    ("who acknowledges, before they do", "slots.js", "slots[slot].at + SAMPLE", "slots[slot].at - SAMPLE", ROOM),
    ("which address is lost", "model.js", "text: shown || '–', was: lane.shown });\n      lane.shown",
     "text: shown || '–', was: shown });\n      lane.shown", REPORT),
    ("how long a round is", "panels.js", "${round.close - round.begin} later", "${round.close - round.begin + 1} later", ROOM),
    ("free and taken", "model.js", "o.verdict === 'nack' ? 'free' : 'taken'", "o.verdict === 'ack' ? 'free' : 'taken'", ROOM),
    ("the tooltip of a head", "chart.js", "`${lane.name}, ${lane.kind}: search", "`${lane.kind}, ${lane.name}: search", ROOM),
    ("the slot at a loser's mark", "chart.js", "`out @${loser.slot}`", "`out @${loser.slot + 1}`", ROOM),
    ("the number of a block that nobody took", "model.js", "`block ${stopped.block} ${", "`block ${stopped.block + 1} ${", ROOM),
    ("the times of an ending", "words.js", "(2050..2750 after the one before)", "(2050..2700 after the one before)", WORDS),
    ("who is at a physical address", "words.js", "deviceAt(lane, round.begin)", "deviceAt(lane, 0)", ROOM),
    ("a remark without its section", "panels.js", "(section ? `${text} (CEC ${section})` : text)", "text", ROOM),
    ("notes that count as remarks", "chart.js", "row.remarks.length > 0 && svg('tspan', { class: 'warn', dx: 8 }, `⚠ ${row.remarks.length}`)",
     "row.notes.length > 0 && svg('tspan', { class: 'warn', dx: 8 }, `⚠ ${row.notes.length}`)", ROOM),
    ("times of the table, at the close", "panels.js", "    seconds(row.at), names(row.from || []),",
     "    seconds(row.until ?? row.at), names(row.from || []),", ROOM),
    ("what a deck does", "texts.js", "bytes.slice(4), operand || word", "bytes.slice(4), operand || name", WORDS),
    ("what counts as taken", "panels.js", "if (round.verdict === 'ack' || round.verdict === 'ok')", "if (round.verdict)", ROOM),
    ("who hears what is for all", "model.js", "return model.isCapture || isJoined;", "return true;", LOOSE),
    ("an address in the chart that is the last one", "model.js", "text: shown || '–', was: lane.shown });\n      lane.shown",
     "text: lane.shown || '–', was: lane.shown });\n      lane.shown", ROOM),
    ("high and low", "wave.js", "? 'low' : 'high';", "? 'high' : 'low';", ROOM),
    ("the window of a start bit", "wave.js", "(i === 0 ? WINDOWS.startTotal : WINDOWS.total)", "WINDOWS.total", ROOM),
    ("the ruler of the wave", "wave.js", "pen.fillText(seconds(t), x + 3, 10);", "pen.fillText(seconds(t + step), x + 3, 10);", ROOM),
    ("a stretch of a sweep", "panels.js", "from ${stretch.from} to ${stretch.to}`", "from ${stretch.to} to ${stretch.from}`", REPORT),
    ("the window of a test", "panels.js", "seen from ${window.from} to ${window.to} µs.", "seen from ${window.to} to ${window.from} µs.",
     REPORT),
    ("the line of an event", "panels.js", "`Line ${o.scriptLine} of the script.`", "`Line ${o.scriptLine + 1} of the script.`", ROOM),
    ("the number of an operand", "panels.js", "`operand ${i - 1}`", "`operand ${i}`", ROOM),
    ("the free time before a round", "slots.js", "wave.line.changes[i - 1] : null", "wave.line.changes[i - 2] : null", ROOM),
    ("how many rounds there are", "view.js", "counted(rounds.length, 'round')", "counted(rounds.length + 1, 'round')", ROOM),
    ("where a round is on the strip", "strip.js", "const from = row.at * scale;", "const from = (row.at + 2e5) * scale;", ROOM),
    ("who sends to whom, in a block", "panels.js", "`${addressInWords(model, byte[0])} to ${isBroadcast",
     "`${addressInWords(model, byte[1])} to ${isBroadcast", ROOM),
    ("which frame answers which", "answers.js", "71: '7a'", "71: '7e'", ROOM),
    ("the delay of an answer", "answers.js", "answer.at - answer.answers.until", "answer.at - answer.answers.at", ROOM),
    ("whom a search for a receiver finds", "find.js", "isOneOf(model, row.to, name)", "isOneOf(model, row.from, name)", SEARCH),
    ("the span of a search", "find.js", "(row.until ?? row.at) >= least", "row.at >= least", SEARCH),
    ("the active source of the room", "room.js", "'physical_address') === active)", "'physical_address') !== active)", LOOSE),
    ("the state before the row", "room.js", "recordsAt(lane, instant)])", "recordsAt(lane, instant - 1)])", LOOSE),
    ("when the state changes after an acknowledge", "model.js", "before - 1 - end < SLOT ? before - 1 : end", "end", "states_are_the_sessions"),
    ("the words of a verdict", "words.js", "nack: 'Nobody acknowledged a block.'", "nack: 'Somebody refused a block.'", ROOM),
    ("the window of an expectation that is copied", "words.js", "`expect from ${begin} to ${close} ${",
     "`expect from ${begin} to ${close - 1} ${", "live_page_runs"),
    ("where a line of the base block stands", "edid.js", "[16, 2], [20, 1]", "[16, 2], [19, 1]", BYTES),
    ("where standard timings stand", "edid.js", "[38 + 2 * i, 2]", "[36 + 2 * i, 2]", BYTES),
    ("where descriptors stand", "edid.js", "[54 + TIMING * i, TIMING]", "[72 - TIMING * i, TIMING]", BYTES),
    ("the flags of an extension without their header", "edid.js", "first + BLOCK + 4);", "first + BLOCK + 3);", BYTES),
    ("where timings of an extension begin", "edid.js", "at = first + Math.max(bytes[first + 2] || 0, 4);", "at += 0;", "bytes_are_the_programs"),
    ("the checksum of a block", "edid.js", "if (at % BLOCK === BLOCK - 1)", "if (at === BLOCK - 1)", BYTES),
    ("which timing a rule is of", "edid.js", "=== 'timing')[finding.timing - 1]", "=== 'timing')[finding.timing]", BYTES),
    ("which byte of a data block a rule is of", "edid.js", "part.from + 1 + Number(byte)", "part.from + Number(byte)", BYTES),
    ("a rule of a data block, as if it were of its length", "edid.js", "length: 'left' }[kind]", "length: 'left' }[kind || 'length']", BYTES),
    ("the video code of a rule", "edid.js", "codeOf(field) === Number(code[1])", "codeOf(field) !== Number(code[1])", BYTES),
    ("which standard timing a rule is of", "edid.js", "lines[STANDARD + n - 1]", "lines[STANDARD + n]", BYTES),
    ("which descriptor a rule is of", "edid.js", "[STANDARD, DESCRIPTOR] = [11, 19]", "[STANDARD, DESCRIPTOR] = [11, 18]", BYTES),
    ("which extension a rule is of", "edid.js", "/^(ext|cta|cta-none)$/.test(line.word))[n - 1]", "/^(cta|cta-none)$/.test(line.word))[n - 1]", BYTES),
    ("the data block that a rule names", "edid.js", "Number(placed[2]))[Number(placed[1]) - 1]", "Number(placed[2]))[Number(placed[1]) - 2]", BYTES),
    ("fields of the next byte", "edid.js", "fields.filter(field => field.at === at)", "fields.filter(field => field.at === at + 1)", BYTES),
    ("values without their zeros", "bytes.js", "value.toString(2).padStart(high - low + 1, '0')", "value.toString(2)", BYTES),
    ("the highest bit and the lowest", "bytes.js", "`bits ${high}..${low}`", "`bits ${low}..${high}`", BYTES),
    ("what a failure looks like", "bytes.js", "? 'fails' : lines.length > 0 && 'warns'", "? 'warns' : lines.length > 0 && 'fails'", BYTES),
    ("a value that is reserved", "bytes.js", "fields.some(field => field.found) && 'odd'", "fields.some(field => field.meaning) && 'odd'", BYTES),
    ("which byte of the block", "bytes.js", "byte ${at % BLOCK}: ${value}`", "byte ${at % ROW}: ${value}`", BYTES),
    ("bytes that are missing", "bytes.js", "part && part.cut > 0", "part && part.left > 0", BYTES),
    ("the end of a stretch", "bytes.js", "${hexPlace(to - 1)}`", "${hexPlace(to)}`", BYTES),
    ("the name of a part", "bytes.js", "part && lines.length > 0 && html('div', { class: 'dim' }, name)", "html('div', { class: 'dim' }, name)", BYTES),
    ("the characters of bytes", "bytes.js", "byte > 0x20 && byte < 0x7f", "byte > 0x20 && byte < 0x70", BYTES),
    ("which fields are marked", "bytes.js", "classList.toggle('is', row.dataset.at === String(at))", "classList.toggle('is', row.dataset.at !== String(at))", BYTES),
    ("which cells are selected", "bytes.js", "this.edid.owners[one] === owner);", "this.edid.owners[one] === owner && one >= at);", BYTES),
    ("what the program writes of a part", "texts.js", "BLOCK * first + within", "BLOCK * first + within + 1", BYTES),
    ("what is under the mouse", "bytes.js", "const at = this.hot ?? this.at;", "const { at } = this;", REACHED),
    ("the line under the mouse", "bytes.js", "'pointerenter': () => to > from && this.hover(this.cells[from])", "'pointerenter': () => to > from && this.hover(this.cells[to])", REACHED),
    ("a row further down", "bytes.js", "go(now + this.perRow > last ? now : now + this.perRow)", "go(now + ROW > last ? now : now + ROW)", FIT),
    ("the next broken rule", "bytes.js", "isOdd(at) && owners[at] !== owners[now]", "isOdd(at) && owners[at] === owners[now]", REACHED),
    ("the address of a byte", "view.js", "`#byte=${map.at}`", "`#byte=${map.at.toString(16)}`", REACHED),
    ("a search of bytes", "bytes.js", "this.words.every(word => stretch.find", "this.words.some(word => stretch.find", REACHED),
    ("which bytes differ", "beside.js", "!isSame(i) && bytes.add", "isSame(i) && bytes.add", REACHED),
    ("a data block that another EDID has elsewhere", "beside.js", "take(each => stretchSays(each) === stretchSays(stretch))", "take(() => true)", REACHED),
    ("contrast of bytes in the dark", "view.css", ":root[data-theme=dark] .cell { background: hsl(var(--h) 45% 17%); }", "", FIT),
    ("rows of sixteen bytes in a narrow window", "view.css", "@container (max-width: 560px)", "@container (max-width: 160px)", FIT),
    ("what is printed of an EDID", "view.css", "  .edid .grids, .edid #panel { overflow: visible; }\n", "", FIT),
    ("the line of a byte in the text", "live.js", "edid.owners[at].lines.map(line => all[line.number])", "edid.owners[at].lines.map(line => line.number)", LIVE_BYTES),
    ("the bytes of a line of the text", "live.js", "line <= cursor).length - 1", "line < cursor).length - 1", LIVE_BYTES),
    ("a byte stays selected", "live.js", "  if (before.byte !== null) app.map.select(before.byte, { isFocused: false });\n", "", LIVE_BYTES),
    ("the attempts of a folded row", "chart.js", "`▸ ${kind} 1–${row.folded.length}`", "`▸ ${kind} 1–${row.folded.length - 1}`", FOLDED),
    ("how many rows are folded", "chart.js", "` ×${row.folded.length}`", "` ×${row.folded.length - 1}`", FOLDED),
    ("the line of an event in the chart", "chart.js", "`line ${row.o.scriptLine}`", "`line ${row.o.scriptLine + 1}`", LOOSE),
    ("how many tests failed", "view.js", "`${failed} of ${all} failed`", "`${tests.length - failed} of ${all} failed`", "failures_are_drawn"),
    ("more and fewer frames", "view.js", "difference < 0 ? 'fewer' : 'more'", "difference > 0 ? 'fewer' : 'more'", "advice_is_shown"),
    ("the shapes of the strip", "strip.js", "nack: [17, 25], refused: [11, 19]", "nack: [11, 19], refused: [17, 25]", ROOM),
    ("the times of the strip", "strip.js", "const text = shortSeconds(t, step);", "const text = shortSeconds(t + step, step);", LOOSE),
    ("where events stand in the wave", "wave.js", "const x = this.x(events[i].at);", "const x = this.x(events[i].at + 20000);", LOOSE),
    ("the bytes of the wave", "wave.js", "for (let i = 1; i + 8 <= slots.length; i += 10)", "for (let i = 2; i + 8 <= slots.length; i += 10)", LOOSE),
    ("who pulls, under the mouse", "wave.js", "pulling.join(', ')", "pulling[0]", ROOM),
    ("how far cursors are from each other", "wave.js", "`B−A ${b - a} µs`", "`B−A ${b + a} µs`", "mouse_works"),
    ("cables of the row itself", "room.js", "if (event.index > row.index ||", "if (event.index >= row.index ||", LOOSE),
    ("what is in standby", "room.js", "now.power === 'standby' && 'standby'", "now.power === 'on' && 'standby'", LOOSE),
    ("the port of a cable", "room.js", "`port ${port}`", "`port ${port + 1}`", LOOSE),
    ("on and off", "words.js", "return value ? 'on' : 'off';", "return value ? 'off' : 'on';", LOOSE),
    ("who answers a poll", "words.js", "(verdict === 'nack' ? 'Nobody answers", "(verdict !== 'nack' ? 'Nobody answers", LOOSE),
    ("how long an answer may take", "answers.js", "const LONGEST = 5000000;", "const LONGEST = 500000;", WORDS),
    ("answers of another device", "answers.js", "return isTo && isFrom && (", "return isTo && (", WORDS),
    ("the name of a lane of a capture", "model.js", "/^..47/.test(bytes)", "/^..46/.test(bytes)", CAPTURE),
    ("how much later a row is", "beside.js", "${other.at - one.at} µs", "${one.at - other.at} µs", "runs_stand_beside"),
    ("how many rows are alike", "beside.js", "${counted(same, 'row')}", "${counted(same + 1, 'row')}", "runs_stand_beside"),
    ("the line of a test in the text", "live.js", "firstOfScript() + scriptLine - 1", "firstOfScript() + scriptLine", "live_page_runs"),
    ("which lines of the text fail", "live.js", "failed.has(number) && 'no'", "!failed.has(number) && 'no'", "live_page_runs"),
    ("which rows the table has", "panels.js", "`Rows ${Math.min(from + 1, to)} to", "`Rows ${from} to", LOOSE),
    ("the opcode that is searched for", "find.js", "bytes.slice(2, 4) === name", "bytes.slice(0, 2) === name", SEARCH),
    ("what a search leaves out", "find.js", "isNot ? row => !test(row) : test", "test", SEARCH),
    ("the second click on a head", "view.js", "`from:${name}` ? `to:${name}`", "`from:${name}` ? ''", SEARCH),
    ("bars of a sweep that hold", "panels.js", "= holds ? [0, 20] : [8, 12];", "= holds ? [8, 12] : [0, 20];", REPORT),
    ("the instant of a stretch", "panels.js", "app.openInstant(stretch.from) }, title)", "app.openInstant(stretch.to) }, title)", REPORT),
    ("how long a passed on EDID is", "panels.js", "`${p.edid.length / 2} bytes`", "`${p.edid.length} bytes`", PASSED),
    ("bytes that the first EDID has otherwise", "panels.js", "=== byte ? byte : bad(byte)", "!== byte ? byte : bad(byte)", PASSED),
    ("whose address is in an EDID", "panels.js", "physicalIn(app, edid))),", "physicalIn(app, first.edid))),", PASSED),
    ("where the text of an event has no room", "chart.js", "const isLeft = right < widthOf(row.text) && left > right;",
     "const isLeft = right < widthOf(row.text);", "other_sizes_fit"),
    ("where the text of a broken round has no room", "chart.js", "const isLeft = fits(-1) && (!fits(1) ||", "const isLeft = (!fits(1) ||", "other_sizes_fit"),
    ("addresses over the text of an event", "chart.js", ", ...claims.map(claim => claim.x).filter(at => at > x)) - x - 12;", ") - x - 12;", "other_sizes_fit"),
    ("a block that nobody took, of an audit", "model.js", "STOPPED.includes(said.verdict) ? said : null;", "STOPPED.includes(said.verdict) ? null : null;", ROOM),
    ("a block that somebody refused, without an audit", "model.js", "o.bits.endsWith(isBroadcast ? '0' : '1')", "o.bits.endsWith('1')",
     "capture_is_drawn"),
    ("a bit that is not read", "slots.js", "total < SAMPLE ? null : ", "", "inferences_are_the_programs"),
    ("a bit that is read late", "slots.js", "null : low > SAMPLE ? 0 : 1", "null : low > SAMPLE + 500 ? 0 : 1", "inferences_are_the_programs"),
    ("which run is beside", "beside.js", "const mark = !one ? '+'", "const mark = !one ? '−'", "runs_stand_beside"),
]


def text_of(name):
    with open(os.path.join(TOP, "view", name), encoding="utf-8") as file:
        return file.read()


def lacking():
    """The plants whose text does not stand exactly once in its file."""
    return [(what, text_of(name).count(old)) for what, name, old, _, _ in PLANTS if text_of(name).count(old) != 1]


def copy(room):
    """The page, its tools and its tests, as a checkout of its own."""
    for name in ("view", "tests"):
        shutil.copytree(os.path.join(TOP, name), os.path.join(room, name), symlinks=True)
    os.mkdir(os.path.join(room, "tools"))
    for name in ("page", "page-live", "look", "example-pages"):
        shutil.copy(os.path.join(TOP, "tools", name), os.path.join(room, "tools", name))
    os.symlink(os.path.join(TOP, "examples"), os.path.join(room, "examples"))


def plant(fault, room):
    """A copy of the page with a fault, as a checkout of its own in a folder."""
    _, name, old, new, _ = fault
    os.mkdir(room)
    copy(room)
    with open(os.path.join(room, "view", name), "w", encoding="utf-8") as file:
        file.write(text_of(name).replace(old, new))


def look(waiting, told, room):
    """Runs the test of each fault that waits, in one browser."""
    import page  # it takes the browser, the folder and the program of this process
    browser = page.Browser(page.BROWSER)
    try:
        for number in iter(waiting.get, None):
            fault, top = PLANTS[number], os.path.join(room, str(number))
            plant(fault, top)
            said = io.StringIO()
            with contextlib.redirect_stdout(said):
                page.work_in(top, room)
                browser.resize(page.WIDTH, page.HEIGHT)
                page.run(getattr(page, fault[4]), browser)
            # A page that does not even load shows nothing: some value has to differ.
            failed = [line for line in said.getvalue().splitlines() if line.startswith("not ok: ")]
            told.put((number, any("Error" not in line for line in failed), failed[0][:120] if failed else ""))
            shutil.rmtree(top)
            shutil.rmtree(page.ROOM)
    finally:
        browser.close()


def main():
    missing = lacking()
    for what, count in missing:
        print(f"page-faults: {what}: what is replaced stands {count} times")
    if missing or sys.argv[1:] == ["--apply"]:
        sys.exit(1 if missing else 0)
    browser, program, *words = sys.argv[1:]
    chosen = [number for number, one in enumerate(PLANTS) if not words or any(word in one[0] for word in words)]
    count = int(os.environ.get("HDMINET_BROWSERS", "1"))
    fork = multiprocessing.get_context("fork")
    waiting, told = fork.SimpleQueue(), fork.SimpleQueue()
    for number in [*chosen, *[None] * count]:
        waiting.put(number)
    found = 0
    with tempfile.TemporaryDirectory(prefix="hdminet-faults-") as room:
        os.environ.update(HDMINET=os.path.abspath(program), HDMINET_SHORT="1", TMPDIR=room)
        tempfile.tempdir = room
        sys.argv[1:] = [browser, room]
        browsers = [fork.Process(target=look, args=(waiting, told, room)) for _ in range(count)]
        for one in browsers:
            one.start()
        for _ in chosen:
            while told.empty() and any(one.is_alive() for one in browsers):
                time.sleep(0.1)
            if told.empty():
                break
            number, is_found, first = told.get()
            found += is_found
            print(f"{'found' if is_found else 'NOT FOUND'}: {PLANTS[number][0]}: {first}", flush=True)
        for one in browsers:
            one.join()
    print(f"page-faults: {found} of {len(chosen)} are found")
    sys.exit(0 if found == len(chosen) else 1)


if __name__ == "__main__":
    main()
