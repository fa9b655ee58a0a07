#!/usr/bin/env python3
"""page.py BROWSER ROOM [TEST..]: the tests of tests/page.sh. ROOM is a folder for what they make; HDMINET names the program, and
HDMINET_BROWSERS how many browsers run at once. With HDMINET_TIMES each test says what time it has taken, and with HDMINET_MANY
those that draw at random draw 1,000 edits and 30,000 states; HDMINET_SEED draws other ones. With HDMINET_SHORT a test ends with
the first check that fails.
"""
import http.client
import importlib.machinery
import importlib.util
import json
import multiprocessing
import os
import random
import re
import signal
import socket
import subprocess
import sys
import tempfile
import time

import page_edids
import page_values
from browser import Browser, HEIGHT, WIDTH
from page_inputs import hostile_inputs, long_room, MARKUP, random_room, RETRIES

# Whether tests draw as much at random as the page was once looked at with, which takes some minutes.
IS_MANY = bool(os.environ.get("HDMINET_MANY"))
SEED = os.environ.get("HDMINET_SEED", "")
IS_SHORT = bool(os.environ.get("HDMINET_SHORT"))
EDITS, STATES = (1000, 30000) if IS_MANY else (12, 600)
TOP = os.path.dirname(os.path.dirname(os.path.realpath(__file__)))
EXAMPLES = os.path.join(TOP, "examples")
PROGRAM = os.environ["HDMINET"]
BROWSER, ROOM = sys.argv[1:3]
BARE = os.path.join(ROOM, "bare.html")

# What the tests ask of the page, in the page: what is drawn of a row, by the names of the lanes that the marks stand at.
HELPERS = r"""
window.testing = {
  app: hdminet.app,
  rowOf(text, nth = 0) {
    return this.app.model.rows.filter(row => (row.o ? row.o.line : row.text || '').includes(text))[nth];
  },
  laneAt(x) {
    const { chart, model } = this.app;
    const i = model.lanes.findIndex((_, lane) => Math.abs(chart.laneX(lane) - x) < 0.6);
    return i < 0 ? 'open' : model.lanes[i].name;
  },
  drawn(text, nth = 0, found = null) {
    const { app } = this;
    const row = found || this.rowOf(text, nth);
    if (!row) throw new Error(`no row ${text}`);
    if (row.into) app.toggle(row);
    app.chart.box.scrollTop = app.chart.tops[row.place];
    app.chart.draw();
    const group = document.getElementById(`row${row.index}`);
    const all = (selector, of) => [...group.querySelectorAll(selector)].map(of);
    const box = group.querySelector('.hit').getBoundingClientRect();
    const top = document.elementFromPoint(box.x + 300, box.y + box.height / 2);
    const arrows = all('path.arrow', path => {
      const [, from, to] = /^M(\S+) \S+?H?(?:H(\S+))?$/.exec(path.getAttribute('d').replace(/l.*|h.*|a.*/, '')) || [];
      return { from: this.laneAt(Number(from)), to: to === undefined ? '' : this.laneAt(Number(to)) };
    });
    const style = selector => getComputedStyle(group.querySelector(selector) || group);
    return {
      cls: [...group.classList].filter(name => !['row', 'banded'].includes(name)).join(' '),
      arrows, colour: style('.arrow').stroke, isDashed: style('.arrow').strokeDasharray !== 'none',
      senders: all('circle.solid[r="3.4"]', dot => this.laneAt(Number(dot.getAttribute('cx')))),
      hearers: all('circle.solid[r="2.6"]', dot => this.laneAt(Number(dot.getAttribute('cx')))),
      heads: all('path.solid', path => this.laneAt(Number(/^M(\S+)/.exec(path.getAttribute('d'))[1]))),
      crosses: all('.cross', () => 1).length, circles: all('circle.hollow', () => 1).length,
      losers: all('.lost', path => this.laneAt(Number(/^M(\S+)/.exec(path.getAttribute('d'))[1]) + 4)),
      outs: all('.warn', one => one.textContent).filter(text => text.startsWith('out')),
      verdict: all('.verdict', one => one.textContent).join(), label: all('.label', one => one.textContent).join(),
      notes: all('.note', one => one.textContent).join(), claims: all('.claim + text', one => one.textContent).join(),
      isVisible: Boolean(top && top.closest(`#row${row.index}`)),
    };
  },
  /* Whether a wire of the wave is drawn low at an instant: by the pixels of the canvas. */
  isLow(wire, instant) {
    const { wave, chart } = this.app;
    wave.scroll = 0;
    wave.draw();
    const top = 20 + 46 + wire * 24;
    const scale = devicePixelRatio || 1;
    const pen = wave.canvas.getContext('2d');
    const ink = y => {
      const pixels = pen.getImageData(Math.round(wave.x(instant) * scale), Math.round(y * scale) - 1, 1, 3).data;
      return [3, 7, 11].some(i => pixels[i] > 90);
    };
    const [high, middle, low] = [ink(top + 5), ink(top + 12), ink(top + 20)];
    const found = `${[high, middle, low]}`;
    if (wire > 0) return { 'true,true,true': true, 'true,false,false': false }[found] ?? found; // what is low is filled
    return high === low ? found : low;
  },
  panel() {
    return document.getElementById('panel').textContent;
  },
  /* All that is shown of a row once it is selected: in the chart, in the heads, and in the side panel. */
  shown(index) {
    const { app } = this;
    const row = app.model.rows[index];
    app.banded = null;
    app.openPanel('selected');
    app.select(row);
    app.chart.draw();
    const group = document.getElementById(`row${row.index}`);
    const texts = (root, selector) => [...root.querySelectorAll(selector)].map(one => one.textContent);
    const cells = table => [...table.rows].map(tr => [...tr.cells].map(cell => cell.textContent));
    const content = document.querySelector('#panel > div');
    const parts = { tables: {}, lists: {}, texts: [] };
    let above = '';
    for (const one of content.children) {
      if (/^H\d$/.test(one.tagName)) above = one.textContent;
      else if (one.tagName === 'TABLE') parts.tables[above] = cells(one);
      else if (one.tagName === 'DETAILS') parts.tables[one.firstChild.textContent] = cells(one.querySelector('table'));
      else if (one.tagName === 'UL') parts.lists[above] = texts(one, 'li');
      else parts.texts.push(one.textContent);
    }
    const claims = [...group.querySelectorAll('.claim')].map(box => {
      const x = Number(box.getAttribute('x')) + Number(box.getAttribute('width')) + 7;
      return `${this.laneAt(x)} ${box.nextElementSibling.textContent}`;
    });
    return {
      type: row.type, at: row.at, time: texts(group, '.time').join(), label: texts(group, '.label').join(),
      verdict: texts(group, '.verdict').join(), notes: texts(group, '.note'), warnings: texts(group, '.warn'),
      titles: texts(group, '.lost title'), claims, about: texts(group, 'title.about').join(),
      verdictTitle: texts(group, 'g g > title').join(),
      name: group.getAttribute('aria-label'), heads: [...document.querySelectorAll('#heads g')].map(head => texts(head, 'text')),
      hints: texts(document, '#heads title'), odd: texts(content, 'details .bad'), title: texts(content, 'h2').join(), marks: this.drawn('', 0, row), ...parts,
    };
  },
  /* Where the strip has a row: what a click at its middle selects. */
  clicked(index) {
    const { app } = this;
    const row = app.model.rows[index];
    const strip = document.getElementById('strip');
    const box = strip.getBoundingClientRect();
    const x = box.x + (row.at / app.model.end) * box.width;
    strip.dispatchEvent(new MouseEvent('click', { clientX: x, clientY: box.y + 10, bubbles: true }));
    return [app.selected.at, (2 * app.model.end) / box.width];
  },
  /* What the wave has of some rounds, by their lines: its texts, where its ruler's times stand, what it reads at some instants. */
  waves(asked) {
    const { wave, model } = this.app;
    return asked.map(([line, instants]) => {
      wave.showRound(this.rowOf(line).o);
      wave.cursors = [null, null];
      const texts = this.written(() => wave.draw());
      const marks = texts.filter(([text]) => /^\d+\.\d{6}$/.test(text)).map(([text, x]) => [x, wave.x(Number(text) * 1e6) + 3]);
      return { words: texts.map(([text]) => text), marks, read: instants.map(at => wave.readingAt(at, model.wave.line)) };
    });
  },
  /* The texts that a canvas draws. */
  written(draw, kind = CanvasRenderingContext2D) {
    const plain = kind.prototype.fillText;
    const found = [];
    kind.prototype.fillText = function write(text, x, y) {
      found.push([text, x, y]);
      plain.call(this, text, x, y);
    };
    draw();
    kind.prototype.fillText = plain;
    return found;
  },
  /* The times of the strip's axis, and where each stands. */
  axis() {
    const { strip, model } = this.app;
    const texts = this.written(() => strip.whole(Math.round(strip.width), 1), OffscreenCanvasRenderingContext2D);
    return texts.map(([text, x]) => [text, x, Math.round(strip.x(Number(text) * 1e6)) + 3, model.end]);
  },
  /* At which heights of the strip each round that is wide enough there is drawn: in the middle between its ends. */
  shapes(heights) {
    const { model, strip: { picture } } = this.app;
    const pen = picture.getContext('2d');
    const scale = devicePixelRatio || 1;
    const wide = model.rows.filter(row => row.type === 'round' && row.until - row.at > (3.5 * model.end) / picture.width);
    return wide.map(row => {
      const x = Math.round(((row.at + row.until) / 2 / model.end) * picture.width);
      return [row.o.line, heights.map(y => pen.getImageData(x, Math.round(y * scale), 1, 1).data[3] > 0)];
    });
  },
  /* What the wave has of a stretch: the bytes, and where events are marked. */
  stretch(from, to) {
    const { wave } = this.app;
    const lines = [];
    wave.see(from, to);
    wave.line = (...points) => lines.push(points);
    const texts = this.written(() => wave.draw());
    delete wave.line;
    const marks = lines.filter(([[, top]]) => top === 20).map(([[x]]) => x);
    const bytes = texts.filter(([text, , y]) => /^[0-9a-f]{2}$/.test(text) && y > 40).map(([text, x]) => [text, x]);
    return { bytes, marks, from: wave.from, to: wave.to, left: wave.x(wave.from), right: wave.x(wave.to) };
  },
  /* The boxes and the cables of the room after a row. */
  room(index) {
    const { app } = this;
    app.openPanel('room');
    app.select(app.model.rows[index]);
    const map = document.querySelector('#panel .map');
    const texts = one => [...one.querySelectorAll('text')].map(text => text.textContent);
    return [[...map.querySelectorAll('g[data-device]')].map(box => [box.dataset.device, box.getAttribute('class'), ...texts(box)]),
      [...map.querySelectorAll('.cable')].map(path => [path.classList.contains('way'), path.nextElementSibling.textContent])];
  },
};
true
"""


class Enough(Exception):
    """A check has failed, and no further one is asked for."""


class Tests:
    def __init__(self):
        self.passed = 0
        self.failed = 0

    def same(self, what, got, wanted):
        self.holds(what, got == wanted, f"got {got!r}, wanted {wanted!r}")

    def holds(self, what, is_so, why=""):
        if is_so:
            self.passed += 1
        else:
            self.failed += 1
            said = f"not ok: {what}: {why}"[:1500]
            print(said)
            if IS_SHORT and "Error" not in said:
                raise Enough


def program(data, *flags):
    done = subprocess.run([PROGRAM, *flags], input=data.encode(), capture_output=True, check=False)
    return done.stdout.decode()


def read(path):
    with open(path, encoding="utf-8") as file:
        return file.read()


def example(name):
    return read(os.path.join(EXAMPLES, name))


def written(name, text):
    path = os.path.join(ROOM, name)
    with open(path, "w", encoding="utf-8") as file:
        file.write(text)
    return path


def page_tool():
    """tools/page as a module, read anew."""
    loader = importlib.machinery.SourceFileLoader("page", os.path.join(TOP, "tools/page"))
    tool = importlib.util.module_from_spec(importlib.util.spec_from_loader("page", loader))
    loader.exec_module(tool)
    return tool


TOOL = page_tool()
MADE = {}


def page_of(path, *flags):
    """The page of a file, as tools/page makes it: of the same text once."""
    with open(path, "rb") as file:
        key = (path, file.read(), flags)
    if key not in MADE:
        MADE[key] = os.path.join(ROOM, f"{len(MADE)}-{os.path.basename(path)}.html")
        try:
            TOOL.main([path, "-o", MADE[key], *flags])
        except SystemExit as fault:
            raise RuntimeError(f"tools/page {path}: {fault}") from None
    return MADE[key]


def show(b, path, *flags):
    b.open(page_of(path, *flags))
    b.js(HELPERS)


def drawn(b, text, nth=0):
    return b.js(f"testing.drawn({json.dumps(text)}, {nth})")


def load(b, *texts):
    parts = json.dumps([{"name": f"text {i}", "text": text} for i, text in enumerate(texts)])
    b.js(f"(async () => {{ await hdminet.app.load({parts}); }})()")


def verdicts_are_drawn(t, b):
    """A frame of each verdict: who sent it, where its arrow ends, its colour, its word."""
    show(b, os.path.join(EXAMPLES, "living-room-evening.net"))
    style = "getComputedStyle(document.documentElement).getPropertyValue('--%s').trim()"
    colour = {name: b.js(style % name) for name in ("ack", "ok", "refused", "broken", "poll", "nack")}
    as_rgb = {name: f"rgb({int(c[1:3], 16)}, {int(c[3:5], 16)}, {int(c[5:7], 16)})" for name, c in colour.items()}

    ack = drawn(b, "4>0 image-view-on ack")
    t.same("ack: the arrow", [ack["senders"], ack["arrows"], ack["heads"]], [["p1"], [{"from": "p1", "to": "tv"}], ["tv"]])
    t.same("ack: what it says", [ack["cls"], ack["colour"], ack["verdict"], ack["label"], ack["isVisible"]],
           ["ack", as_rgb["ack"], "ack", "image-view-on", True])
    ok = drawn(b, "5>f report-physical-address 1.0.0.0")
    t.same("ok: from the amplifier to all that are joined", [ok["arrows"], ok["senders"], ok["hearers"], ok["heads"]],
           [[{"from": "tv", "to": "rec"}], ["amp"], ["p1", "sw"], ["tv", "rec"]])
    t.same("ok: what it says", [ok["cls"], ok["colour"], ok["verdict"]], ["ok", as_rgb["ok"], "ok"])
    refused = drawn(b, "0>f request-active-source refused")
    t.same("refused, which is remarked", [refused["cls"], refused["colour"], refused["verdict"], refused["crosses"]],
           ["refused", as_rgb["refused"], "refused⚠ 1", 1])
    short = drawn(b, " short 0")
    t.same("short", [short["cls"], short["colour"], short["verdict"], short["label"], short["isDashed"], short["senders"]],
           ["broken", as_rgb["broken"], "short⚠ 1", "short after 0", True, ["p1"]])
    free = drawn(b, "0>0 nack by tv")
    t.same("a poll that nobody took", [free["cls"], free["verdict"], free["claims"]], ["poll", "free", "0"])
    t.same("its loser in the arbitration", [free["losers"], free["outs"]], [["sw"], ["out @1"]])
    taken = drawn(b, "4>4 ack by p2")
    t.same("a poll that was taken", [taken["cls"], taken["verdict"], taken["label"]], ["poll", "taken", "poll 4"])
    t.same("no note of a disagreement", b.js("testing.app.model.faults"), [])

    show(b, written("retries.net", RETRIES))
    nack = drawn(b, "by - out tv@10")
    t.same("nack: nobody holds the address", [nack["cls"], nack["colour"], nack["senders"], nack["crosses"], nack["circles"]],
           ["nack", as_rgb["nack"], ["tv"], 1, 1])
    bad = drawn(b, " bad-start ")
    t.same("a bad start begins at the border", [bad["cls"], bad["verdict"], bad["senders"]], ["broken", "bad-start⚠ 1", ["open"]])


def colours_differ(t, b):
    """In both themes each verdict has a colour of its own, which can be read on the page: a contrast of 4.5 (WCAG 2, 1.4.3)."""
    b.open(BARE)

    def luminance(colour):
        parts = [int(colour[i:i + 2], 16) / 255 for i in (1, 3, 5)]
        red, green, blue = [part / 12.92 if part <= 0.04045 else ((part + 0.055) / 1.055) ** 2.4 for part in parts]
        return 0.2126 * red + 0.7152 * green + 0.0722 * blue

    for theme in ("light", "dark"):
        b.js(f"hdminet.app.setTheme('{theme}')")
        colours = b.js("hdminet.app.colours")
        verdicts = [colours[name] for name in ("ack", "ok", "nack", "refused", "broken", "poll", "event")]
        t.same(f"{theme}: colours of their own", len(set(verdicts)), len(verdicts))
        for below in ("bg", "panel", "select", "band"):
            ground = b.js(f"getComputedStyle(document.documentElement).getPropertyValue('--{below}').trim()")
            for colour in [*verdicts, colours["ink"], colours["dim"]]:
                dark, light = sorted([luminance(colour), luminance(ground)])
                contrast = (light + 0.05) / (dark + 0.05)
                t.holds(f"{theme}: {colour} on {below}", contrast >= 4.5, f"{contrast:.2f}")
    b.js("hdminet.app.setTheme('light')")


def retries_are_folded(t, b):
    """Attempts of one frame that failed alike are one row, which unfolds."""
    show(b, written("retries.net", RETRIES))
    first = "testing.app.model.rows.find(row => row.cls === 'nack')"
    attempts = b.js(f"{first}.attempts")
    t.same("a frame that nobody takes is tried again five times (CEC 7.1)", attempts, 6)
    folded = drawn(b, b.js(f"{first}.o.line"))
    t.same("the folded row", [folded["verdict"], folded["notes"], folded["circles"]],
           [f"silent ×{attempts}", f"▸ attempts 1–{attempts}", 1])
    before = b.js("testing.app.chart.shown.length")
    b.js(f"testing.app.toggle({first})")
    t.same("unfolded rows", b.js("testing.app.chart.shown.length") - before, attempts - 1)
    second = b.js(f"testing.app.model.rows.filter(row => row.first === {first})[1].o.line")
    t.same("the second attempt", drawn(b, second)["notes"], "attempt 2")
    refused = drawn(b, "event 14 refused")
    t.same("a refused event", [refused["label"], refused["cls"]], ["press p1 volume-up", "event"])
    lost = drawn(b, "event 4 ok")
    t.same("lost addresses", [lost["label"], lost["claims"]], ["unplug amp", "–,–,–"])
    t.holds("and what to look at says so",
            "p1 loses the address 4: unplug amp" in b.js("testing.app.openPanel('look'), testing.panel()"))
    boxes = b.js("(group => ['.label', '.lost', '.warn'].map(one => group.querySelector(one).getBoundingClientRect().toJSON()))"
                 "(testing.drawn(' short 0') && document.getElementById(`row${testing.rowOf(' short 0').index}`))")
    meet = [one for one in boxes[1:] if one["left"] < boxes[0]["right"] and boxes[0]["left"] < one["right"]]
    t.same("the mark of a loser is clear of the text of a broken round", meet, [])
    race = drawn(b, "4>0 image-view-on ack by p1 out p2@1")
    t.same("a lost arbitration", [race["senders"], race["losers"], race["outs"]], [["p1"], ["p2"], ["out @1"]])


def wave_is_drawn(t, b):
    """The levels of the line and of each device, by pixels; bits, acknowledgers and cursors."""
    show(b, os.path.join(EXAMPLES, "first-path.net"))
    b.js("testing.app.select(testing.rowOf('4>0 image-view-on'))")
    b.settle()
    t.same("the wave shows what is selected", b.js("[testing.app.wave.from < 1000000, testing.app.wave.to > 1051150]"),
           [True, True])
    # CEC 5.2: a start bit is low for 3,700 of 4,500; block 0 ends with an ACK at slot 10, of 2,400 each
    begin = 1000000
    ack = begin + 4500 + 9 * 2400
    wires = ["CEC", "tv", "p1"]
    t.same("the wires", b.js("testing.app.wave.wires.map(wire => wire.name)"), [*wires, "pulses"])
    for wire, instant, wanted in [("CEC", begin - 600, False), ("CEC", begin + 1500, True), ("CEC", begin + 4100, False),
                                  ("CEC", ack + 1000, True), ("tv", ack + 1000, True), ("p1", ack + 1000, False),
                                  ("tv", begin + 1500, False), ("p1", begin + 1500, True)]:
        t.same(f"{wire} at {instant}", b.js(f"testing.isLow({wires.index(wire)}, {instant})"), wanted)
    t.same("who acknowledged", b.js("hdminet.acknowledgersOf(testing.app.model, testing.rowOf('4>0 image-view-on').o)"),
           [["tv"], ["tv"]])
    t.holds("the panel says so", "acknowledged by tv" in b.js("testing.panel()"), b.js("testing.panel()"))
    b.js("document.getElementById('line').focus()")
    for key in ("f", ".", ">", ">"):
        b.key(key)
    b.settle()
    t.same("cursors stand on edges",
           b.js("testing.app.wave.cursors.every(at => testing.app.model.wave.line.changes.includes(at))"), True)
    t.same("their distance is read",
           bool(re.search(r"A \d+   B \d+   B−A \d+ µs", b.js("document.getElementById('reading').textContent"))), True)


def other_lines_are_noticed(t, b):
    """A wave that is not the line of the rounds has no bits; a state that is not what is inferred is a note."""
    b.open(BARE)
    b.js(HELPERS)
    room = example("first-path.net")
    objects = program(room, "run", "--json")
    dump = program(room, "run", "--edges", "--as", "vcd", "--drives")
    slots = "testing.app.model.rounds.filter(round => hdminet.slotsOf(testing.app.model, round)).length"
    load(b, objects, dump, room)
    t.same("the same run", [b.js(slots), b.js("testing.app.model.faults")], [6, []])
    load(b, objects.replace('"bytes":"4004"', '"bytes":"400d"'), dump, room)
    t.same("another byte", b.js(slots), 5)
    b.js("testing.app.select(testing.rowOf('4>0 image-view-on'))")
    t.holds("which the panel says", "not the line that this was read of" in b.js("testing.panel()"), b.js("testing.panel()"))
    load(b, objects.replace('"logical_addresses":["4"]', '"logical_addresses":["8"]'), dump, room)
    t.holds("another address at the end", any("p1" in fault and "8" in fault for fault in b.js("testing.app.model.faults")),
            b.js("testing.app.model.faults"))


def capture_is_drawn(t, b):
    """A capture with faults: what the audit remarks, and what is not read as a frame."""
    show(b, os.path.join(EXAMPLES, "capture.sigrok.vcd"))
    bad = drawn(b, " bad-start ")
    t.same("a bad start", [bad["cls"], bad["label"]], ["broken", "bad-start"])
    t.holds("its remark", "⚠ 1" in bad["verdict"], bad["verdict"])
    b.js("testing.app.select(testing.rowOf(' bad-start '))")
    t.holds("the remark in words", "start low 400 not 3500..3900" in b.js("testing.panel()"), b.js("testing.panel()"))
    b.js("testing.app.select(testing.rowOf(' complete 0>0 '))")
    t.holds("who polls for an address has none yet", "a device without an address" in b.js("testing.panel()"), b.js("testing.panel()"))
    broadcast = drawn(b, "0>f report-physical-address 0.0.0.0 tv ok")
    t.same("a lane is an address", [broadcast["cls"], broadcast["senders"]], ["ok", ["0"]])
    # What a run has not: readings that go on at the end, that begin before the line was idle, and that are too long
    def reading(at, ending, bits):
        return json.dumps({"line": f"{at} {at + 9000} {ending} {bits}", "type": "reading", "begin": at, "close": at + 9000,
                           "ending": ending, "bits": bits})
    load(b,
         "\n".join([reading(0, "joined", ""), reading(60000, "open", "0100"), reading(120000, "long", "01000000" + "0" * 151)]))
    joined, still, long = drawn(b, " joined "), drawn(b, " open "), drawn(b, " long ")
    t.same("joined", [joined["cls"], joined["label"]], ["idle", "read before the line was first idle"])
    t.same("open", [still["cls"], still["verdict"], still["senders"]], ["broken", "open", ["4"]])
    t.same("long", [long["cls"], long["verdict"]], ["broken", "long"])
    # Without an audit the last bit of whole blocks says who did not take them: to one device a 1, to all a 0
    stops = [("0100000001", ["nack", "block 1 not acknowledged"]), ("0100000000", ["broken", "silent after 0100000000"]),
             ("01001111001000001000", ["refused", "block 2 refused"]), ("0100111101", ["broken", "silent after 0100111101"]),
             ("010000000", ["broken", "silent after 010000000"])]
    load(b, "\n".join(reading(60000 * i, "silent", bits) for i, (bits, _) in enumerate(stops)))
    t.same("where a sender stops", b.js("testing.app.model.rounds.map(o => [o.row.cls, o.row.text])"), [wanted for _, wanted in stops])
    # What an audit notes is no remark
    remark = {"line": "  free 1 of 2", "type": "remark", "remark": "free", "section": "9.1", "width": 1, "due": 2}
    note = {"line": "  read 0>8", "type": "note", "note": "read", "section": None, "initiator": "0"}
    load(b, "\n".join([reading(10, "silent", "0000100001"), json.dumps(remark), json.dumps(note)]))
    noted = b.js("(row => [row.remarks, row.notes].map(list => list.map(one => `${one.text} ${one.section}`)))"
                 "(testing.app.model.rows.find(row => row.remarks && row.remarks.length > 0))")
    t.same("a note of an audit is no remark", noted, [["free 1 of 2 9.1"], ["read 0>8 "]])
    # Chatter and slow bits: the run's line, each 40th rise late by 300, and spikes of 18 that --glitch leaves out
    edges = [line.split() for line in program(RETRIES, "run", "--edges").splitlines()]
    lines = ["$timescale 1 us $end", "$var wire 1 ! CEC $end", "$enddefinitions $end", "#0", "1!"]
    for i, (at, level) in enumerate(edges):
        late = 300 if level == "1" and i % 40 == 21 else 0
        if level != "end":
            lines += [f"#{int(at) + late}", f"{level}!"]
            if level == "1" and i % 60 == 31:
                lines += [f"#{int(at) + late + 12}", "0!", f"#{int(at) + late + 30}", "1!"]
        else:
            lines += [f"#{int(at) - 9000}", "0!", f"#{int(at) - 8950}", "1!", f"#{at}"]
            spike = int(at) - 9000
    show(b, written("faulty.vcd", "\n".join(lines) + "\n"), "--glitch", "50")
    t.same("what is as long as --glitch says stays", b.js("testing.app.model.wave.line.changes.slice(-2)"), [spike, spike + 50])
    t.same("as the program reads it", b.js("testing.app.model.rounds.at(-1).line"), f"{spike} {spike + 50} bad-start -")
    t.holds("remarks of widths", b.js("testing.app.model.rows.filter(row => (row.remarks || []).length > 0).length") > 5)
    t.same("bits of all readings", b.js(
        "testing.app.model.rounds.filter(o => o.ending === 'complete' && !hdminet.slotsOf(testing.app.model, o)).length"), 0)
    out = "testing.app.model.rounds.find(o => o.row.remarks.some(one => / low \\d+ not /.test(one.text)))"
    b.js(f"testing.app.select({out}.row)")
    marked = b.js("[...document.querySelectorAll('#panel td .bad')].map(one => one.textContent)")
    t.holds("a width out of its window is marked", "out" in marked, marked)


def values_of_room(t, b, name, room):
    """Each value that the page shows of a room's run is the program's: chart, heads, side panel, wave, strip and tooltips."""
    run = page_values.Run(program, room=room)
    show(b, written(name, room))
    rows_are_shown(t, b, name, run, page_values.Page)
    hints = [f"{one}, {run.kinds[one]}: search for what it sends, and then for what it is sent" for one in run.devices]
    t.same(f"{name}: hints", b.js("testing.shown(0).hints"), hints)
    panels_are_shown(t, b, name, run)
    wave_is_shown(t, b, name, run)
    stretches_are_shown(t, b, name, run)
    room_is_shown(t, b, name, run)
    strip_is_shown(t, b, name, run)


def values_of_an_evening(t, b):
    """An amplifier, a switch, a recorder and players, half a minute of them."""
    values_of_room(t, b, "evening.net", example("living-room-evening.net"))


def values_of_retries(t, b):
    """Attempts, a lost arbitration, refusals, pulses, and devices that lose their place."""
    values_of_room(t, b, "retries.net", RETRIES)


# A device that hangs nowhere, and a deck that plays.
LOOSE = """device tv tv 4
device p1 player 0
device p2 player 0
plug p1 tv 1
script
at 2000000 press p1 play
at 2500000 plug p2 tv 2
at 3500000 unplug p1
end 4000000
"""


def values_of_a_loose_device(t, b):
    """Who hangs nowhere hears nothing; a deck that plays."""
    values_of_room(t, b, "loose.net", LOOSE)
    t.same("the boxes of the room at the end", b.js(
        "testing.app.openPanel('room'), testing.app.goTo(testing.app.chart.shown.length - 1),"
        " [...document.querySelectorAll('.map g[data-device]')].map(box => [...box.querySelectorAll('text')].map(one => one.textContent))"),
           [["tv", "0 0.0.0.0", "tv on"], ["p1", "not joined", "player on"], ["p2", "8 2.0.0.0", "player on"]])
    b.js("testing.app.select(testing.rowOf('active-source 1.0.0.0'))")
    t.same("the active source and its way", b.js("['.active text', '.way + text', '.sending text'].map(selector =>"
                                                " document.querySelector(`.map ${selector}`).textContent)"),
           ["▶ p1 ●", "port 1", "▶ p1 ●"])
    changed = b.js("[...document.querySelectorAll('#panel .changed')].map(cell => [cell.parentNode.cells[0].textContent,"
                   " cell.textContent, cell.title])")
    t.holds("what the row changed", ["active source", "1.0.0.0", "was –"] in changed, changed)


def boxes_of(run, number):
    """The boxes and the cables of the room after a row: by the session's states, and by the room's plugs and events."""
    row, after = run.rows[number], run.states[number][1]
    senders = page_values.Page(run, number).senders() if row["type"] == "round" else []
    root = [name for name in run.devices if after[name]["physical_address"] == "0.0.0.0"]
    active = after[root[0]]["active_source"] if root else None
    source = [name for name in run.devices if active and after[name]["physical_address"] == active][:1]
    cables = {one["device"]: (one["parent"], one["port"]) for one in run.objects if one["type"] == "plug"}
    for one in run.rows[:number + 1]:
        if one["type"] == "event" and one["verdict"] == "ok" and one["verb"] in ("plug", "unplug"):
            cables.pop(one["device"], None)
            if one["verb"] == "plug":
                _, device, parent, port = one["text"].split(" ")
                cables[device] = (parent, int(port))
    way, last = [], source[0] if source else None
    while last in cables and last not in way:
        way.append(last)
        last = cables[last][0]
    boxes = []
    for name in run.devices:
        state = after[name]
        is_off = not state["physical_address"]
        marks = ["off" if is_off else "", "standby" if state["power"] == "standby" else "", "active" if name in source else "",
                 "sending" if name in senders else ""]
        addresses = "+".join(one or page_values.MINUS for one in state["logical_addresses"]) or page_values.MINUS
        boxes.append([name, " ".join(filter(None, marks)), f"{'▶ ' if name in senders else ''}{name}{' ●' if name in source else ''}",
                      "not joined" if is_off else f"{addresses} {state['physical_address']}", f"{run.kinds[name]} {state['power'] or ''}".strip()])
    return [boxes, [[name in way, f"port {cables[name][1]}"] for name in run.devices if name in cables]]


def room_is_shown(t, b, name, run):
    """Each device's state after each row, in the panel of the room, is what the program's session says; so are the boxes."""
    told = [number for number, row in enumerate(run.rows) if row["type"] in ("round", "event")]
    for number, got in zip(told, b.js(f"{json.dumps(told)}.map(index => testing.room(index))")):
        t.same(f"{name}: the boxes after {run.rows[number]['line']}", got, boxes_of(run, number))
    got = b.js("(testing.app.openPanel('room'), testing.app.model.rows.map(row => { testing.app.select(row); return " + TABLE + "[0]; }))")
    for number, (row, cells) in enumerate(zip(run.rows, got)):
        if row["type"] in ("round", "event"):
            after = run.states[number][1]
            keys = [key for key in after[run.devices[0]] if key not in ("line", "type", "device", "kind")]
            t.same(f"{name}: the room after {row['line']}", cells[1:], [
                [key.replace("_", " "), *(page_values.state_cell(key, after[device][key], run.opcodes) for device in run.devices)]
                for key in keys])


def states_are_the_sessions(t, b):
    """At random instants, half of them soon after the close of a round, each device's state is what a session of `live` says there:
    of random rooms and of a long one."""
    draw = random.Random(f"instants{SEED}")
    compared, differ = 0, []
    while compared < STATES:
        room = long_room(2000) if compared == 0 else random_room(draw)
        closes = [json.loads(line)["close"] for line in program(room, "run", "--json").splitlines() if '"type":"round"' in line]
        if not closes:
            continue
        name = f"instants-{compared}.net"
        b.open(page_of(written(name, room)))
        devices = re.findall(r"^device (\S+)", room, re.M)
        end = int(re.findall(r"^end (\d+)", room, re.M)[-1])
        count = STATES // 6 if compared == 0 else max(STATES // 150, 20)
        soon = {min(draw.choice(closes) + draw.randrange(1, 1500), end - 1) for _ in range(count // 2)}
        instants = sorted(soon.union(draw.sample(range(1, end), count - len(soon))))
        got = b.js(f"{json.dumps(instants)}.map(at => hdminet.app.model.lanes.map(lane => (now => now && now.state && now.state.line)"
                   "(hdminet.deviceAt(lane, at - 1))))")
        head, _, script = room.partition("script\n")
        timed = [(int(line.split(" ")[1]), 0, line) for line in script.splitlines() if re.match(r"at |pulse ", line)]
        # Of one instant a session takes what the script has before it is asked
        asked = "\n".join(line for _, _, line in sorted(
            [*timed, *((at, 1, "\n".join([f"run to {at}", *(f"show {name}" for name in devices)])) for at in instants)],
            key=lambda one: one[:2]))
        told = [line[2:] for line in program(f"{head}script\n{asked}\nend {end}\n", "live").splitlines() if line.startswith("= state ")]
        t.same(f"{name}: what the session says", len(told), len(devices) * len(instants))
        found = [state.removeprefix("= ") for states in got for state in states]
        differ += [(name, one, other) for one, other in zip(found, told) if one != other]
        compared += len(told)
    t.same(f"states at {compared} instants of devices", differ[:5], [])
    t.same("how many differ", len(differ), 0)
    if IS_MANY:
        print(f"page: {compared} states at random instants are those of live")


def values_of_a_capture(t, b):
    """A capture: each fortieth rise comes late by 300, and each sixtieth by as much too early."""
    rows = [(int(at), level) for at, level in (line.split() for line in program(RETRIES, "run", "--edges").splitlines())]
    rows = [(at + 300 * (level == "1") * ((i % 40 == 21) - (i % 60 == 31)), level) for i, (at, level) in enumerate(rows)]
    text = "".join(f"{at} {level}\n" for at, level in rows)
    wide = ["--margin", "200"]
    run = page_values.Run(program, capture=text, flags=wide, changes=[at for at, level in rows if level != "end"])
    show(b, written("faulty.edges", text), *wide)
    rows_are_shown(t, b, "faulty.edges", run, page_values.PageOfCapture)
    hints = [f"{digit}, {page_values.ADDRESSES[int(digit, 16)]}: search for what it sends, and then for what it is sent" for digit in run.lanes()]
    t.same("faulty.edges: hints", b.js("testing.shown(0).hints"), hints)
    # Names and places that devices tell
    text = program(example("living-room-evening.net"), "run", "--edges")
    run = page_values.Run(program, capture=text)
    show(b, written("evening.edges", text))
    last = [number for number, row in enumerate(run.rows) if row["type"] == "reading"][-1]
    heads = page_values.PageOfCapture(run, last).heads()
    got = b.js(f"testing.shown({last}).heads")
    t.same("evening.edges: heads", [one for one in got if "…" not in one[0]], [one for one in heads if one[2][0] != "f"])  # a long name is cut
    t.holds("some have told a name", any(name not in page_values.ADDRESSES for name, _, _ in heads), heads)


def rows_are_shown(t, b, name, run, kind):
    unfold = ("testing.app.model.rows.forEach(row => { if (row.first) testing.app.unfolded.add(row.first); });"
              " testing.app.filter(), testing.app.model.rows.map((_, index) => testing.shown(index))")
    kinds = {"reading": "round", "port": "ports"}
    all_got = b.js(unfold)
    t.same(f"{name}: the rows", [[got["type"], got["at"]] for got in all_got],
           [[kinds.get(row["type"], row["type"]), row.get("begin", row.get("at"))] for row in run.rows])
    for number, (row, got) in enumerate(zip(run.rows, all_got)):
        what = f"{name}: {row.get('line', row)}"
        page = kind(run, number) if row["type"] in ("round", "reading", "event") else None
        if page:
            t.same(f"{what}: heads", got["heads"], page.heads())
            t.same(f"{what}: claims", sorted(got["claims"]), sorted(page.claims()))
            t.same(f"{what}: time", got["time"], page_values.seconds(row.get("begin", row.get("at"))))
            t.same(f"{what}: its name", got["name"], row["line"])
        if row["type"] in ("round", "reading"):
            round_is_shown(t, what, got, page)
        elif row["type"] == "event":
            event_is_shown(t, what, got, row)
        elif row["type"] == "gap":
            idle = page_values.duration(row["until"] - row["at"])
            t.same(what, [got["notes"], got["texts"]],
                   [[f"idle {idle}"], [f"Nothing for {idle}, from {row['at']} to {row['until']} µs."]])
        elif row["type"] == "end":
            t.same(what, [got["notes"], got["texts"]], [["end"], [f"The run ends at {row['at']} µs."]])


TABLE = ("[...document.querySelectorAll('#panel table')].map(table => [...table.rows].map(tr => [...tr.cells]"
         ".map(cell => cell.textContent)))")


def panels_are_shown(t, b, name, run):
    """The tables of a run: each row, each device at the end, who sent what; and the counts above."""
    pages = [page_values.Page(run, number) for number, row in enumerate(run.rows) if row["type"] == "round"]
    b.js("testing.app.openPanel('table'), testing.app.openTable(0)")
    rows = [row for row in b.js(TABLE)[0][1:] if row[1] or row[2] or row[4] in ("free", "taken", "bad-start", "short", "silent")]
    t.same(f"{name}: the table of rows", rows, [page_values.grid_row(page) for page in pages])
    shown = b.js("testing.app.chart.shown.length")
    t.same(f"{name}: which rows the table has", b.js("document.querySelector('#panel p').textContent").strip(), f"Rows 1 to {shown} of {shown}.")
    b.js("testing.app.openPanel('devices')")
    t.same(f"{name}: at the end", b.js(TABLE)[0], page_values.states_table(run))
    b.js("testing.app.openPanel('talk')")
    who, found = "", {}
    for row in b.js(TABLE)[0][1:]:
        who = row[0] or who
        found[who, row[1]] = tuple(map(int, row[2:]))
    t.same(f"{name}: who sent what", found, page_values.talk_table(run, pages))
    classes = [page_values.class_of(row) for row in run.rows if row["type"] in ("round", "event")]
    t.same(f"{name}: the chips", b.js("[...document.querySelectorAll('.chip')].map(chip => chip.textContent)"),
           [f"{one} {classes.count(one)}" for one in page_values.CLASSES if one in classes])
    t.same(f"{name}: the counts", b.js("document.getElementById('counts').textContent"), f"{len(run.rounds)} rounds")


# What is to look at in the run of RETRIES, by hand from its trace: losses, refusals, what broke, and the audit's remarks.
TO_LOOK_AT = [
    ["0.397523", "address 4 is taken: not for p2", "×2"],
    ["2.000000", "tv to 3: not acknowledged, 6 attempts", ""],
    ["3.000000", "p2 lost the arbitration at bit 1 of the initiator's address", ""],
    ["4.000000", "amp loses the address 5: unplug amp", ""],
    ["4.000000", "p1 loses the address 4: unplug amp", ""],
    ["4.000000", "p2 loses the address 8: unplug amp", ""],
    ["6.811600", "4>0 feature-abort 09 unrecognized", ""],
    ["7.000000", "short after 0 of p1", ""],
    ["7.000000", "low drive 3600", ""],
    ["7.500000", "press p1 volume-up: refused not-for-kind", ""],
    ["8.000000", "bad-start", ""],
    ["8.000000", "start low 700 not 3500..3900", ""],
]


def reports_are_shown(t, b):
    """What is to look at, and a report with its window, by hand; a sweep's stretches."""
    show(b, written("retries.net", RETRIES))
    t.same("what is to look at", b.js(TABLE)[0], TO_LOOK_AT)
    show(b, os.path.join(EXAMPLES, "wrong-film.test"))
    t.same("a report", b.js("[...document.querySelector('#panel > div').children].map(one => one.textContent)"), [
        "2 of 3 tests failed.", "✗ 2  expect none within 200000 of film 4>f active-source", "1 seen from 1000000 to 1200000 µs.",
        "1.068400  4>f active-source 1.0.0.0 ok", "✗ 3  line 4 was refused: not-for-kind",
        "✓ 1  label on expect within 60000 of film 4>0 image-view-on ack"])
    show(b, os.path.join(EXAMPLES, "race.sweep"))
    # examples/race.stretches, in words
    stretches = [line.split(" ") for line in example("race.stretches").splitlines()]
    words = {"ok": "✓ holds", "not-ok": "✗ fails"}
    t.same("a sweep in words", b.js(TABLE)[0][1:], [
        [span if span.split("..")[0] != span.split("..")[1] else span.split("..")[0], *(words[word] for word in tests)]
        for span, *tests in stretches])
    high = b.js("[...document.querySelectorAll('#space svg rect')].map(bar => [bar.textContent.startsWith('holds'), bar.getAttribute('y'),"
                " bar.getAttribute('height')])")
    t.same("what fails is lower", [one[1:] for one in high], [["0", "20"] if one[0] else ["8", "12"] for one in high])
    bars = "[...document.querySelectorAll('#space svg')].map(bar => [...bar.querySelectorAll('title')].map(one => one.textContent))"
    t.same("a sweep's bars", b.js(bars), [[f"{'holds' if tests[i] == 'ok' else 'fails'} from {span.replace('..', ' to ')}"
                                      for span, *tests in stretches] for i in range(2)])
    number = [i for i, (span, *_) in enumerate(stretches) if len(set(span.split(".."))) > 1][-1]
    first = stretches[number][0].split("..")[0]
    b.js(f"document.querySelectorAll('#space svg rect')[{number}].dispatchEvent(new MouseEvent('click', {{ bubbles: true }}))")
    t.holds("a click on a bar shows the run at its first instant", until(b, "testing.app.model.rounds.length > 0"))
    at_first = re.sub(r"(?<= )\d+\.\.\d+(/\d+)?(?= |$)", first, example("race.sweep"), count=1, flags=re.M)
    plain = program(program(at_first, "check", "--plain"), "run")
    t.same("it is that run", b.js("testing.app.model.rounds.map(o => o.line)"),
           [line for line in plain.splitlines() if re.match(r"\d+ \d+ [a-z]", line)])


def wave_is_shown(t, b, name, run):
    """What the wave says: each frame with its verdict, the bits of some, the ruler, and what is under the mouse."""
    line = run.wires[0][1]
    some = run.rounds[::9]
    slots = [line.slots(one["begin"], one["close"]) for one in some]
    asked = [[one["line"], [fall + 1 for fall, _, _ in falls[:12]]] for one, falls in zip(some, slots)]
    for one, falls, got in zip(some, slots, b.js(f"testing.waves({json.dumps(asked)})")):
        words, marks = got["words"], got["marks"]
        label = f"{one['frame']} {one['verdict']}" if one["ending"] == "complete" else page_values.label(one)
        is_there = label in words or any(label.startswith(word[:-1]) and word.endswith("…") for word in words)
        t.holds(f"{name}: the frame {label}", is_there, words)
        t.holds(f"{name}: the ruler", marks and all(abs(x - place) < 0.01 for x, place in marks), marks)
        if one["ending"] != "complete":
            continue
        for slot, ((fall, low, total), read) in enumerate(zip(falls, got["read"])):
            kind = "start low" if slot == 0 else "0 low" if low > page_values.SAMPLE else "1 low"
            least, most = page_values.WINDOWS[kind]
            parts = ["bit 1", "bit 2", "bit 3", "bit 4", "bit 5", "bit 6", "bit 7", "bit 8", "EOM", "ACK"]
            place = f"block {(slot + 9) // 10} {parts[(slot - 1) % 10]}"
            where = "start bit" if slot == 0 else f"slot {slot}: {place} = {int(kind == '1 low')}"
            window = page_values.WINDOWS["start total" if slot == 0 else "bit total"]
            is_last = slot + 1 == len(falls)
            whole = "" if is_last else f", total {total} of {window[0]}..{window[1]}"
            pulling = ["a pulse" if wire == "pulses" else wire for wire, pulls in run.wires[1:] if pulls.is_low(fall + 1)]
            t.same(f"{name}: who pulls in slot {slot} of {one['line']}", read[3:], [f"pulled by {', '.join(pulling)}"] if pulling else [])
            t.same(f"{name}: slot {slot} of {one['line']}", read[:3],
                   [f"{fall + 1} µs", f"CEC low {low} µs, from {fall} to {fall + low}", f"{where}, low {low} of {least}..{most}{whole}"])


def stretches_are_shown(t, b, name, run):
    """Where the wave is too narrow for bits it has the bytes of each frame, between its ends; and it marks the events."""
    events = sorted({one["at"] for one in run.rows if one["type"] == "event"})
    for begin in [0, *(at - 100000 for at in events)]:
        got = b.js(f"testing.stretch({begin}, {begin} + 700000)")
        per_pixel = (got["to"] - got["from"]) / (got["right"] - got["left"])

        def x_of(at, left=got["left"], first=got["from"], per_pixel=per_pixel):
            return left + (at - first) / per_pixel
        there = [x_of(at) for at in events if got["from"] <= at < got["to"]]
        t.same(f"{name}: events from {begin} on", [round(x, 3) for x in got["marks"]], [round(x, 3) for x in there])
        for one in run.rounds:
            left, right = x_of(one["begin"]), x_of(one["close"])
            if one["ending"] == "complete" and got["left"] < left and right < got["right"] - 10:
                within = [byte for byte, x in got["bytes"] if left < x < right]
                t.same(f"{name}: the bytes of {one['line']} in the wave", within, re.findall("..", one["bytes"]))


def words_are_the_standards(t, b):
    """Each word of the page's own tables: the names of addresses (CEC, table 5), the causes of refusals, the endings."""
    b.open(BARE)
    b.js(HELPERS)

    def reading(at, **fields):
        return json.dumps({"line": f"{at} reading", "type": "reading", "begin": at, "close": at + 9000, **fields})
    sixteen = [reading(60000 * i, ending="complete", frame=f"{i:x}>f standby", initiator=f"{i:x}", destination="f",
                       bytes=f"{i:x}f36", verdict="ok") for i in range(16)]
    load(b, "\n".join(sixteen))
    t.same("without the program's sentences", b.js("testing.shown(0).tables.Blocks[0][2]"), "address 0 to all")
    load(b, "\n".join(sixteen), program("".join(f"{i:x}f36\n" for i in range(16)), "dis", "--meaning", "--json"))
    t.same("the names of addresses", b.js("testing.shown(0).hints"),
           [f"{i:x}, {name}: search for what it sends, and then for what it is sent" for i, name in enumerate(page_values.ADDRESSES)])
    t.same("in sentences", b.js("testing.app.model.rows.map((row, index) => testing.shown(index)).filter(got => got.type === 'round')"
                                ".map(got => got.tables.Blocks[0][2])"), [f"{page_values.in_words(f'{i:x}')} to all" for i in range(16)])
    decks = [json.dumps({"line": f"state d{deck}", "type": "state", "device": f"d{deck}", "kind": "player", "deck": deck})
             for deck in page_values.DECKS]
    load(b, "\n".join([reading(0, ending="silent", bits="0"), *decks]),
         program("".join(f"401b{deck}\n" for deck in page_values.DECKS), "dis", "--meaning", "--json"))
    t.same("what decks do", b.js("testing.app.openPanel('devices'), " + TABLE + "[0].find(row => row[0] === 'deck').slice(1)"),
           list(page_values.DECKS.values()))
    endings = [ending for ending in page_values.ENDINGS]
    load(b, "\n".join(reading(60000 * i, ending=ending, bits="01") for i, ending in enumerate(endings)))
    t.same("the endings", b.js("testing.app.model.rounds.map(o => hdminet.meaningOf(o, testing.app.model))"),
           [page_values.ENDINGS[ending] for ending in endings])
    events = [json.dumps({"line": f"{i} event", "type": "event", "at": i, "script_line": i + 1, "verdict": "refused", "cause": cause,
                          "text": "press p1 play"}) for i, cause in enumerate(page_values.CAUSES)]
    load(b, "\n".join(events))
    t.same("the causes", b.js("testing.app.model.rows.map((row, index) => testing.shown(index).texts[0])"),
           [f"event was refused: {words} at {i} µs." for i, words in enumerate(page_values.CAUSES.values())])
    # An answer comes within five seconds, from whom was asked, and to who asked or to all
    def frame(at, data, verdict="ack"):
        return reading(at, ending="complete", frame=f"{data[0]}>{data[1]} x", initiator=data[0], destination=data[1], bytes=data, verdict=verdict)
    load(b, "\n".join([frame(0, "0446"), frame(4900000, "404761"), frame(10000000, "048f"), frame(15100000, "409000"), frame(20000000, "0483"),
                       frame(20100000, "1f84100001", "ok"), frame(20200000, "4f84100004", "ok"), frame(21000000, "049f"), frame(21100000, "40009f00"),
                       frame(22000000, "0446", "nack"), frame(22100000, "404761")]))
    t.same("which frame answers which", b.js("testing.app.model.rounds.filter(o => o.row.answers).map(o => [o.row.answers.at, o.begin])"),
           [[0, 4900000], [20000000, 20200000], [21000000, 21100000]])
    b.js("testing.app.showHelp()")
    marks = b.js("[...document.querySelectorAll('#dialog table')].map(table => [...table.rows].map(tr => tr.textContent))")
    b.js("document.getElementById('dialog').close()")
    # By hand: what each mark of the chart means
    for mark, means in [("→", "acknowledged (green)"), ("↔", "to all that nobody refused (blue)"), ("× at an end", "nobody acknowledged"),
                        ("○", "held by nobody"), ("loop", "free, nobody took it; or taken"), ("red × out @n", "up to 4 it lost the arbitration"),
                        ("◆ ◇", "◇ was refused"), ("⚠ n", "remarks of the audit")]:
        t.holds(f"the help has {mark}", any(line.startswith(mark) and means in line for line in marks[0]), marks[0])


def round_is_shown(t, what, got, page):
    run, one = page.run, page.row
    remarks, attempt = page.run.remarks(one), page.run.attempt(one)
    to, receivers = page.receivers()
    label = page_values.label(one)
    is_drawn = not page_values.is_poll(one) and (one["ending"] == "complete" or page_values.stopped(one))
    is_open = bool(to) and to != "f" and not receivers and is_drawn
    t.same(f"{what}: label", got["label"], f"{label} → {to}" if is_open else label)
    verdict = page_values.verdict(one)
    t.same(f"{what}: verdict", got["verdict"], verdict + (f"⚠ {len(remarks)}" if remarks else ""))
    answered = [request for request, answer in run.answers() if answer is one]
    delay = [f"answers in {page_values.duration(one['begin'] - request['close'])}" for request in answered]
    t.same(f"{what}: tooltips", [got["about"], got["verdictTitle"]], [page.sentence(), page.verdict_in_words()])
    t.same(f"{what}: attempt", got["notes"], [f"attempt {attempt}"] if attempt and attempt > 1 else delay)
    t.same(f"{what}: out", [got["titles"], [text for text in got["warnings"] if "out" in text]],
           [[page.why(out) for out in page.losers()], [f"out @{out['slot']}" for out in page.losers()]])
    marks = got["marks"]
    t.same(f"{what}: senders", marks["senders"], page.senders() or ["open"])
    if to != "f":
        t.same(f"{what}: where its arrow ends", marks["heads"] if receivers else [], receivers)
    else:
        t.same(f"{what}: who hears it", sorted([*marks["heads"], *marks["hearers"]]), sorted(receivers))
    t.same(f"{what}: title", got["title"], one["frame"] if one["ending"] == "complete" else f"{one['ending']} {one['bits'] or ''}")
    t.same(f"{what}: sentence", got["texts"][0], f"{verdict} {page.sentence()}")
    t.same(f"{what}: parties and times", got["tables"][got["title"]], page.parties())
    t.same(f"{what}: blocks", got["tables"].get("Blocks"), page.blocks())
    widths = got["tables"].get("Widths, in µs")
    t.same(f"{what}: widths", (widths or [[]])[1:], page.widths())
    t.same(f"{what}: free time", [text for text in got["texts"] if "was high for" in text], [page.free()] if page.free() else [])
    slots = run.wires[0][1].slots(one["begin"], one["close"])
    each = [[str(low), "" if i + 1 == len(slots) else str(total)] for i, (_, low, total) in enumerate(slots)]
    shown = got["tables"].get("Each slot", [[]])
    if one["ending"] == "complete":
        t.same(f"{what}: each slot", [row[2:] for row in shown[1:]], each)
        parts = ["bit 1", "bit 2", "bit 3", "bit 4", "bit 5", "bit 6", "bit 7", "bit 8", "EOM", "ACK"]
        names = ["start", *(f"block {i // 10 + 1} {parts[i % 10]}" for i in range(len(slots) - 1))]
        bits = ["", *("0" if low > page_values.SAMPLE else "1" for _, low, _ in slots[1:])]
        t.same(f"{what}: bits", [row[:2] for row in shown[1:]], [list(pair) for pair in zip(names, bits)])

    told = [below["verdict"] for below in [*run.notes(one), *remarks] if below.get("note", below.get("remark")) in ("attempt", "too-many-attempts")]
    t.same(f"{what}: what the audit says of its last block", [page_values.stopped(one)], told if one["ending"] == "silent" and told else [None])
    lows = [str(remark["width"]) for remark in remarks if remark["remark"] in ("start-low", "bit-low")]
    t.same(f"{what}: slots that are marked", got["odd"], lows if len(shown) > 1 else [])

    def said(below):
        return [one["line"].strip() + (f" (CEC {one['section']})" if one["section"] else "") for one in below]
    t.same(f"{what}: remarks and notes", [got["lists"].get("Remarks of the audit", []), got["lists"].get("Notes of the audit", [])],
           [said(remarks), said(run.notes(one))])
    t.same(f"{what}: line", got["texts"][-2], one["line"])


def event_is_shown(t, what, got, row):
    is_refused = row["verdict"] != "ok"
    t.same(f"{what}: the event", [got["label"], got["title"]], [row["text"], row["text"]])
    if is_refused:
        t.same(f"{what}: its refusal", [got["warnings"], got["texts"][0]],
               [[f"refused {row['cause']}"], f"event was refused: {page_values.CAUSES[row['cause']]} at {row['at']} µs."])
    else:
        t.same(f"{what}: applied", [got["notes"], got["texts"][0]],
               [[f"line {row['script_line']}"], f"event was applied at {row['at']} µs."])
    t.same(f"{what}: its line", got["texts"][1:3], [f"Line {row['script_line']} of the script.", row["line"]])


# By hand, at which heights the strip draws a round, from above: nobody acknowledged below, refused above, a poll a line
STRIP = {"ack": ".###.", "ok": ".###.", "nack": "..##.", "refused": ".##..", "broken": "#####", "poll": "..#.."}


def strip_is_shown(t, b, name, run):
    """A click on the strip goes to the row that is there, and the row's colour is there."""
    some = [number for number, row in enumerate(run.rows) if row["type"] == "round" and number % 5 == 0]
    for number, (at, pixel) in zip(some, b.js(f"{json.dumps(some)}.map(number => testing.clicked(number))")):
        t.holds(f"{name}: a click on the strip", abs(at - run.rows[number]["begin"]) <= pixel, [at, run.rows[number]])
    rounds = {one["line"]: one for one in run.rounds}
    found = b.js("testing.shapes([9, 14, 18, 22, 27])")
    t.holds(f"{name}: most rounds are wide enough", 2 * len(found) > len(rounds), [len(found), len(rounds)])
    for line, ink in found:
        kind = page_values.class_of(rounds[line])
        t.same(f"{name}: on the strip {kind}, {line}", "".join("#" if one else "." for one in ink), STRIP[kind])
    for text, x, place, end in b.js("testing.axis()"):
        t.holds(f"{name}: the strip's time {text}", x == place and float(text) * 1e6 <= end, [x, place, end])


def passed_on_edids_are_shown(t, b):
    """The EDIDs that a receiver passes on: their ports, and the physical address that the program reads in each."""
    show(b, os.path.join(EXAMPLES, "ports.net"))
    ports = [one for one in map(json.loads, program(example("ports.net"), "run", "--json").splitlines()) if one["type"] == "port"]
    addresses = [program(one["edid"], "edid", "--hex", "--only-address").strip() for one in ports]
    t.holds("there are several", len(set(addresses)) > 2, addresses)
    summaries = b.js("testing.app.openPanel('edids'), [...document.querySelectorAll('#panel summary')].map(one => one.textContent)")
    t.same("the panel", summaries, [f"{one['device']} port {one['port']}, {page_values.duration(one['at'])}, address {address}"
                                    for one, address in zip(ports, addresses)])
    digits = b.js("[...document.querySelectorAll('#panel pre')].map(one => one.textContent.replace(/\\s/g, ''))")
    t.same("their bytes", digits, [one["edid"] for one in ports])
    odd = b.js("[...document.querySelectorAll('#panel pre')].map(one => [...one.querySelectorAll('.bad')].map(byte => byte.textContent))")
    pairs = [[re.findall("..", edid["edid"]) for edid in (ports[0], one)] for one in ports]
    t.same("and those that the first one has otherwise", odd, [[byte for first, byte in zip(*both) if first != byte] for both in pairs])
    by_time = {at: [(one, address) for one, address in zip(ports, addresses) if one["at"] == at] for at in (one["at"] for one in ports)}
    rows = b.js("testing.app.model.rows.filter(row => row.type === 'ports').map(row => { testing.app.select(row); testing.app.openPanel("
                "'selected'); return [row.at, testing.drawn('', 0, row).label, " + TABLE + "[0]]; })")
    t.same("their rows", rows, [[at, "EDIDs passed on: " + ", ".join(
        f"{name} {' '.join(str(one['port']) for one, _ in some if one['device'] == name)}" for name in dict.fromkeys(
            one["device"] for one, _ in some)), [[f"{one['device']} {one['port']}", f"{len(one['edid']) // 2} bytes, address {address}"]
                                                 for one, address in some]] for at, some in by_time.items()])


def failures_are_drawn(t, b):
    """A failing test: in the report, in the chart where its window ends, and the window's rows are marked."""
    show(b, os.path.join(EXAMPLES, "wrong-film.test"))
    t.same("the counts", b.js("document.getElementById('counts').textContent"), "6 rounds, 2 of 3 tests failed")
    failure = drawn(b, "not ok 2")
    t.same("the failure in the chart", [failure["cls"], failure["verdict"], failure["isVisible"]], ["failed", "✗ failed", True])
    t.same("the failures come first",
           b.js("[...document.querySelectorAll('#panel .test')].map(one => one.textContent[0]).join('')"), "✗✗✓")
    t.same("what was seen is selected", b.js("testing.app.selected.o.frame"), "4>f active-source 1.0.0.0")
    t.same("the window is marked", b.js("document.querySelectorAll('.row.banded').length"), 2)
    pixel = b.js("(() => { const strip = document.getElementById('strip'); const { model, colours } = testing.app;"
                 " const x = Math.round(1200000 / model.end * strip.width);"
                 " const pixel = [...strip.getContext('2d').getImageData(x, 5, 1, 1).data].slice(0, 3);"
                 " return [pixel.map(part => part.toString(16).padStart(2, '0')).join(''), colours.failed.slice(1)]; })()")
    near = all(abs(int(pixel[0][i:i + 2], 16) - int(pixel[1][i:i + 2], 16)) < 40 for i in (0, 2, 4))
    t.holds("the failure is in the strip", near, pixel)
    # A report and its trace in one text, of which each line of the trace begins with `# ` (docs/json.md, "Of a report")
    report = program(example("wrong-film.test"), "check", "--json")
    trace = program(program(example("wrong-film.test"), "check", "--plain"), "run", "--json")
    load(b, report + '{"line":"# trace","type":"trace"}\n' + trace.replace('{"line":"', '{"line":"# '))
    # Of three tests the second names a round that it did not expect; the third is a refused event
    seen = b.js("(m => [m.rounds.length, m.tests.map(test => test.rows.length)])(testing.app.model)")
    t.same("a report with its trace", seen, [6, [0, 1, 0]])
    show(b, os.path.join(EXAMPLES, "race.sweep"))
    t.same("a sweep is a bar for each test", b.js("document.querySelectorAll('#space svg').length"), 2)
    t.same("and four stretches in each", b.js("document.querySelectorAll('#space svg rect').length"), 8)
    t.holds("its bars are as wide as there is room", b.js("(box => box.scrollWidth <= box.clientWidth)(document.getElementById('chart'))"))
    t.same("and a line for each stretch", b.js("document.querySelectorAll('#panel tr').length"), 5)


NAMELESS = ("[...document.querySelectorAll('button,input,[tabindex]')]"
            ".filter(e => !(/[a-z]/i.test(e.textContent) || e.title || e.getAttribute('aria-label'))).map(e => e.id || e.className)")


def keys_reach_all(t, b):
    """The page by keys alone: each control has a name and is reached."""
    show(b, written("retries.net", RETRIES))
    selected = "testing.app.selected && `${testing.app.selected.type} ${testing.app.selected.index}`"
    b.js("document.getElementById('chart').focus()")
    for keys, wanted in [(["ArrowDown"], "round 0"), (["ArrowDown", "ArrowDown"], "round 2"), (["ArrowUp"], "round 1"),
                         (["Home"], "round 0")]:
        for key in keys:
            b.key(key)
        t.same(f"{keys}", b.js(selected), wanted)
    t.same("a reader is told of the row", b.js("document.getElementById('chart').getAttribute('aria-activedescendant')"), "row0")
    b.key("n")
    t.same("n: the next that failed", b.js("testing.app.selected.cls"), "nack")
    b.key("/")
    for key in "feature":
        b.key(key)
    t.same("the search",
           b.js("testing.app.chart.shown.every(row => row.find.includes('feature')) && testing.app.chart.shown.length > 0"),
           True)
    b.key("Enter")
    t.same("Enter goes to the first hit", b.js("document.activeElement.id"), "chart")
    b.key("/")
    b.key("Escape")
    t.same("Escape clears the search", b.js("document.getElementById('search').value"), "")
    b.key("w")
    width = b.js("testing.app.wave.to - testing.app.wave.from")
    b.key("+")
    t.same("+ zooms", round(b.js("testing.app.wave.to - testing.app.wave.from") / width, 3), 0.6)
    b.key("c")
    b.key("?")
    t.same("? opens the help", b.js("document.getElementById('dialog').open"), True)
    b.key("Escape")
    b.key("t")
    t.same("t: the other theme", b.js("document.documentElement.dataset.theme"), "dark")
    b.key("t")
    t.same("controls without a name", b.js(NAMELESS), [])
    reached = set()
    b.js("document.activeElement.blur()")
    for _ in range(40):
        b.key("Tab")
        reached.add(b.js("document.activeElement.id"))
    t.holds("Tab reaches all", {"search", "open", "export", "theme", "help", "chart", "panel", "line", "tab-selected"} <= reached,
            sorted(reached))
    b.js("testing.app.openPanel('selected'), document.getElementById('tab-selected').focus()")
    for key, wanted in [("ArrowRight", "tab-look"), ("ArrowRight", "tab-table"), ("ArrowLeft", "tab-look"), ("End", "tab-notes"),
                        ("ArrowRight", "tab-selected")]:
        b.key(key)
        t.same(f"tabs by {key}", b.js("[document.activeElement.id, document.querySelector('#tabs [aria-selected=true]').id]"), [wanted] * 2)
    b.js("testing.app.openPanel('table')")
    rows = b.js("[...document.querySelectorAll('#panel tr')].slice(1).map(tr => [...tr.cells].map(cell => cell.textContent))")
    t.same("the table has each row", len(rows), b.js("testing.app.chart.shown.length"))
    t.holds("the table says who sent what to whom",
            any(row[1:5] == ["tv", "dut", "give-osd-name", "ack"] for row in rows), [row for row in rows if "give-osd" in row[3]])
    b.js("testing.app.exportSvg()")
    text = b.js("testing.app.exportedText")
    parsed = f"new DOMParser().parseFromString({json.dumps(text)}, 'image/svg+xml')"
    is_whole = b.js(f"{parsed}.querySelectorAll('parsererror').length === 0")
    t.same("the exported SVG is well formed, and has the chart's rules alone", [text[:4], is_whole, "@media" in text], ["<svg", True, False])
    b.js("testing.app.copyMermaid()")
    t.holds("Mermaid", "L0->>L4: give-osd-name ack" in b.js("testing.app.exportedText"),
            b.js("testing.app.exportedText.slice(0, 600)"))


def searches_find(t, b):
    """What a search finds of an evening, against the program's objects."""
    show(b, os.path.join(EXAMPLES, "living-room-evening.net"))
    rounds = [json.loads(line) for line in program(example("living-room-evening.net"), "run", "--json").splitlines()]
    rounds = [one for one in rounds if one["type"] == "round"]
    texts = {"op:82": lambda one: one.get("bytes", "")[2:4] == "82",
             "op:active-source": lambda one: one.get("bytes", "")[2:4] == "82",
             "from:amp": lambda one: "amp" in one["by"],
             "from:5": lambda one: one.get("initiator") == "5",
             "to:0": lambda one: one.get("destination") == "0" and one.get("initiator") != "0",
             "to:tv": lambda one: one.get("destination") == "0" and one.get("initiator") != "0",
             "to:all": lambda one: one.get("destination") == "f",
             "to:all not from:amp": lambda one: one.get("destination") == "f" and "amp" not in one["by"],
             "t:3.1..3.2": lambda one: one["close"] >= 3100000 and one["begin"] <= 3200000,
             "t:3.12..3.15": lambda one: one["close"] >= 3120000 and one["begin"] <= 3150000,
             "t:..0.5": lambda one: one["begin"] <= 500000,
             "t:0.05": lambda one: page_values.seconds(one["begin"]).startswith("0.05"),
             "0.0507": lambda one: "0.0507" in page_values.seconds(one["begin"]),
             "complete not standby": lambda one: one["ending"] == "complete" and "standby" not in one["line"]}
    for text, holds in texts.items():
        b.js(f"testing.app.searchFor({json.dumps(text)})")
        found = b.js("testing.app.chart.shown.filter(row => row.type === 'round').map(row => row.o.line)")
        wanted = [one["line"] for one in rounds if holds(one)]
        t.same(f"search {text}", found, wanted)
        t.holds(f"there is something for {text}", wanted)
    click = "document.querySelectorAll('#heads .row')[1].dispatchEvent(new MouseEvent('click', { bubbles: true }))"
    b.js("testing.app.searchFor('')")
    amp = b.js("testing.app.model.lanes[1].name")
    for wanted in (f"from:{amp}", f"to:{amp}", ""):
        b.js(click)
        t.same("a click on a head", b.js("document.getElementById('search').value"), wanted)
    b.js("document.getElementById('chart').focus()")
    b.key("g")
    for key in "3.127":
        b.key(key)
    b.key("Enter")
    begins = [one["begin"] for one in rounds]
    t.holds("g goes to a time", abs(b.js("testing.app.selected.at") - 3127000) <= min(abs(at - 3127000) for at in begins), begins)
    time.sleep(0.5)
    moment = b.js("location.hash")
    t.same("the moment is in the address", moment, b.js("`#t=${(testing.app.selected.at / 1e6).toFixed(6)}&sel=${testing.app.selected.index}`"))
    page = page_of(os.path.join(EXAMPLES, "living-room-evening.net"))
    b.call("Page.navigate", url=f"file://{BARE}")
    b.open(f"{page}#t=0.050700&sel=1")
    t.same("an address with a moment", b.js("hdminet.app.selected.at"), 50700)
    b.js("location.hash = '#t=3.1'")
    time.sleep(0.2)
    t.holds("another moment", abs(b.js("hdminet.app.selected.at") - 3100000) < 200000, b.js("hdminet.app.selected.at"))
    b.js(HELPERS)
    b.js("testing.app.showWave()")
    left, width = b.js("(box => [box.x, box.width])(document.getElementById('strip').getBoundingClientRect())")
    top = b.js("document.getElementById('strip').getBoundingClientRect().y + 10")
    at = b.js("testing.app.selected.at")
    b.mouse("mousePressed", left + width * 0.1, top, button="left", clickCount=1)
    for part in (0.3, 0.6, 0.8):
        b.mouse("mouseMoved", left + width * part, top, button="left", buttons=1)
    b.mouse("mouseReleased", left + width * 0.8, top, button="left", clickCount=1)
    b.settle()
    sight = b.js("testing.app.chart.sight().map(i => testing.app.chart.shown[i].at / testing.app.model.end)")
    t.holds("the strip's window is dragged", sight[0] < 0.85 and sight[1] > 0.75, sight)
    t.same("and selects nothing", b.js("testing.app.selected.at"), at)


def runs_stand_beside(t, b):
    """A run beside another one: the rows of both, aligned, and the first difference marked."""
    room = example("first-path.net")
    other = room.replace("at 1000000 press p1 play\n", "at 1000000 press p1 play\nat 1200000 press p1 stop\n").replace("end 1500000", "end 1700000")
    page = os.path.join(ROOM, "beside.html")
    subprocess.run([os.path.join(TOP, "tools/page"), written("one.net", room), "--beside", written("other.net", other), "-o", page],
                   check=True)
    b.open(page)
    b.js(HELPERS)
    lines = [[line for line in program(text, "run").splitlines() if re.match(r"\d+ (\d+ [a-z]|event)", line)] for text in (room, other)]
    more = [line for line in lines[1] if line not in lines[0]]
    t.same("the second run has more", len(lines[1]) - len(lines[0]), len(more))
    t.same("its panel is shown", b.js("testing.app.panel"), "beside")
    rows = b.js(TABLE)[0][1:]
    t.same("what is of the second alone", [row[3] for row in rows if row[0] == "+"], [re.sub(r"^\d+ (\d+ )?", "", line) for line in more])
    t.same("nothing is of the first alone", [row for row in rows if row[0] == "−"], [])
    t.same("aligned as the program has it", b.js("(({ pairs, same }) => [pairs.length, same])(testing.app.besideOf(testing.app.model))"),
           [len(lines[1]), len(lines[0])])
    t.holds("how many rows are alike", f"The same for {len(lines[0])} rows; then they differ." in b.js(
        "document.getElementById('panel').textContent"), lines)
    later = room.replace("at 1000000 press", "at 1100000 press").replace("end 1500000", "end 1700000")
    subprocess.run([os.path.join(TOP, "tools/page"), written("one.net", other), "--beside", written("later.net", later), "-o", page], check=True)
    b.open(page)
    b.js(HELPERS)
    same = [line for line in program(later, "run").splitlines() if re.match(r"\d+ (\d+ [a-z]|event)", line)]
    rows = [row for row in b.js(TABLE)[0][1:] if row[2]]
    t.same("how much later a row is", [row[4] for row in rows], [f"+{int(row[2].replace('.', '')) - int(row[1].replace('.', ''))} µs" for row in rows])
    t.holds("some are later", "+100000 µs" in [row[4] for row in rows], [rows, same])
    same = os.path.join(EXAMPLES, "first-path.net")
    subprocess.run([os.path.join(TOP, "tools/page"), same, "--beside", same, "-o", page], check=True)
    b.open(page)
    t.holds("a run beside itself", "Both say the same, in the same order." in b.js("document.getElementById('panel').textContent"))


class Live:
    """tools/look --live of a file, and its address."""

    def __init__(self, *arguments, **how):
        self.process = subprocess.Popen([os.path.join(TOP, "tools/look"), "--live", *arguments], stdout=subprocess.PIPE, text=True,
                                        env={**os.environ, "HDMINET_OPEN": "true"}, start_new_session=True, **how)
        self.address = self.process.stdout.readline().split(" ")[1].strip()
        self.host, self.port = re.search(r"http://([\d.]+):(\d+)/", self.address).groups()

    def asked(self, method, path, body=None, **headers):
        """The status with which a request is answered, and what it gives."""
        connection = http.client.HTTPConnection(self.host, int(self.port), timeout=60)
        connection.putrequest(method, path, skip_host="Host" in headers)
        for name, value in {"Content-Length": str(len(body or b"")), **headers}.items():
            connection.putheader(name, value)
        connection.endheaders(body)
        try:
            found = connection.getresponse()
            return found.status, found.read()
        finally:
            connection.close()

    def end(self, sent=signal.SIGTERM):
        self.process.send_signal(sent)
        self.process.wait(30)
        self.process.stdout.close()


def until(b, code, patience=60):
    """Waits until something holds in the page."""
    ends = time.monotonic() + patience
    while not b.js(code):
        if time.monotonic() > ends:
            return False
        time.sleep(0.05)
    return True


LIVE = """window.edit = text => {
  const { area } = hdminet.live;
  area.value = text;
  area.dispatchEvent(new Event('input'));
  return new Promise(done => {
    const before = performance.getEntriesByName('shown').length;
    const look = () => (performance.getEntriesByName('shown').length > before ? done(true) : setTimeout(look, 20));
    look();
  });
}; true"""


def live_page_runs(t, b):
    """tools/look --live: the text is run as it is edited; what is selected stays; a fault has its line; the file's changes come."""
    room = example("first-path.net")
    path = written("live.net", room)
    live = Live(path)
    try:
        b.open(live.address)
        b.js(HELPERS)
        until(b, "performance.getEntriesByName('shown').length > 0")
        b.js(LIVE)
        lines = "testing.app.model.rows.filter(row => row.o && row.type !== 'end').map(row => row.o.line)"
        t.same("the text", b.js("hdminet.live.area.value"), room)

        def told(text):
            return [line for line in program(text, "run").splitlines() if not re.match(r"state |\d+ end", line)]
        t.same("it is run", b.js(lines), told(room))
        b.js("testing.app.select(testing.rowOf('active-source')), testing.app.openPanel('room')")
        draw = random.Random("edits")
        for number in range(12):
            edited = room.replace("at 1000000 press p1 play", f"at {draw.randrange(1000000, 1300000)} press p1 play")
            b.js(f"edit({json.dumps(edited)})")
            t.same(f"edit {number}", b.js(lines), told(edited))
        t.same("what is selected stays, and the panel", b.js("[testing.app.selected.o.frame, testing.app.panel]"),
               ["4>f active-source 1.0.0.0", "room"])
        b.js(f"edit({json.dumps(room.replace('press', 'pres'))})")
        fault = b.js("[document.querySelector('#source .fault').textContent, document.querySelector('#source .gutter .at').textContent,"
                     " testing.app.model.rounds.length > 0]")
        number = room.split("\n").index("at 1000000 press p1 play") + 1
        t.holds("a fault in the words of --explain", "did you mean `press`?" in fault[0], fault)
        t.same("its line, and the last good run stays", fault[1:], [str(number), True])
        b.js(f"edit({json.dumps(room)})")
        written("live.net", room.replace("1000000 press", "1100000 press"))
        t.holds("a change of the file comes by itself", until(b, "hdminet.live.area.value.includes('1100000 press')"
                " && testing.app.model.rounds.some(o => o.begin === 1100000)"))
        b.js("(area => { const at = area.value.indexOf('at 1100000'); area.setSelectionRange(at, at); area.click(); })(hdminet.live.area)")
        t.same("a click on a line selects its row", b.js("testing.app.selected.text"), "press p1 play")
        t.same("and marks it", b.js("document.querySelector('#source .gutter .is').textContent"), str(number))
        made = b.js("testing.app.searchFor('from:p1'), hdminet.live.asTest()")
        report = program(made, "check").splitlines()
        t.same("a test of the rounds shown holds", [made.count("\nexpect from "), sum(line.startswith("ok ") for line in report)],
               [b.js("testing.app.chart.shown.filter(row => row.type === 'round').length")] * 2)
        b.js("testing.app.searchFor('')")
        failing = example("wrong-film.test")
        b.js(f"edit({json.dumps(failing)})")
        numbers = [one["script_line"] for one in map(json.loads, program(failing, "check", "--json").splitlines()) if one.get("holds") is False]
        script = failing.split("\n").index("script") + 1
        t.same("the lines of tests that fail", b.js("[...document.querySelectorAll('#source .gutter .no')].map(one => one.textContent)"),
               [str(script + number) for number in numbers])
        # An answer that comes after a later one is not shown
        b.js("""(() => { const plain = window.fetch; let first = true;
          window.fetch = async (...all) => { const slow = first; first = false; const answer = await plain(...all);
            if (slow) await new Promise(done => setTimeout(done, 600)); return answer; }; })()""")
        late, later = (room.replace("1000000 press", f"{at} press") for at in (1200000, 1300000))
        b.js(f"(async () => {{ const {{ live }} = hdminet; live.area.value = {json.dumps(late)}; const one = live.run(true);"
             f" live.area.value = {json.dumps(later)}; await live.run(true); await one; }})()")
        t.same("an answer that comes late is ignored", b.js("testing.app.model.rounds.filter(o => o.begin >= 1000000)[0].begin"), 1300000)
        t.same("nothing else is asked", [fault for fault in b.faults() if not fault.startswith(f"network: {live.address}")], [])
    finally:
        b.open(BARE)  # else the page asks for its server again and again
        live.end()
    refused = Live(written("refused.net", room.replace("press", "pres")))
    try:
        b.open(refused.address)
        t.holds("a text that is refused from the begin", until(b, "document.getElementById('space').textContent"
                " === 'No run of this text yet: its fault stands below it.'", 30))
        t.holds("has its fault", "did you mean `press`?" in b.js("document.querySelector('#source .fault').textContent"))
    finally:
        b.open(BARE)
        refused.end()
    capture = Live(written("live.vcd", as_dump([line.split() for line in program(RETRIES, "run", "--edges").splitlines()], inverted=True)))
    try:
        b.open(capture.address)
        t.holds("a capture is read best", until(b, "hdminet.app.model.rounds.some(o => o.ending === 'complete')"))
        t.same("its flags are fields", b.js("document.querySelector('#source .flags').hidden"), False)
    finally:
        b.open(BARE)
        capture.end()


# What the page has of a text, apart from what is selected; and all that it shows of a row.
PICTURE = """(picked => {
  const { model } = testing.app;
  const { rows, lanes, tests, stretches, faults, wave, room } = model;
  const remarks = list => (list || []).map(one => `${one.text} ${one.section}`);
  const told = rows.map(({ o, type, at, until, text, cls, verdict, attempt, changes, from, to, ...row }) => [
    o ? o.line : '', type, at, until, text, cls, verdict, attempt, changes, from, to, remarks(row.remarks), remarks(row.notes),
    o && o.widths ? o.widths.map(({ kind, least, greatest }) => [kind, least, greatest]) : []]);
  const states = lanes.map(lane => [lane.name, lane.kind, lane.history.map(one => [one.at, one.logical, one.physical,
    one.state ? one.state.line : ''])]);
  const wires = wave ? [wave.line, ...wave.devices].map(one => [one.name, one.changes.join()]) : [];
  const shown = picked && picked.type !== 'gap' ? testing.shown(picked.index) : null;
  return JSON.stringify([told, states, tests.map(one => one.line), stretches.map(one => one.line), faults, wires, room, shown]);
})(hdminet.app.model.rows[PLACE])"""


def picture_at(b, place):
    """The same, where the place of the row is among as many rows as there are."""
    return b.js(PICTURE.replace("PLACE", str(place % max(b.js("hdminet.app.model.rows.length"), 1))))


def edited(draw, text):
    """A text with one to three changes: of a number, of a line, of a letter."""
    lines = text.splitlines()
    for _ in range(draw.randint(1, 3)):
        at, kind = draw.randrange(len(lines)), draw.random()
        numbers = [one.span() for one in re.finditer(r"\d+", lines[at])]
        if kind < 0.5 and numbers:
            first, last = draw.choice(numbers)
            lines[at] = lines[at][:first] + str(max(int(lines[at][first:last]) + draw.randint(-200000, 200000), 0)) + lines[at][last:]
        elif kind < 0.65:
            lines.insert(draw.randrange(len(lines)), lines[at])
        elif kind < 0.8 and len(lines) > 3:
            del lines[at]
        elif kind < 0.9:
            lines.insert(at, draw.choice(random_room(draw).splitlines()))
        elif lines[at]:
            place = draw.randrange(len(lines[at]))
            lines[at] = lines[at][:place] + draw.choice("abc019 >:#") + lines[at][place + 1:]
    return "\n".join(lines) + "\n"


CHART_WIDTH = "hdminet.app.chart.box.clientWidth"
# Runs a text in the live page: what is refused of it, and whether all that is shown is as before.
EDIT = """(async () => {
  const { app, live: { area, run } } = hdminet;
  const shown = () => ['space', 'heads', 'panel', 'counts', 'chips'].map(id => document.getElementById(id).innerHTML).join();
  const [model, before] = [app.model, shown()];
  area.value = TEXT;
  await run(true);
  return [document.querySelector('#source .fault').textContent, model === app.model && before === shown()];
})()"""


def first_difference(one, other):
    """Where two pictures first differ: the way there, and what each has."""
    way, (one, other) = [], (json.loads(each) if isinstance(each, str) else each for each in (one, other))
    while type(one) is type(other) and isinstance(one, (list, dict)) and len(one) == len(other):
        keys = range(len(one)) if isinstance(one, list) else list(one)
        key = next((key for key in keys if isinstance(one, list) or key in other if one[key] != other[key]), None)
        if key is None:
            break
        way.append(key)
        one, other = one[key], other[key]
    return way, str(one)[:200], str(other)[:200]


def edits_are_the_tools(t, b):
    """A text that is edited at random: the live page has what a page of tools/look has of the same text, where its chart is as wide
    as that of the other; of one that is refused the words of the refusal, and the last good picture."""
    draw = random.Random(f"texts{SEED}")
    texts = [example("living-room-evening.net"), RETRIES, example("wrong-film.test")]
    live = Live(written("edited.net", texts[0]))
    got, good = [], []
    try:
        b.open(live.address)
        b.js(HELPERS)
        until(b, "performance.getEntriesByName('shown').length > 0")
        while len(got) < EDITS:
            text = edited(draw, draw.choice([*texts, *good[-2:]]))
            fault, stays = b.js(EDIT.replace("TEXT", json.dumps(text)))
            place = draw.randrange(1000)
            got.append((text, fault, place, stays if fault else picture_at(b, place)))
            good += [] if fault else [text]
        wide = b.js(CHART_WIDTH)
        faults = [fault for fault in b.faults() if not fault.startswith(f"network: {live.address}")]
        t.same("nothing else is asked", faults, [])
    finally:
        b.open(BARE)
        live.end()
    show(b, os.path.join(EXAMPLES, "living-room-evening.net"))
    width = WIDTH
    while wide != b.js(CHART_WIDTH) and width > 0:  # the panel beside it has a part of the window
        width += wide - b.js(CHART_WIDTH)
        b.resize(width, HEIGHT)
        b.settle()
    for text, fault, place, picture in got:
        try:
            pages, first = TOOL.texts_of("edited.net", text.encode(), [])
        except TOOL.Refused as refused:
            t.same("what is refused: its words, and the last good picture", [fault, picture], [str(refused), True])
            continue
        b.js(f"hdminet.app.openData({json.dumps(TOOL.embedded(pages, first, 'edited.net', packed=False))})")
        other = picture_at(b, place)
        t.holds("an edited text", picture == other, [first_difference(picture, other), fault, place, text])
    b.resize(WIDTH, HEIGHT)
    t.holds("some are refused, and some are not", 0 < len(good) < len(got), [len(good), len(got)])
    if IS_MANY:
        print(f"page: {len(got)} edits are as tools/page has them, {len(got) - len(good)} of them refused")


def live_server_is_careful(t, b):
    """The server of tools/look --live answers its own page alone, takes 1 MB, and ends with all that it started."""
    live = Live(written("careful.net", example("first-path.net")))
    token = live.address.split("/")[3]
    own = f"127.0.0.1:{live.port}"
    body = example("first-path.net").encode()
    for what, method, path, headers, wanted in [
            ("its page", "GET", f"/{token}/", {}, 200), ("its text", "GET", f"/{token}/text", {}, 200),
            ("no token", "GET", "/", {}, 403), ("another token", "GET", "/abc/text", {}, 403), ("a part of it", "GET", f"/{token[:-1]}/", {}, 403),
            ("another host", "GET", f"/{token}/text", {"Host": "example.org"}, 403),
            ("its name", "GET", f"/{token}/text", {"Host": f"localhost:{live.port}"}, 403),
            ("another page", "POST", f"/{token}/run", {"Host": own, "Origin": "http://example.org"}, 403),
            ("its own page", "POST", f"/{token}/run", {"Host": own, "Origin": f"http://{own}"}, 200),
            ("a file", "GET", f"/{token}/../../etc/passwd", {}, 404), ("too long a text", "POST", f"/{token}/run", {"Content-Length": "1048577"}, 413),
            ("no length", "POST", f"/{token}/run", {"Content-Length": "x"}, 411), ("nothing of it", "POST", f"/{token}/text", {}, 404)]:
        status, _ = live.asked(method, path, body if method == "POST" and wanted == 200 else b"" if method == "POST" else None, **headers)
        t.same(f"asked: {what}", status, wanted)
    policy = re.search(r'Content-Security-Policy" content="([^"]*)"', live.asked("GET", f"/{token}/")[1].decode())[1]
    t.holds("its policy", "default-src 'none'" in policy and policy.endswith("connect-src 'self'"), policy)
    # It ends by a signal, and with who started it; nothing of its group is left.
    live.end(signal.SIGHUP)
    shell = subprocess.Popen(["bash", "-c", f"{os.path.join(TOP, 'tools/look')} --live {os.path.join(ROOM, 'careful.net')} & sleep 600"],
                             stdout=subprocess.PIPE, text=True, env={**os.environ, "HDMINET_OPEN": "true"}, start_new_session=True)
    port = int(re.search(r":(\d+)/", shell.stdout.readline())[1])
    shell.kill()
    ends, is_open = time.monotonic() + 30, True
    while is_open and time.monotonic() < ends:
        time.sleep(0.2)
        with socket.socket() as probe:
            is_open = probe.connect_ex(("127.0.0.1", port)) == 0
    t.holds("it ends with who started it", not is_open)
    os.killpg(shell.pid, signal.SIGKILL)  # the shell's sleep
    shell.wait()
    shell.stdout.close()
    # What `mon --follow` says of a live bus is drawn as it comes, with its audit and what frames mean
    edges = program(RETRIES, "run", "--edges")
    told = program(edges, "mon", "--follow", "--from", "edges", "--audit").splitlines(keepends=True)
    readings = [line.strip() for line in told if not line.startswith(" ")]
    sentence = program("1571\n", "dis", "--meaning").splitlines()[1].strip()
    bus = Live("-", stdin=subprocess.PIPE)
    try:
        b.open(bus.address)
        for part in (told[:5], told[5:]):
            bus.process.stdin.write("".join(part))
            bus.process.stdin.flush()
            count = sum(not line.startswith(" ") for line in (told[:5] if part != told[5:] else told))
            t.holds(f"a live bus: {count} readings", until(b, f"hdminet.app.model.rounds.length === {count}"))
        t.same("its readings", b.js("[hdminet.app.model.isCapture, hdminet.app.model.rounds.map(o => o.line), hdminet.app.model.faults]"),
               [True, readings, []])
        said = [line.strip() for line in told[:told.index("  all readings\n")] if line.startswith(" ")]
        t.same("its audit", b.js("hdminet.app.model.rounds.flatMap(o => [...o.notes, ...o.remarks].map(one => one.text)).sort()"), sorted(said))
        asked = b.js("(o => hdminet.meaningOf(o, hdminet.app.model))(hdminet.app.model.rounds.find(o => o.bytes === '1571'))")
        t.same("what a frame means", asked, f"{sentence[0].upper()}{sentence[1:]}.")
        bus.process.stdin.close()
    finally:
        b.open(BARE)
        bus.end()
    # A stream of objects is drawn as it comes
    stream = Live("-", stdin=subprocess.PIPE)
    try:
        b.open(stream.address)
        objects = program(example("first-path.net"), "run", "--json").splitlines(keepends=True)
        for part, count in ((objects[:2], 2), (objects[2:4], 4)):
            stream.process.stdin.write("".join(part))
            stream.process.stdin.flush()
            t.holds(f"a stream: {count} rows", until(b, f"hdminet.app.model.rounds.length === {count}"))
        stream.process.stdin.close()
    finally:
        b.open(BARE)
        stream.end()


def edid_told(data, *flags):
    """What the program writes of an EDID, and what it says of the rules that are broken."""
    done = subprocess.run([PROGRAM, "edid", *flags], input=data, capture_output=True, check=False)
    return done.stdout.decode(), "".join(line for line in done.stderr.decode().splitlines(keepends=True) if not line.startswith("hdminet"))


def load_edid(b, data, rows, places):
    """Loads an EDID with objects by hand, and gives it and what is found."""
    edid = page_edids.Edid(data, rows, edid_told(data, "--meaning")[0])
    explained = edid_told(data, "--check", "--explain")[1]
    load(b, edid_told(data, "--meaning")[0], data.hex(), edid.objects(), edid_told(data, "--check", "--json")[0], explained)
    return edid, page_edids.findings_of(explained, places)


# Each byte as it is selected: its cell, what is said of it below the map, which cells are in its stretch, and what the panel marks.
BYTES = """hdminet.app.map.cells.map((cell, at, cells) => {
  const { map } = hdminet.app;
  map.select(at, { isFocused: false });
  const texts = list => [...list].map(one => one.textContent);
  const [head, title, ...bad] = texts(map.reading.querySelectorAll('p'));
  const rows = [...map.reading.querySelectorAll('tr')].slice(1).map(tr => texts(tr.cells));
  const looks = [...cell.classList].filter(name => ['first', 'own', 'fails', 'warns', 'odd'].includes(name)).sort();
  const isIn = cells.map(one => one.classList.contains('in'));
  const node = document.querySelector('.stretch.in');
  return { text: cell.textContent, looks, label: cell.getAttribute('aria-label'), about: [head.trim(), title, rows, bad],
    among: [isIn.indexOf(true), isIn.lastIndexOf(true) + 1], selected: texts(document.querySelectorAll('#bytes .is')),
    node: node.querySelector('code').textContent, count: document.querySelectorAll('.stretch.in').length,
    open: texts(document.querySelectorAll('.stretch details[open] tr.is td:nth-child(2)')) };
})"""
NODES = """[...document.querySelectorAll('.stretch')].map(node => {
  const [head, ...below] = node.children;
  const texts = below.filter(one => one.tagName !== 'DETAILS').flatMap(one => one.childElementCount > 0 ? [...one.children] : [one]);
  return [head.firstChild.textContent, head.querySelector('code').textContent, texts.map(one => one.textContent),
    [...node.querySelectorAll('tr[data-at]')].map(tr => [...tr.cells].map(cell => cell.textContent))];
})"""


def bytes_are_shown(t, b):
    """The map of an EDID: each byte, its field, its value, what that means, which rule it breaks; and the same in the side panel."""
    b.open(BARE)
    b.js(HELPERS)
    for name, data, rows, places in [("a living room's", page_edids.example_edid(), page_edids.LIVING_ROOM, page_edids.LIVING_ROOM_FOUND),
                                     ("an odd one", page_edids.odd_edid(), page_edids.ODD, page_edids.ODD_FOUND),
                                     ("a wrong one", page_edids.wrong_edid(), page_edids.LIVING_ROOM, page_edids.WRONG_FOUND)]:
        edid, findings = load_edid(b, data, rows, places)
        t.same(f"{name}: nothing is noted", b.js("hdminet.app.model.faults"), [])
        t.holds(f"{name}: rules are broken", set(places) <= {said[0] for said, _ in findings}, findings)
        rows_of_bytes = b.js("[...document.querySelectorAll('#bytes .row16')].map(row => [...row.children].map(one => one.textContent))")
        dots = [chr(byte) if 0x20 < byte < 0x7f else "\u00a0" if byte == 0x20 else "·" for byte in data]
        t.same(f"{name}: rows", rows_of_bytes, [
            [text for half in (at, at + 8) for text in (f"{half:03x}", data[half:half + 8].hex(), "".join(dots[half:half + 8]))]
            for at in range(0, len(data), 16)])
        t.same(f"{name}: the panel", b.js(NODES), edid.nodes(findings))
        t.same(f"{name}: the counts", b.js("document.getElementById('counts').textContent"),
               f"{len(data)} bytes, {len(findings)} broken rule{'s' if len(findings) != 1 else ''}")
        t.same(f"{name}: rules and their bytes", b.js(
            "[...document.querySelectorAll('#panel .finding')].map(one => [...one.children].map(part => part.textContent))"),
            [[*said, *([f"byte {where[0]:03x}"] if where else [])] for said, where in findings])
        shown = b.js(BYTES)
        t.same(f"{name}: bytes", [one["text"] for one in shown], [f"{byte:02x}" for byte in data])
        for at, one in enumerate(shown):
            what = f"{name}: byte {at}"
            first, end, line, part = edid.stretch_at(at)
            t.same(f"{what}: its name", one["label"], edid.label(at, findings))
            t.same(f"{what}: how it looks", one["looks"], edid.classes(at, findings))
            t.same(f"{what}: what it says", one["about"], edid.about(at, findings))
            t.same(f"{what}: what is selected", [one["among"], one["selected"]], [[first, end], [f"{data[at]:02x}"]])
            t.same(f"{what}: in the panel", [one["count"], one["node"], one["open"]],
                   [1, edid.title((first, end, line, part)), [field.name for field in edid.fields if field.at == at]])
    # An EDID of which not each byte is known: the objects alone
    load(b, page_edids.Edid(page_edids.odd_edid(), page_edids.ODD, "").objects())
    t.same("objects alone", b.js("hdminet.app.map.cells.map(cell => cell.textContent).filter(text => text !== '··').join('')"),
           page_edids.ODD_BLOCKS.hex())
    t.same("a byte that is not known", b.js("(hdminet.app.map.select(3), hdminet.app.map.reading.textContent)"),
           "003 block 0 byte 3: not knownheader of an EDID")


def bytes_are_reached(t, b):
    """By keys, mouse, search and address; hovering marks both ways; an EDID beside another one."""
    b.open(BARE)
    b.js(HELPERS)
    load_edid(b, page_edids.odd_edid(), page_edids.ODD, page_edids.ODD_FOUND)
    t.same("the map is in the chart's place", b.js("['chart', 'bytes', 'strip', 'wave'].map(id => document.getElementById(id).hidden)"),
           [True, False, True, True])
    at = "[hdminet.app.map.at, Number(document.activeElement.dataset.at)]"
    b.js("document.activeElement.blur()")
    b.key("n")
    t.same("n from anywhere", b.js(at), [133] * 2)
    b.js("clearTimeout(hdminet.app.telling), history.replaceState(null, '', location.pathname)")  # else the address selects it
    load_edid(b, page_edids.odd_edid(), page_edids.ODD, page_edids.ODD_FOUND)
    b.js("document.activeElement.blur()")
    b.key("c")
    for keys, wanted in [(["ArrowRight"], 1), (["ArrowDown"], 17), (["ArrowUp", "ArrowLeft"], 0), (["ArrowUp"], 0), (["End"], 255),
                         (["ArrowDown"], 255), (["Home"], 0), (["PageDown"], 8), (["PageDown"], 10), (["PageUp"], 8), (["n"], 133),
                         (["n"], 134), (["n"], 138), (["n"], 138), (["N"], 137)]:
        for key in keys:
            b.key(key)
        t.same(f"{keys} of the map", b.js(at), [wanted] * 2)
    t.same("controls without a name", b.js(NAMELESS), [])
    t.same("one byte is reached by Tab", b.js("[...document.querySelectorAll('#bytes [tabindex=\"0\"]')].map(one => one.dataset.at)"), ["137"])
    box = "(box => [box.x + box.width / 2, box.y + box.height / 2])(%s.getBoundingClientRect())"
    marked = ("[hdminet.app.map.cells.flatMap((cell, at) => cell.classList.contains('hot') ? [at] : []),"
              " [...document.querySelectorAll('.stretch.hot code')].map(one => one.textContent)]")
    x, y = b.js(box % "hdminet.app.map.cells[133]")
    b.mouse("mouseMoved", x, y)
    t.same("a byte under the mouse", b.js(marked), [[132, 133], ["video 80"]])
    t.holds("is told below", b.js("hdminet.app.map.reading.textContent").startswith("085 block 1 byte 5: 80 = 128"))
    b.click(x, y)
    t.same("a click", b.js(at), [133] * 2)
    x, y = b.js(box % "[...document.querySelectorAll('.stretch button')].find(one => one.textContent.includes('video 80'))")
    b.mouse("mouseMoved", x, y)
    t.same("a line under the mouse", b.js(marked), [[132, 133], ["video 80"]])
    b.js("[...document.querySelectorAll('.stretch button')].find(one => one.textContent.includes('extended 004f11')).click()")
    t.same("a click on a line", b.js("hdminet.app.map.at"), 134)
    b.js("document.querySelectorAll('.stretch.in tr[data-at]')[4].click()")
    t.same("a click on a field", b.js("hdminet.app.map.at"), 136)
    b.js("document.querySelectorAll('#panel .finding .link')[0].click()")
    t.same("a click on a rule", b.js("hdminet.app.map.at"), 138)
    t.holds("its moment is an address", until(b, "location.hash === '#byte=138'", 10), b.js("location.hash"))
    b.js("location.hash = '#byte=9'")
    t.holds("an address is gone to", until(b, "hdminet.app.map.at === 9", 10))
    faint = "[...new Set(hdminet.app.map.cells.map((cell, at) => cell.classList.contains('faint') ? null : at))].filter(at => at !== null)"
    b.js("hdminet.app.searchFor('capability selectable')")
    t.same("a search", [b.js(faint), b.js("document.querySelectorAll('.stretch').length")], [[134, 135, 136, 137], 1])
    b.js("hdminet.app.searchFor('')")
    # Beside another one: what is in both is not marked, wherever it stands
    page = os.path.join(ROOM, "beside-edids.html")
    paths = []
    for name, data in (("one.edid", page_edids.example_edid()), ("other.edid", page_edids.odd_edid())):
        paths.append(os.path.join(ROOM, name))
        with open(paths[-1], "wb") as file:
            file.write(data)
    subprocess.run([os.path.join(TOP, "tools/page"), paths[0], "--beside", paths[1], "-o", page], check=True)
    b.open(page)
    differs = "hdminet.app.%s.cells.flatMap((cell, at) => cell.classList.contains('differs') ? [at] : [])"
    found = [set(b.js(differs % name)) for name in ("map", "mapBeside")]
    bases = [{at for at in one if at < 128} for one in found]
    t.same("two EDIDs: the base block is the same", bases, [set(), set()])
    t.holds("two EDIDs: the data blocks differ", {130, 133, 255} <= found[0] and {130, 133, 255} <= found[1], found)
    names = b.js("[...document.querySelectorAll('.differences th')].map(one => one.textContent)")
    t.same("two EDIDs: their names", names, ["", "one.edid", "", "other.edid"])
    b.js("hdminet.app.mapBeside.select(133)")
    t.same("the other one has a reading of its own", b.js("[hdminet.app.map.at, hdminet.app.mapBeside.reading.textContent.slice(0, 3)]"), [None, "085"])
    subprocess.run([os.path.join(TOP, "tools/page"), paths[0], "--beside", paths[0], "-o", page], check=True)
    b.open(page)
    alike = "[document.querySelectorAll('.differs').length, document.querySelector('#panel p:not(.dim)').textContent]"
    t.same("an EDID beside itself", b.js(alike), [0, "Both say the same."])
    # The same with audio and speakers in the other order
    pages = [page_edids.Edid(*told, edid_told(told[0], "--meaning")[0]) for told in
             ((page_edids.example_edid(), page_edids.LIVING_ROOM), page_edids.moved_edid())]
    texts = [{"name": "x", "text": text, "size": len(text), "wave": False} for edid in pages
             for text in (edid.meaning, edid.data.hex(), edid.objects())]
    readings = [{"texts": places, "said": [], "frames": 0, "flags": "", "beside": places[0] > 0} for places in ([0, 1, 2], [3, 4, 5])]
    b.js(f"hdminet.app.openData({json.dumps({'title': 'x', 'first': 0, 'readings': readings, 'texts': texts})})")
    t.same("an EDID beside the same with two data blocks exchanged", b.js(alike), [0, "Both say the same."])


def bytes_fit(t, b):
    """The map at 390 pixels and in both themes: nothing wider than the window, a contrast of 4.5 for each byte; and all of it printed."""
    b.open(BARE)
    b.js(HELPERS)
    try:
        b.resize(390, 800)
        load_edid(b, page_edids.odd_edid(), page_edids.ODD, page_edids.ODD_FOUND)
        t.holds("nothing is wider", b.js("document.documentElement.scrollWidth") <= 390, b.js("document.documentElement.scrollWidth"))
        wide = "(box => [box.left >= 0, box.right <= innerWidth])(hdminet.app.map.cells[%d].getBoundingClientRect())"
        t.same("each byte of a row is in the window", [b.js(wide % at) for at in (0, 7, 8, 15)], [[True, True]] * 4)
        tops = b.js("[0, 7, 8, 16].map(at => Math.round(hdminet.app.map.cells[at].getBoundingClientRect().top))")
        t.same("eight bytes in a row", [tops[0] == tops[1], tops[1] < tops[2] < tops[3]], [True, True])
        b.js("hdminet.app.map.select(0)")
        b.key("ArrowDown")
        t.same("down is eight bytes", b.js("hdminet.app.map.at"), 8)
        b.js("hdminet.app.map.select(137)")  # of which much is said
        boxes = b.js("[hdminet.app.map.cells[137], hdminet.app.map.reading].map(one => one.getBoundingClientRect().toJSON())")
        t.holds("a byte and what it says are in sight at once", 0 <= boxes[0]["top"] and boxes[0]["bottom"] <= boxes[1]["top"]
                and boxes[1]["bottom"] <= 800 and b.js("scrollY") == 0, boxes)
        b.js("hdminet.app.map.hover(hdminet.app.map.cells[0])")
        t.same("what is below the map keeps its place", b.js("hdminet.app.map.reading.getBoundingClientRect().toJSON()"), boxes[1])
        b.js("hdminet.app.map.hover(null)")
    finally:
        b.resize(WIDTH, HEIGHT)
    for theme in ("light", "dark"):
        b.js(f"hdminet.app.setTheme('{theme}')")
        least = b.js("""(() => {
          const { map } = hdminet.app;
          const light = colour => {
            const parts = colour.match(/[\\d.]+/g).slice(0, 3).map(part => Number(part) / 255);
            const linear = parts.map(part => (part <= 0.04045 ? part / 12.92 : ((part + 0.055) / 1.055) ** 2.4));
            return 0.2126 * linear[0] + 0.7152 * linear[1] + 0.0722 * linear[2];
          };
          const of = cell => {
            const { color, backgroundColor } = getComputedStyle(cell);
            const [dark, bright] = [light(color), light(backgroundColor)].sort((a, b) => a - b);
            return (bright + 0.05) / (dark + 0.05);
          };
          const found = [];
          const odd = map.cells[133];
          for (let hue = 0; hue < 360; hue += 10) {
            odd.style.setProperty('--h', hue);
            map.select(20, { isFocused: false });
            found.push(of(odd));
            map.select(133, { isFocused: false });
            found.push(of(odd), of(map.cells[132]));
          }
          return Math.min(...found, ...map.cells.map(of));
        })()""")
        t.holds(f"{theme}: the contrast of bytes", least >= 4.5, least)
    b.js("hdminet.app.setTheme('light')")
    b.call("Emulation.setEmulatedMedia", media="print")
    try:
        boxes = b.js("['#bytes .cell:last-child', '#panel', 'aside'].map(one => getComputedStyle(document.querySelector(one)).display)")
        t.holds("bytes and their meaning are printed", "none" not in boxes, boxes)
        # What scrolls is not cut into pages
        t.same("none is cut off", b.js("['.grids', '#panel', 'main'].map(one => getComputedStyle(document.querySelector(one)).overflow)"),
               ["visible"] * 3)
        b.call("Page.printToPDF", paperWidth=8.3, paperHeight=11.7)
    finally:
        b.call("Emulation.setEmulatedMedia", media="")


def has_fields():
    """Whether the program has `edid --json`."""
    return edid_told(page_edids.example_edid(), "--json")[0].startswith('{"type":"part"')


def bytes_are_the_programs(t, b):
    """The bytes of each line are those that change it: each is changed by a bit, with a right checksum, and the program's text compared.
    The fields are those of `edid --json`, bit by bit, where the program has it."""
    is_told = has_fields()
    draw = random.Random("bits")
    for name in ("lg-oled55b6v", "monitor-1.4"):
        data = page_edids.example_edid(name)
        b.open(page_of(os.path.join(EXAMPLES, f"{name}.edid")))
        t.same(f"{name}: nothing is noted", b.js("hdminet.app.model.faults"), [])
        owners = b.js("hdminet.app.model.edid.owners.map(one => one.lines.map(line => line.text))")
        lines = edid_told(data)[0].splitlines()
        compared = 0
        for at in range(len(data)):
            changed = bytearray(data)
            changed[at] ^= 1 << draw.randrange(8)
            others = edid_told(page_edids.mended(changed))[0].splitlines()
            differ = [one for one, other in zip(lines, others) if one != other]
            if len(lines) != len(others) or len(differ) != 1 or (not is_told and not owners[at]):
                continue
            compared += 1
            t.same(f"{name}: the line of byte {at}", owners[at], differ)
        t.holds(f"{name}: most bytes have a line", compared > (200 if is_told else 110), compared)
    if not is_told:
        print("page: left out of bytes_are_the_programs: the fields, since the program has no `edid --json`")
        return
    for name in sorted(name for name in os.listdir(EXAMPLES) if name.endswith(".edid")):
        data = page_edids.example_edid(name[:-5])
        told = [json.loads(line) for line in edid_told(data, "--json")[0].splitlines()]
        b.open(page_of(os.path.join(EXAMPLES, name)))
        got = b.js("hdminet.app.map.cells.map((cell, at) => { hdminet.app.map.select(at, { isFocused: false });"
                   " return [...hdminet.app.map.reading.querySelectorAll('tr')].slice(1).map(tr => [...tr.cells].map(one => one.textContent)); })")
        wanted = [[] for _ in data]
        for one in told:
            if one["type"] == "field":
                bits = f"bit {one['high']}" if one["high"] == one["low"] else f"bits {one['high']}..{one['low']}"
                value = data[128 * one["block"] + one["byte"]] >> one["low"] & (1 << one["high"] - one["low"] + 1) - 1
                found = one["found"] if one["found"] and one["found"] != one["meaning"] else ""
                said = ", ".join(filter(None, [one["meaning"], found]))
                wanted[128 * one["block"] + one["byte"]].append(
                    [bits, f"{value:0{one['high'] - one['low'] + 1}b}", one["name"], str(value), said])
        t.same(f"{name}: fields", got, wanted)
    # Without its fields the timings of an extension begin where its third byte says (CTA-861 7.5)
    data = page_edids.example_edid("lg-oled55b6v")
    begin = 128 + data[130]
    b.open(BARE)
    b.js(HELPERS)
    load(b, edid_told(data, "--meaning")[0], data.hex())
    t.same("a timing without fields", b.js(f"[{begin - 1}, {begin}, {begin + 17}, {begin + 18}].map(at => testing.app.model.edid.owners[at]"
                                           ".lines.map(line => line.word).join())"), ["", "timing", "timing", "tail"])


def live_bytes_are_run(t, b):
    """tools/look --live of an EDID: its text is edited, and its bytes follow at once; what is selected stays; lines and bytes are tied."""
    path = os.path.join(ROOM, "live.edid")
    data = page_edids.example_edid()
    with open(path, "wb") as file:
        file.write(data)
    live = Live(path)
    try:
        b.open(live.address)
        b.js(HELPERS)
        until(b, "performance.getEntriesByName('shown').length > 0")
        b.js(LIVE)
        text = edid_told(data)[0]
        hexes = "hdminet.app.map.cells.map(cell => cell.textContent).join('')"
        t.same("the text and its bytes", [b.js("hdminet.live.area.value"), b.js(hexes)], [text, data.hex()])
        b.js("hdminet.app.map.select(144)")
        until(b, "location.hash === '#byte=144'", 10)
        b.js("history.replaceState(null, '', location.pathname)")  # else the address selects it
        draw = random.Random("edids")
        for number in range(8):
            edited = text.replace("product 258", f"product {draw.randrange(65536)}").replace("gamma 120", f"gamma {draw.randrange(256)}")
            b.js(f"edit({json.dumps(edited)})")
            raw = subprocess.run([PROGRAM, "edid", "--words", "--raw"], input=edited.encode(), capture_output=True, check=True).stdout
            t.same(f"edit {number}", b.js(hexes), raw.hex())
        t.same("the byte stays selected", b.js("hdminet.app.map.at"), 144)
        b.js(f"edit({json.dumps(text.replace('gamma 120', 'gamma 1200'))})")
        t.same("a fault, and the last good bytes", [b.js("document.querySelector('#source .gutter .at').textContent"), b.js(hexes)],
               [str(text.splitlines().index("gamma 120") + 1), raw.hex()])
        meant = text.replace("gamma 120\n", "gamma 120\n  as it is\n")
        b.js(f"edit({json.dumps(meant)})")
        b.js("hdminet.app.map.select(24)")
        number = meant.splitlines().index("features 0e") + 1
        t.same("a byte marks its line", b.js("document.querySelector('#source .gutter .is').textContent"), str(number))
        for line, at in (("size 52 29", 21), ("  as it is", 23), ("standard unused", 38), ("edid 1.3", 18)):
            b.js(f"(area => {{ const at = area.value.indexOf({json.dumps(line)}); area.setSelectionRange(at, at); area.click(); }})(hdminet.live.area)")
            t.same(f"a click on {line}", b.js("hdminet.app.map.at"), at)
        t.same("nothing else is asked", [fault for fault in b.faults() if not fault.startswith(f"network: {live.address}")], [])
    finally:
        b.open(BARE)
        live.end()


# An event with more words than a narrow chart has room for
LONG_WORDS = """device tv tv 4
device p1 player 0
plug p1 tv 1
script
at 2000000 send tv 0>4 give-device-power-status
at 3000000 send p1 4>0 report-power-status standby
end 4000000
"""
# Texts of rows that stand over the row's time, and those of events that stand over an address of the row.
OVER_OTHERS = """(() => {
  dispatchEvent(new Event('beforeprint'));
  const found = [...document.querySelectorAll('#space .row')].flatMap(row => {
    const boxes = selector => [...row.querySelectorAll(selector)].map(one => [one.getBoundingClientRect(), one.textContent]);
    const labels = boxes('.label');
    const isOver = ([one, text]) => {
      const isOverTime = boxes('.time').some(([time]) => one.left < time.right);
      const isOverClaim = row.classList.contains('event') && boxes('.claim').some(([box]) => one.left < box.right && box.left < one.right);
      return isOverTime || isOverClaim || text === '';
    };
    return labels.filter(isOver).map(([, text]) => text);
  });
  dispatchEvent(new Event('afterprint'));
  return found;
})()"""


def other_sizes_fit(t, b):
    """A telephone: the panel below the chart, nothing wider than the window, the help on the first screen; and all rows where it is printed."""
    page = page_of(os.path.join(EXAMPLES, "living-room-evening.net"))
    try:
        b.resize(390, 800)
        b.open(page)
        b.js(HELPERS)
        boxes = b.js("['chart', 'panel', 'wave'].map(id => (box => [box.x, box.y, box.width])"
                     "(document.getElementById(id).getBoundingClientRect()))")
        t.holds("the chart has the window's width", boxes[0][2] > 350, boxes)
        t.holds("the panel stands below", boxes[1][1] > boxes[0][1] + 200 and boxes[1][2] > 350, boxes)
        t.holds("nothing is wider", b.js("document.documentElement.scrollWidth") <= 390)
        for path in (os.path.join(EXAMPLES, "capture.sigrok.vcd"), os.path.join(EXAMPLES, "ports.net"), written("retries.net", RETRIES),
                     written("wide.net", LONG_WORDS)):
            b.open(page_of(path))
            t.same(f"{os.path.basename(path)}: texts that stand over others", b.js(OVER_OTHERS), [])
        b.open(BARE)
        shown = b.js("['aside', '#chart'].map(one => getComputedStyle(document.querySelector(one)).display)")
        t.same("an empty page has no panel there", shown, ["none", "block"])
        help_at = b.js("document.querySelector('.empty h2').getBoundingClientRect().y")
        t.holds("the help stands on the first screen", 0 < help_at < 500, help_at)
    finally:
        b.resize(WIDTH, HEIGHT)
    b.open(page)
    rows = b.js("hdminet.app.model.rows.length")
    drawn_rows = b.js("(() => { dispatchEvent(new Event('beforeprint'));"
                      " const count = document.querySelectorAll('#space .row[data-row]').length;"
                      " dispatchEvent(new Event('afterprint')); return count; })()")
    t.same("all rows are printed", drawn_rows, b.js("hdminet.app.chart.shown.length"))
    t.holds("there are many", rows > 40, rows)
    b.call("Page.printToPDF", paperWidth=8.3, paperHeight=11.7)
    t.holds("after that the chart is as before", b.js("document.querySelectorAll('#space .row[data-row]').length") <= rows)


def mouse_works(t, b):
    """Rows and frames are selected by a click, cursors stand on edges, the wheel zooms at the mouse, and bars are moved."""
    show(b, os.path.join(EXAMPLES, "first-path.net"))
    hit = b.js("(box => [box.x + 300, box.y + 10])(document.querySelectorAll('#space .row.ok .hit')[1].getBoundingClientRect())")
    b.click(*hit)
    t.same("a click selects a row", b.js("testing.app.selected.o.frame"), "4>f report-physical-address 1.0.0.0 playback")
    b.settle()
    left, top = b.js("(box => [box.x, box.y])(document.getElementById('line').getBoundingClientRect())")

    def x_of(instant):
        return left + b.js(f"testing.app.wave.x({instant})")
    # The report begins at 224,105 (docs of the trace in README); its start bit is low for 3,700 (CEC 5.2)
    b.mouse("mouseMoved", x_of(226000), top + 80)
    b.settle()
    reading = b.js("document.getElementById('reading').textContent")
    t.holds("what is under the mouse is read", "CEC low 3700 µs" in reading and "start bit, low 3700 of 3500..3900" in reading
            and "pulled by p1" in reading, reading)
    b.click(x_of(224105) + 3, top + 80)
    b.click(x_of(227805) - 3, top + 80, modifiers=8)
    t.same("cursors on the nearest edges", b.js("testing.app.wave.cursors"), [224105, 227805])
    b.settle()
    t.holds("they are read", b.js("document.getElementById('reading').textContent").startswith("A 224105   B 227805   B−A 3700 µs"),
            b.js("document.getElementById('reading').textContent"))
    width = b.js("testing.app.wave.to - testing.app.wave.from")
    at = round(x_of(240000))
    under = b.js(f"testing.app.wave.timeAt({at - left})")
    b.mouse("mouseWheel", at, top + 80, deltaX=0, deltaY=-240)
    b.settle()
    t.holds("the wheel zooms", b.js("testing.app.wave.to - testing.app.wave.from") < width * 0.8)
    t.holds("at the mouse", abs(x_of(under) - at) < 2, f"{x_of(under)} and {at}")
    b.js("testing.app.wave.showAll()")
    b.settle()
    b.click(x_of(1020000), top + 30)
    t.same("a click on a frame selects it", b.js("testing.app.selected.o.frame"), "4>0 image-view-on")
    before = b.js("document.querySelector('aside').offsetWidth")
    bar = b.js("(box => [box.x + 2, box.y + 100])(document.getElementById('side-bar').getBoundingClientRect())")
    b.mouse("mousePressed", *bar, button="left", clickCount=1)
    b.mouse("mouseMoved", bar[0] - 120, bar[1], button="left")
    b.mouse("mouseReleased", bar[0] - 120, bar[1], button="left", clickCount=1)
    t.same("the bar makes the panel wider", b.js("document.querySelector('aside').offsetWidth") - before, 120)


def hostile_inputs_are_harmless(t, b):
    """Nothing of an input is run or fetched, and nothing throws: each tab and many rows are drawn of each."""
    b.open(BARE)
    b.js(HELPERS)
    t.holds("the bare page says what it takes", "Drop files here" in b.js("document.body.textContent"))
    b.js("window.thrown = []; window.addEventListener('error', event => thrown.push(`${event.message}`)); true")
    inputs = dict(hostile_inputs(program, example("living-room-evening.net")))
    for name, texts in inputs.items():
        load(b, *texts)
        found = b.js("""(() => { const { app, PANELS } = hdminet;
          thrown.length = 0;
          try {
            app.wave.draw();
            for (const name of Object.keys(PANELS)) if (PANELS[name].isThere(app.model)) app.openPanel(name);
            for (const row of app.model.rows.filter((_, i) => i % 4 === 0).slice(0, 8)) {
              if (app.chart.shown.includes(row)) app.select(row);
              app.wave.draw();
            }
            app.exportSvg(); app.copyMermaid(); app.setTheme();
          } catch (fault) { thrown.push(fault.stack); }
          if (document.getElementById('dialog').open) document.getElementById('dialog').close();
          return { thrown, hit: window.hit || 0, images: document.querySelectorAll('#space img, #panel img, #heads img').length };
        })()""")
        t.same(f"hostile: {name}", found, {"thrown": [], "hit": 0, "images": 0})
    load(b, '{"line":"x","type":"later"}\n{"line":"y","type":"later"}\n')
    t.same("objects of a later program", b.js("testing.app.model.faults"), ["2 of the type later, which this page does not know"])
    objects = program(example("first-path.net"), "run", "--json")
    cut = objects[:objects.index('"complete","frame":"4>0 image-view-on"')]
    load(b, cut)
    t.same("objects that are cut: what is readable, and a note", b.js("(m => [m.rounds.length, m.faults])(testing.app.model)"),
           [4, [f"line 6 is no object of the program: {cut.splitlines()[5][:60]}"]])
    report = program(example("wrong-film.test"), "check", "--json")
    load(b, report.replace('"version":13', '"version":14'))
    t.same("a report of another version: what is readable, and a note", b.js("(m => [m.tests.length, m.faults])(testing.app.model)"),
           [3, ["a report of version 14; this page reads version 13"]])
    load(b, report)
    t.same("a report of this version", b.js("testing.app.model.faults"), [])
    limit = b.js("hdminet.LIMITS.text")
    dump = program(example("first-path.net"), "run", "--edges", "--as", "vcd", "--drives")
    b.js(f"hdminet.LIMITS.text = {len(objects) - 300}")
    load(b, objects)
    t.same("a text that is too long: its begin, and a note", b.js("(m => [m.rounds.length, m.states.length, m.faults])(testing.app.model)"),
           [6, 1, ["text 0: too long; its begin is shown"]])
    b.js(f"hdminet.LIMITS.text = {len(dump) // 2}")
    load(b, dump)
    t.same("a dump that is too long", b.js("(m => [m.faults, 0 < m.wave.end && m.wave.end < 1500000])(testing.app.model)"),
           [["text 0: too long; its begin is shown"], True])
    b.js("hdminet.LIMITS.text = 1000")
    drop_file(b, "long.jsonl", objects)
    t.holds("a file that is too long", until(b, "hdminet.app.model.faults.includes('long.jsonl: too long; its begin is shown')", 20),
            b.js("hdminet.app.model.faults"))
    b.js(f"hdminet.LIMITS.text = {limit}")
    load(b, "")
    t.holds("an empty file is named", "empty" in b.js("document.getElementById('panel').textContent"))
    load(b, inputs["broken lines"][0])
    t.holds("broken lines are named", "is no object of the program" in b.js("testing.app.openPanel('notes'), testing.panel()"))
    t.same("nothing is fetched or wrong", b.faults(), [])
    # The same through tools/page: its data has no way out of its element.
    objects = inputs["names"][0]
    evil = os.path.join(ROOM, "evil.html")
    title = "</script><img src=x onerror=window.hit=1>"
    subprocess.run([os.path.join(TOP, "tools/page"), "--title", title, "-o", evil], input=objects.encode(), check=True)
    b.open(evil)
    t.same("a hostile title and names in a page",
           b.js("[window.hit || 0, document.title.startsWith('</script>'), hdminet.app.model.rows.length]"), [0, True, 2])
    ran = b.js("(() => { const [one, script] = ['div', 'script'].map(name => document.createElement(name));"
               f" one.innerHTML = {json.dumps(MARKUP)}; script.textContent = 'window.hit = 1'; document.body.append(one, script);"
               " return new Promise(done => setTimeout(() => done(window.hit || 0), 200)); })()")
    t.same("the page's policy runs no script but its own", ran, 0)
    b.open(BARE)
    b.js(HELPERS)


def inferences_are_the_programs(t, b):
    """What the page infers is what the program says: bits, who acknowledged, addresses and places, of random rooms."""
    b.open(BARE)
    draw = random.Random("rooms")
    rooms = rounds = 0
    faults = []
    while rooms < 15:
        room = random_room(draw)
        objects = program(room, "run", "--json")
        if not objects:
            continue
        rooms += 1
        dump = program(room, "run", "--edges", "--as", "vcd", "--drives")
        load(b, objects, dump, room)
        found = b.js(INFERENCES)
        rounds += found["rounds"]
        faults += [f"room {rooms}: {fault}" for fault in found["faults"]]
        named = page_values.bits_of(program(room, "run", "--edges", "--as", "vcd", "--named", "--drives"))
        for line, begin, close, slots in found["slots"]:
            wanted = [[at, bit] for at, bit in named if begin <= at < close]
            faults += [] if slots == wanted else [f"room {rooms}: {line}: {slots}, the program has {wanted}"]
        load(b, objects, dump, room, program(dump, "mon", "--audit", "--json", "--from", "vcd"))
        audited = b.js(INFERENCES)["stops"]
        faults += [f"room {rooms}: {one}, with an audit {other}" for one, other in zip(found["stops"], audited) if one != other]
    t.same(f"{rooms} random rooms", faults[:5], [])
    t.holds("they have rounds", rounds > 100, rounds)


INFERENCES = r"""(() => {
  const { app: { model }, slotsOf, acknowledgersOf } = hdminet;
  const faults = [...model.faults];
  for (const round of model.rounds) {
    const slots = slotsOf(model, round);
    if (!slots) { faults.push(`no slots: ${round.line}`); continue; }
    const bits = slots.slice(1).map(slot => slot.bit).join('');
    const isCut = round.ending !== 'complete' && round.ending !== 'bad-start';
    const isFront = bits.startsWith(round.bits) && bits.length - round.bits.length <= 1;
    if (isCut && !isFront) faults.push(`bits ${bits}: ${round.line}`);
    const acknowledgers = acknowledgersOf(model, round);
    if (!acknowledgers) continue;
    const last = acknowledgers[acknowledgers.length - 1];
    const isTaken = round.verdict === 'ack' || round.verdict === 'refused';
    if ((last.length > 0) !== isTaken) faults.push(`${JSON.stringify(acknowledgers)}: ${round.line}`);
    const holders = round.row.to.map(lane => model.lanes[lane].name);
    const others = last.filter(name => name !== 'a pulse' && !round.by.includes(name) && !holders.includes(name));
    if (round.row.cls === 'ack' && others.length > 0) faults.push(`holders ${holders}, acknowledged by ${last}: ${round.line}`);
  }
  for (const state of model.states) {
    const lane = model.lanes[model.laneOf.get(state.device)];
    const last = lane.history[lane.history.length - 1];
    if (last.isJoined !== Boolean(state.physical)) faults.push(`joined: ${lane.name}`);
    if (last.isJoined && last.physical !== state.physical) faults.push(`${lane.name} at ${last.physical}: ${state.line}`);
  }
  const inWords = (bit, i) => (i === 0 ? 'start' : i % 10 === 9 ? `EOM=${bit}` : i % 10 === 0 ? `ACK=${bit}` : String(bit));
  const slots = model.rounds.map(round => [round.line, round.begin, round.close,
    (slotsOf(model, round) || []).filter(({ at, bit }, i) => at < round.close && (i === 0 || bit !== null)).map(({ at, bit }, i) => [at, inWords(bit, i)])]);
  const stops = model.rounds.map(({ line, row }) => [line, row.cls, row.text, row.from, row.to]);
  return { faults: faults.slice(0, 5), rounds: model.rounds.length, slots, stops };
})()"""


def dumps_are_read(t, b):
    """Dumps in the forms of other tools: the changes of the wire, worked out by hand (docs/captures.md)."""
    b.open(BARE)
    head = ("$timescale 1 us $end\n$var wire 1 ! CEC $end\n$var wire 8 # bus $end\n$var real 1 r temperature $end\n"
            "$enddefinitions $end\n")
    for name, text, changes in [
            ("plain", head + "#0\n1!\n#100\n0!\n#3800\n1!\n#9000\n", [100, 3800]),
            ("nanoseconds, rounded up", head.replace("1 us", "1 ns") + "#0 1! #100001 0! #3800000 1! #9000000\n", [101, 3800]),
            ("tens of nanoseconds", head.replace("1 us", "10ns") + "#0 1! #10001 0! #380000 1! #900000", [101, 3800]),
            ("one line", head + "#0 1! #100 0! #3800 1! #9000", [100, 3800]),
            ("a space before the name", head + "#0 1 ! #100 0 ! #3800 z ! #9000", [100, 3800]),
            ("vectors, reals and strings", head + "#0 b1 ! #100 b0 ! b10101 # r1.5 r sabc r #3800 b1 ! #9000", [100, 3800]),
            ("several in a microsecond", head + "#0 1! #100 0! 1! #200 0! #200 1! #300 0! #3800 x! #9000", [300, 3800]),
            ("a comment", head + "$dumpvars 1! $end #100 0! $comment #5 1! $end #3800 1! #9000", [100, 3800]),
            ("low at first", head + "#0 0! #3700 1! #9000", [0, 3700]),
            ("a level that comes again", head + "#0 1! #100 1! #200 0! #300 0! #3900 1! #3950 1! #9000", [200, 3900])]:
        t.same(f"dump: {name}", b.js(f"hdminet.readDump({json.dumps(text)}).line.changes"), changes)


def drop_file(b, name, text):
    """Drops a file on the page."""
    file = f"new File([{json.dumps(text)}], {json.dumps(name)})"
    b.js(f"(async () => {{ const data = new DataTransfer(); data.items.add({file});"
         "document.dispatchEvent(new DragEvent('drop', { dataTransfer: data, bubbles: true, cancelable: true })); })()")


def files_may_be_dropped(t, b):
    """Objects, then a dump, a room and an EDID, one after the other, by drop and by paste."""
    b.open(BARE)
    b.js(HELPERS)
    room = example("first-path.net")

    def drop(name, text):
        drop_file(b, name, text)
        t.holds(f"dropped: {name} is read", until(b, f"testing.app.texts.some(one => one.name === {json.dumps(name)})", 20))
    there = "(m => [m.rounds.length, !!m.wave, !!m.room, m.meanings.length, m.faults.length])(testing.app.model)"
    with open(os.path.join(EXAMPLES, "lg-oled55b6v.edid"), "rb") as file:
        meaning = subprocess.run([PROGRAM, "edid", "--meaning"], stdin=file, capture_output=True, check=True).stdout.decode()
    for name, text, wanted in [("x.jsonl", program(room, "run", "--json"), [6, False, False, 0, 0]),
                               ("x.vcd", program(room, "run", "--edges", "--as", "vcd", "--drives"), [6, True, False, 0, 0]),
                               ("x.net", room, [6, True, True, 0, 0]), ("x.meaning", meaning, [6, True, True, 1, 0])]:
        drop(name, text)
        t.same(f"dropped: {name}", b.js(there), wanted)
    b.js(f"(async () => {{ const bytes = new Uint8Array({list(page_edids.example_edid())}); const data = new DataTransfer();"
         " data.items.add(new File([bytes], 'tv.edid'));"
         " document.dispatchEvent(new DragEvent('drop', { dataTransfer: data, bubbles: true, cancelable: true })); })()")
    t.holds("dropped: an EDID's bytes", until(b, "testing.app.map.cells.length === 256", 10))
    drop("tv.fields", page_edids.Edid(page_edids.example_edid(), page_edids.LIVING_ROOM, "").objects())
    t.same("its fields are added, and lines of another EDID are named", b.js("(m => [m.rounds.length, m.parts.length, m.faults])"
           "(testing.app.model)"), [6, 5, ["x.meaning: the lines of another EDID than the bytes"]])
    t.same("they stand in the panel beside a run", b.js("[testing.app.openPanel('edids'), !!document.querySelector('#panel .grids'),"
           " document.getElementById('bytes').hidden].slice(1)"), [True, True])
    # A session of `live` as it is: what it showed of its devices is so from then on
    lines = LOOSE.rstrip("\n").split("\n")
    session = "\n".join([*lines[:-1], "run to 1000000", "show p1", "run to 3700000", "show p1", lines[-1], ""])
    drop("session.jsonl", program(session, "live", "--json"))
    t.same("a session", b.js("(m => [m.rounds.length, m.faults, m.lanes[1].history.map(one => [one.logical, one.isJoined])])(testing.app.model)"),
           [sum(" complete " in line for line in program(LOOSE, "run").splitlines()), [], [["4", True], ["", False]]])
    objects = json.dumps(program(example("four-players.net"), "run", "--json"))
    b.js(f"(() => {{ const data = new DataTransfer(); data.setData('text', {objects});"
         " document.dispatchEvent(new ClipboardEvent('paste', { clipboardData: data, bubbles: true })); })()")
    t.same("pasted objects are a new run", b.js("testing.app.model.states.length"), 5)


def sentences_are_the_programs(t, b):
    """What a frame means is the program's sentence, with a capital; a page without it has the frame's text. A room is known by its
    objects."""
    room = example("four-players.net")
    objects = program(room, "run", "--json", "--room")
    frames = [json.loads(line) for line in objects.splitlines() if '"type":"round"' in line]
    complete = [frame for frame in frames if frame["ending"] == "complete"]
    said = program("".join(frame["bytes"] + "\n" for frame in complete), "dis", "--meaning").splitlines()
    sentences = [line[2].upper() + line[3:] for line in said if line.startswith("  ")]
    meanings = "testing.app.model.rounds.filter(o => o.ending === 'complete').map(o => hdminet.meaningOf(o, testing.app.model))"
    out = os.path.join(ROOM, "sentences.html")
    subprocess.run([os.path.join(TOP, "tools/page"), os.path.join(EXAMPLES, "four-players.net"), "-o", out], check=True)
    b.open(out)
    b.js(HELPERS)
    shown = [re.sub(r" \([a-z]+[0-9]*\)|( Nobody answers.*| Somebody acknowledges.*)$", "", text).rstrip(".") for text in b.js(meanings)]
    t.same("sentences", shown, sentences)
    b.open(BARE)
    b.js(HELPERS)
    b.js(f"testing.app.load([{{ name: 'x', text: {json.dumps(objects)} }}])")
    t.same("no sentences", [text.split(" Nobody")[0].split(" Somebody")[0] for text in b.js(meanings)], [o["frame"] for o in complete])
    t.same("devices of the objects", b.js("testing.app.model.room.devices.map(one => one.name)"),
           [line.split(" ")[1] for line in room.splitlines() if line.startswith("device ")])
    t.same("events of the objects", b.js("testing.app.model.events.map(row => row.text)"),
           [line.split(" ", 2)[2] for line in room.splitlines() if line.startswith("at ")])


def slower(rows, percent):
    """A capture that is so much slower, of lines of an edge file."""
    return "".join(f"{int(at) * (100 + percent) // 100} {level}\n" for at, level in rows)


def as_dump(rows, *, other=False, inverted=False, chatter=False):
    """A Value Change Dump of the lines of an edge file, with another wire before it, upside down, or with spikes."""
    names = ["$var wire 1 s SDA $end"] if other else []
    lines = ["$timescale 1 us $end", *names, "$var wire 1 ! CEC $end", "$enddefinitions $end", "#0", "0!" if inverted else "1!"]
    for number, (at, level) in enumerate(rows):
        lines.append(f"#{at}")
        if level == "end":
            continue
        lines.append(f"{1 - int(level) if inverted else level}!")
        if chatter and level == "1" and number % 20 == 1:
            lines += [f"#{int(at) + 12}", "0!", f"#{int(at) + 30}", "1!"]
    return "\n".join(lines) + "\n"


def advice_is_shown(t, b):
    """What the program advises, by its verdict and of wires, stands above the run, which opens as it is read best; a button reads it
    otherwise. The readings are those of the program with these flags."""
    rows = [line.split() for line in program(RETRIES, "run", "--edges").splitlines()]
    frames = program("".join(f"{at} {level}\n" for at, level in rows), "mon").count(" complete ")
    for name, text, flags, says in [
            ("inverted.vcd", as_dump(rows, inverted=True), ["--invert"], ""),
            ("chatter.vcd", as_dump(rows, chatter=True), ["--glitch", "20"], ""),
            ("other.vcd", as_dump(rows, other=True), ["--signal", "CEC"],
             "The program says: the first wire has no edge, --signal takes one of SDA, CEC. "),
            ("slow.edges", slower(rows, 6), ["--margin", "70"], "")]:
        show(b, written(name, text))
        banner = b.js("document.getElementById('banner').textContent")
        t.holds(f"{name}: the banner", f"Read with {' '.join(flags)}. {says}" in banner, banner)
        t.same(f"{name}: the way back", b.js("[...document.querySelectorAll('#banner button')].map(one => one.textContent)")[0],
               f"Read as it is: {frames} frames fewer")
        read = [line for line in program(text, "mon", "--audit", *flags).splitlines() if not line.startswith(" ")]
        t.same(f"{name}: the readings", b.js("testing.app.model.rounds.map(o => o.line)"), read)
        t.same(f"{name}: its wave is that line", b.js(
            "testing.app.model.rounds.filter(o => o.ending === 'complete' && !hdminet.slotsOf(testing.app.model, o)).length"), 0)
        b.js("document.querySelector('#banner button').click()")
        for _ in range(100):
            if b.js("testing.app.reading === 0 && testing.app.model.rounds.every(o => o.ending !== 'complete')"):
                break
            time.sleep(0.05)
        b.settle()
        offer = b.js("[...document.querySelectorAll('#banner button')].map(one => one.textContent)")
        t.holds(f"{name}: the button", f"Read with {' '.join(flags)}: {frames} frames more" in offer, offer)
    show(b, written("asked.edges", slower(rows, 6)), "--margin", "200")
    t.same("as asked for, nothing is advised", b.js("document.querySelectorAll('#banner p:not(.verdict)').length"), 0)
    lost = "# cec-ctl --store-pin\n0.000000000 1\n0.012000000 65536\n0.015700000 1\n0.100000000 1\n"
    show(b, written("lost.pin", lost))
    t.same("lost events", b.js("[...document.querySelectorAll('#banner p:not(.verdict)')].map(one => one.textContent)"),
           ["The program says: events were lost before line 3. "])
    for name in ("capture.csv", "capture.pin"):
        show(b, os.path.join(EXAMPLES, name))
        # examples/capture.edges is the same line
        wanted = [int(line.split()[0]) for line in example("capture.edges").splitlines() if re.match(r"\d+ [01]$", line)]
        t.same(f"{name} has a wave", b.js("testing.app.model.wave.line.changes"), wanted)


BANNER = "[document.getElementById('banner').hidden, [...document.querySelectorAll('#banner p')].map(one => [one.className, one.textContent])]"


def verdict_of(word, says, *, hint=None, value=None, more=None):
    """The object of a verdict (docs/json.md)."""
    said = f", more frames with {hint}{'' if value is None else f' {value}'}: {more}" if hint else ""
    return json.dumps({
        "line": f"verdict {word}: {says}{said}", "type": "verdict", "word": word, "sentence": says, "in_order": None, "frames": None,
        "micros": None, "count": None, "hint": hint, "value": value, "more": more}, separators=(",", ":"))


def verdicts_are_shown(t, b):
    """The verdict of a capture stands above it, with what to do: objects by hand, on the page alone."""
    reading = ('{"line":"100000 127150 complete 4>0 ack","type":"reading","begin":100000,"close":127150,"ending":"complete","frame":"4>0",'
               '"initiator":"4","destination":"0","bytes":"40","verdict":"ack"}')
    b.open(BARE)
    t.same("no capture", b.js(BANNER), [True, []])
    for verdict, wanted in [
            (verdict_of("fine", "a CEC line, frames in order: 1 of 1"), ["verdict fine", "✓ fine: a CEC line, frames in order: 1 of 1. "]),
            (verdict_of("mid-frame", "a CEC line, the capture begins within a frame, frames in order: 1 of 1"),
             ["verdict fine", "✓ mid-frame: a CEC line, the capture begins within a frame, frames in order: 1 of 1. "
              "The first readings are the rest of the frame within which the capture begins."]),
            (verdict_of("rate", "edges stand at multiples of 500 us"),
             ["verdict wrong", "⚠ rate: edges stand at multiples of 500 us. Sample each 250 microseconds at least, better each microsecond."]),
            (verdict_of("nearly", "times are a little out of the windows of CEC", hint="--margin", value=40, more=3),
             ["verdict wrong", "⚠ nearly: times are a little out of the windows of CEC, more frames with --margin 40: 3. mon --margin 40"]),
            (verdict_of("inverted", "the levels are turned, idle is low", hint="--invert", more=2),
             ["verdict wrong", "⚠ inverted: the levels are turned, idle is low, more frames with --invert: 2. mon --invert"]),
            (verdict_of("<b>new</b>", "a word of a later program"), ["verdict wrong", "⚠ <b>new</b>: a word of a later program. "])]:
        load(b, reading, verdict)
        t.same(f"a verdict: {wanted[1][:20]}", b.js(BANNER), [False, [wanted]])
        t.same("no note", b.js("hdminet.app.model.faults"), [])
    load(b, reading)
    t.same("a capture without a verdict", b.js(BANNER), [True, []])
    # One that comes later belongs to the capture that is there.
    b.js("hdminet.app.loadGiven([{ name: 'x.verdict', text: %s }])" % json.dumps(verdict_of("odd", "much is not as the standard has it")))
    t.same("beside the capture", [b.js("hdminet.app.model.rounds.length"), b.js(BANNER)[1][0][0]], [1, "verdict wrong"])
    # Of each word that docs/mon.md has there is something to do, or a flag.
    table = read(os.path.join(TOP, "docs/mon.md")).split("## The verdict")[1].split("\n- ")[0]
    words = {word for row in re.findall(r"^\| (`[a-z`, -]*) \|", table, re.M) for word in re.findall(r"`([a-z-]+)`", row)}
    flagged = {word for row in re.findall(r"^\| (`[a-z`, -]*) \| .* \| `--", table, re.M) for word in re.findall(r"`([a-z-]+)`", row)}
    t.same("words with a remedy", sorted(b.js("Object.keys(hdminet.REMEDIES)")), sorted(words - (flagged - {"odd"}) - {"fine"}))


def verdicts_are_the_programs(t, b):
    """The page of a capture has the verdict of each reading, and a button for the reading that its flag gives."""
    if "--verdict" not in program("", "mon", "--help"):
        return
    rows = [line.split() for line in program(RETRIES, "run", "--edges").splitlines()]
    for name, text, given in [
            ("straight.edges", slower(rows, 0), []), ("turned.vcd", as_dump(rows, inverted=True), []), ("late.edges", slower(rows, 6), []),
            ("asked.edges", slower(rows, 6), ["--margin", "200"]), ("still.edges", "12000 end\n", []), ("tenth.edges", slower(rows, -90), [])]:
        show(b, written(name, text), *given)
        readings = b.js("hdminet.app.data.readings.map(one => [one.flags, one.frames, one.hints])")
        for index, (flags, frames, hints) in enumerate(readings):
            b.js(f"hdminet.app.openReading({index})")
            told = json.loads(program(text, "mon", "--verdict", "--json", *TOOL.without(flags.split(), "--margin")))
            kind, shown = b.js(BANNER)[1][0]
            is_fine = told["word"] in ("fine", "mid-frame")
            t.same(f"{name} {flags}: how it is marked", kind, f"verdict {'fine' if is_fine else 'wrong'}")
            says = told["line"].removeprefix(f"verdict {told['word']}: ")
            t.holds(f"{name} {flags}: what it says", shown.startswith(f"{'✓' if is_fine else '⚠'} {told['word']}: {says}. "), shown)
            t.same(f"{name} {flags}: its flag is a reading", bool(hints), bool(told["hint"]) and "--margin" not in flags)
            for other in hints:
                t.same(f"{name} {flags}: so many frames more", readings[other][1] - frames, told["more"])
                asked = f"Read with {readings[other][0]}: {told['more']} frame{'' if told['more'] == 1 else 's'} more"
                buttons = b.js("[...document.querySelectorAll('#banner button')].map(one => one.textContent)")
                t.same(f"{name} {flags}: one button", buttons.count(asked), 1)


def attempts_are_the_audits(t, b):
    """Three tries of 0 to 8 and two of 0 to 4 are no five attempts, and eight tries are eight (CEC 7.1)."""
    tries = {"three.net": ["8", "8", "8", "4", "4"], "eight.net": ["8"] * 8}
    for name, wanted in [("three.net", [1, 2, 3, 1, 2]), ("eight.net", [1, 2, 3, 4, 5, 6, 7, 8])]:
        # Each header is pulled from outside, three bit periods and more after the last bit of the one before (CEC 9.1).
        laid = "".join(f"{4000000 + 33900 * number} last 10 0>{to} give-osd-name\n" for number, to in enumerate(tries[name]))
        pulls = program(laid, "lay")
        show(b, written(name, f"device tv tv 4\nscript\n{pulls}end 9000000\n"))
        shown = b.js("testing.app.model.rows.filter(row => row.type === 'round' && row.at >= 4000000).map(row => row.attempt)")
        t.same(name, shown, wanted)


def tool_is_imported(t, b):
    """tools/page as a module: the flags that a line of the program and a verdict advise, by hand."""
    tool = page_tool()
    for line, given, wanted in [
            ("the first wire has no edge, --signal takes one of SDA, CEC", [], [["--signal", "SDA"], ["--signal", "CEC"]]),
            ("events were lost before line 3", [], [])]:
        t.same(f"advice: {line}", tool.wires_told(line, given), wanted)
    for hint, value, given, wanted in [
            ("--margin", 40, [], [["--margin", "40"]]), ("--margin", 40, ["--margin", "10", "--invert"], []),
            ("--glitch", 120, ["--glitch", "50", "--invert"], [["--invert", "--glitch", "120"]]),
            ("--invert", None, ["--glitch", "9"], [["--glitch", "9", "--invert"]]), ("--invert", None, ["--invert"], [[]]), (None, None, [], [])]:
        verdict = verdict_of("odd", "", hint=hint, value=value, more=1).encode()
        t.same(f"verdict: {hint} {value}", tool.hinted(verdict, given), wanted)
    t.same("no verdict", tool.hinted(b"", []), [])
    # Bytes that are no UTF-8, and characters that end lines elsewhere, in the lines that are passed over
    room = LOOSE.encode().replace(b"script\n", "script\n# \u0085 \u2028\n".encode() + b"# \xff\x0c\n\n")
    pages, _ = tool.texts_of("x.net", room, [])
    t.holds("states of a room with odd bytes", b'"device":"p2"' in dict(pages[0]["texts"])["states"])


def pages_are_made(t, b):
    """tools/page and tools/look: no page where the file is refused, one that opens where it is not, and no network."""
    missing = os.path.join(ROOM, "missing.html")
    top = "# a room\ndevice tv tv 4\n"
    for name, text, words in [
            ("typo.net", f"{top}script\nat 5 pres tv play\nend 10\n", ["line 4 of the input: at 5 pres tv play", "did you mean `press`"]),
            ("typo.test", f"{top}script\nat 5 press tv play\nexpect nothing\nend 10\n", ["line 5 of the input: expect nothing"]),
            ("returns.net", f"{top}script\nend 10\n".replace("\n", "\r\n"), ["this line ends with a carriage return before its line feed"]),
            ("capital.net", f"{top}Script\nend 10\n", ["line 3: Script", "the line `script` is missing"])]:
        for tool in (["tools/page", written(name, text), "-o", missing], ["tools/look", written(name, text), "-o", missing]):
            done = subprocess.run([os.path.join(TOP, tool[0]), *tool[1:]], capture_output=True, check=False)
            said = done.stderr.decode()
            t.holds(f"{tool[0]} refuses {name} in the words of --explain", done.returncode == 1 and not os.path.exists(missing)
                    and all(word in said for word in words), said)
    out = os.path.join(ROOM, "standard-input.html")
    subprocess.run([os.path.join(TOP, "tools/page"), "-o", out], input=example("wrong-film.test").encode(), check=True)
    b.open(out)
    t.same("a test on standard input is run", b.js("[hdminet.app.model.rounds.length, hdminet.app.model.tests.length]"), [6, 3])
    done = subprocess.run([os.path.join(TOP, "tools/page"), written("words.txt", "what is this\n"), "-o", missing],
                          capture_output=True, check=False)
    t.same("a text of no kind is nothing to look at", [done.returncode, os.path.exists(missing), b"is no room" in done.stderr], [1, False, True])
    for name, text in [("plain.trace", example("first-path.trace")), ("plain.readings", example("capture.readings")),
                       ("plain.report", example("wrong-film.failures"))]:
        show(b, written(name, text))
        found = b.js("(m => [m.faults, m.rounds.length > 0 ? m.rounds.map(o => o.line) : m.tests.map(test => test.line)])"
                     "(testing.app.model)")
        lines = [line for line in text.splitlines() if re.match(r"\d+ \d+ [a-z]" if "report" not in name else "ok|not ok", line)]
        t.same(f"{name} is taken", found, [[], lines])
    out = os.path.join(ROOM, "looked.html")
    opened = os.path.join(ROOM, "opened")
    opener = written("opener", f'#!/bin/sh\nprintf %s "$1" > {opened}\n')
    os.chmod(opener, 0o755)
    for name, count in [("denon-avr-x2300w.edid", 0), ("capture.pin", 4), ("capture.edges", 4)]:
        subprocess.run([os.path.join(TOP, "tools/look"), os.path.join(EXAMPLES, name), "-o", out], check=True,
                       stdout=subprocess.DEVNULL, env={**os.environ, "HDMINET_OPEN": opener})
        t.same(f"look opens {name}", read(opened), out)
        b.open(out)
        t.same(f"its rounds: {name}", [b.js("hdminet.app.model.rounds.length"), b.faults()], [count, []])
    show(b, os.path.join(EXAMPLES, "denon-avr-x2300w.edid"))
    found = b.js("[...document.querySelectorAll('#panel .finding')].map(one => [...one.children].map(part => part.textContent))")
    t.same("the rules that an EDID breaks", found, [
        ["fail srgb", "bit 2 of the features is set exactly where the chromaticities are those of sRGB (E-EDID A, 3.6.4)",
         "here: features 0a", "byte 018"],
        ["fail out-of-range", "video codes, established, standard and DisplayID timings are within the range limits (E-EDID A, 3.10.3.3)",
         "here: video code 96, field rate 50.000 Hz, 8.000 Hz below 58 Hz", *(["byte 086"] if has_fields() else [])]])
    size = os.path.getsize(BARE)
    t.holds("the page without data is below 300 KB", size < 300000, size)
    capture = written("capture.test", example("capture.expect") + "capture\n" + example("capture.pin"))
    show(b, capture)
    t.same("expectations of a capture",
           b.js("testing.app.model.tests.length > 0 && testing.app.model.tests.every(test => test.holds)"), True)


def examples_have_pages(t, b):
    """A page of each example: nothing is noted, and nothing is wrong in the browser."""
    folder = os.path.join(ROOM, "examples")
    done = subprocess.run([os.path.join(TOP, "tools/example-pages"), folder], stdout=subprocess.DEVNULL, check=False)
    pages = sorted(os.listdir(folder))
    t.same("pages of examples", [done.returncode, len(pages) >= 22], [0, True])
    for name in pages:
        b.open(os.path.join(folder, name))
        shown = b.js("(m => m.rounds.length + m.tests.length + m.stretches.length + m.meanings.length)(hdminet.app.model)")
        t.same(name, [shown > 0, b.js("hdminet.app.model.faults"), b.faults()], [True, [], []])


def long_runs_are_fast(t, b):
    """20,000 rounds: the first picture within 2 s, a step of zoom within 50 ms. These are the limits of a machine on which an
    empty page and some work in it take 300 ms; a slower one, or one with other work, has as much more time."""
    page = page_of(written("long.net", long_room()))

    def first_picture(path):
        b.open(path)
        return b.js("performance.getEntriesByName('first picture')[0].startTime")

    zoom = """(() => { const { app: { wave } } = hdminet; const times = [];
      wave.showAll(); wave.draw();
      for (let step = 0; step < 12; step++) {
        const from = performance.now();
        wave.zoom(0.6); wave.draw(); wave.canvas.getContext('2d').getImageData(200, 100, 1, 1);
        times.push(performance.now() - from);
      }
      return times.sort((a, b) => a - b)[6]; })()"""
    # What reading a run is made of: texts to objects, and the collection of what is not needed any more
    work = """(() => { const from = performance.now();
      const text = JSON.stringify(Array.from({ length: 2000 }, (_, i) => ({ line: `${i}`, i })));
      let length = 0;
      for (let i = 0; i < 120; i++) length += JSON.parse(text).map(one => ({ ...one, more: one.line + length })).length;
      return performance.now() - from; })()"""
    best = None
    for _ in range(3):
        empty = first_picture(BARE) + b.js(work)
        picture = first_picture(page)
        slower = max(empty / 300, 1)
        step = b.js(zoom)
        times = f"{picture:.0f} ms and {step:.1f} ms, an empty page with some work {empty:.0f} ms"
        found = (picture / (2000 * slower), step / (50 * slower), times)
        best = found if best is None or max(found[:2]) < max(best[:2]) else best
        if max(best[:2]) < 1:
            break
    rounds = b.js("hdminet.app.model.rounds.length")
    t.holds("20,000 rounds", rounds >= 20000, rounds)
    t.holds("the first picture of 20,000 rounds", best[0] < 1, best[2])
    t.holds("a step of zoom in 20,000 rounds", best[1] < 1, best[2])
    t.holds("the document has few nodes", b.js("document.querySelectorAll('*').length") < 3000)
    # More than an hour: what was sent to the amplifier, at 5
    told = [json.loads(line) for line in program(long_room(), "run", "--json").splitlines()]
    wanted = [one["line"] for one in told if one.get("destination") == "5" and one.get("initiator") != "5"]
    b.js("hdminet.app.searchFor('to:amp')")
    t.same("to:amp finds the frames that were sent to it", b.js("hdminet.app.chart.shown.map(row => row.o.line)"), wanted)
    t.holds("they are many", len(wanted) > 3000, len(wanted))
    b.js("hdminet.app.searchFor('')")
    t.same("the wave is there", b.js("!!hdminet.app.model.wave && hdminet.app.model.faults.length === 0"), True)
    print(f"page: {rounds} rounds: the first picture and a step of zoom took {best[2]}")
    dense_runs_are_fast(t, b, work)


def dense_runs_are_fast(t, b, work):
    """100,000 rounds with their audit are read and drawn in 5 s, a search takes 100 ms, bad starts one after another are a row; on
    a machine as above."""
    # From row to row, with the room drawn anew
    b.open(page_of(os.path.join(EXAMPLES, "living-room-evening.net")))
    for _ in range(3):  # what else runs then may take the processor
        slower = max(b.js(work) / 200, 1)
        steps = b.js("(({ app }) => { app.openPanel('room'); app.goTo(0); return app.chart.shown.map((row, place) => {"
                     " const from = performance.now(); app.goTo(place); app.wave.draw(); app.strip.draw();"
                     " document.body.getBoundingClientRect(); return performance.now() - from; }).sort((a, b) => a - b); })(hdminet)")
        is_fast = steps[len(steps) * 9 // 10] < 50 * slower
        if is_fast:
            break
    t.holds("an arrow key redraws the room in 50 ms", is_fast, steps)
    print(f"page: a step from row to row took {steps[len(steps) // 2]:.1f} ms, at most {steps[-1]:.1f} ms")
    b.open(BARE)
    slower = max(b.js(work) / 200, 1)
    load_dense = """(async () => {
      const lines = [];
      for (let i = 0; i < 100000; i++) {
        const begin = 60000 * i;
        const isBad = i % 100 >= 90;
        const line = isBad ? `${begin} ${begin + 400} bad-start -` : `${begin} ${begin + 51150} complete 0>4 give-osd-name ack`;
        lines.push(JSON.stringify(isBad
          ? { line, type: 'reading', begin, close: begin + 400, ending: 'bad-start', bits: null }
          : { line, type: 'reading', begin, close: begin + 51150, ending: 'complete', frame: '0>4 give-osd-name', initiator: '0',
              destination: '4', bytes: '0446', verdict: 'ack' }));
        if (i % 20 === 0) lines.push(JSON.stringify({ line: `  free ${i} of 12000`, type: 'remark', remark: 'free', section: '9.1' }));
      }
      const text = lines.join('\\n');
      const from = performance.now();
      await hdminet.app.load([{ name: 'dense', text }]);
      await new Promise(done => requestAnimationFrame(() => setTimeout(done)));
      return performance.now() - from; })()"""
    loaded = b.js(load_dense)
    t.holds("100,000 rounds are read and drawn", loaded < 5000 * slower, f"{loaded:.0f} ms")
    t.same("bad starts are folded", b.js("hdminet.app.chart.shown.length"), 91000)
    t.holds("what is to look at is grouped", b.js("document.querySelectorAll('#panel details').length") in (2, 3))
    time.sleep(1.5 * min(slower, 4))
    found = []
    for _ in range(4):
        found.append(b.js("['give', 'from:0', 'op:46 not give', 't:3000..3100', '51150', ''].map(words => { const from = performance.now();"
                          " hdminet.app.searchFor(words); return performance.now() - from; }).sort((a, b) => a - b)[3]"))
    t.holds("a search in 100,000 rounds", min(found) < 100 * slower, found)
    print(f"page: 100,000 rounds took {loaded:.0f} ms, a search {min(found):.0f} ms, some work {slower * 200:.0f} ms where 200 is usual")


def sources_are_plain(t, _):
    """No markup is made of a string, nothing is fetched, and no line is longer than 130 columns."""
    folder = os.path.join(TOP, "view")
    for name in sorted(os.listdir(folder)):
        text = read(os.path.join(folder, name))
        forbidden = (r"innerHTML|outerHTML|insertAdjacentHTML|document\.write|\beval\b|new Function|XMLHttpRequest"
                     r"|https?://(?!www\.w3\.org/)")
        if name != "live.js":  # which asks the server that gave it
            forbidden += r"|fetch\(|EventSource"
        t.same(f"{name}: what makes markup or asks a network", re.findall(forbidden, text), [])
        t.same(f"{name}: lines that are too long", [line for line in text.splitlines() if len(line) > 130], [])
    texts = {name: read(os.path.join(folder, name)) for name in os.listdir(folder) if name.endswith(".js")}
    exported = {(name, word) for name, text in texts.items()
                for word in re.findall(r"^export (?:async )?(?:function|const|class) (\w+)", text, re.M)}
    imported = set()
    for name, text in texts.items():
        for words, source in re.findall(r"^import \{ (.*) \} from '\./(\w+\.js)';$", text, re.M):
            imported |= {(source, word) for word in words.split(", ")}
            unused = [word for word in words.split(", ") if len(re.findall(rf"\b{word}\b", text)) < 2]
            t.same(f"{name}: imports that nothing uses", unused, [])
    t.same("what modules export is what others import", sorted(exported ^ imported), [])


ALL = [sources_are_plain, verdicts_are_drawn, colours_differ, retries_are_folded, wave_is_drawn, other_lines_are_noticed,
       capture_is_drawn, advice_is_shown, verdicts_are_shown, verdicts_are_the_programs,
       attempts_are_the_audits, words_are_the_standards, reports_are_shown, values_of_an_evening,
       values_of_retries, values_of_a_loose_device, states_are_the_sessions, values_of_a_capture, passed_on_edids_are_shown, failures_are_drawn, keys_reach_all, searches_find, other_sizes_fit, runs_stand_beside, live_page_runs, edits_are_the_tools, live_server_is_careful, mouse_works, hostile_inputs_are_harmless,
       inferences_are_the_programs, bytes_are_shown, bytes_are_reached, bytes_fit, bytes_are_the_programs, live_bytes_are_run,
       sentences_are_the_programs, dumps_are_read, tool_is_imported, files_may_be_dropped, pages_are_made,
       examples_have_pages,
       long_runs_are_fast]


# What goes by the time that something takes runs last, alone.
ALONE = [long_runs_are_fast]
# What asks a server of its own, or makes the page fail: its faults are its own.
WITH_FAULTS = [hostile_inputs_are_harmless, live_page_runs, edits_are_the_tools, live_server_is_careful, live_bytes_are_run]
MOST_BROWSERS = 3


def work(browser):
    """How many seconds of a processor the tests have taken so far: they themselves, what they ran, and the browser."""
    return sum(os.times()[:4]) + browser.work()


def run(one, browser):
    """A test in a browser: how many checks passed and failed."""
    tests = Tests()
    began, worked = time.monotonic(), work(browser)
    try:
        one(tests, browser)
        if one not in WITH_FAULTS:
            tests.same(f"{one.__name__}: faults of the page", browser.faults(), [])
    except Enough:
        pass
    except Exception as fault:  # a test that breaks off has failed, and the next ones go on
        tests.holds(one.__name__, False, f"{type(fault).__name__}: {fault}")
    if os.environ.get("HDMINET_TIMES"):
        took = f"{time.monotonic() - began:.1f} s, {work(browser) - worked:.1f} s of a processor"
        print(f"{one.__name__}: {took}", flush=True)
    return tests.passed, tests.failed


def work_in(top, room):
    """From now on the page and its tools are those of `top`, and what the tests make stands in a folder of its own in `room`."""
    global TOP, TOOL, ROOM, BARE
    TOP = top
    TOOL = page_tool()
    MADE.clear()
    ROOM = tempfile.mkdtemp(prefix="tests-", dir=room)
    BARE = os.path.join(ROOM, "bare.html")
    TOOL.main(["--bare", "-o", BARE])


def run_some(waiting, told):
    """Runs tests in a browser and a folder of its own, one after another, as long as one waits."""
    work_in(TOP, ROOM)
    browser = Browser(BROWSER)
    try:
        for one in iter(waiting.get, None):
            told.put(run(ALL[one], browser))
    finally:
        browser.close()


def run_all(chosen, count):
    """Runs tests in some browsers at once."""
    fork = multiprocessing.get_context("fork")
    waiting, told = fork.SimpleQueue(), fork.SimpleQueue()
    for one in [*(ALL.index(one) for one in chosen), *[None] * count]:
        waiting.put(one)
    browsers = [fork.Process(target=run_some, args=(waiting, told), daemon=True) for _ in range(count)]
    for one in browsers:
        one.start()
    for one in browsers:
        one.join()
    found = []
    while not told.empty():
        found.append(told.get())
    if len(found) < len(chosen):
        print(f"not ok: RuntimeError: {len(chosen) - len(found)} tests have not run to their end")
        found.append((0, len(chosen) - len(found)))
    return found


def main():
    signal.signal(signal.SIGTERM, lambda *_: sys.exit(1))
    sys.stdout.reconfigure(line_buffering=True)
    wanted = sys.argv[3:]
    chosen = [one for one in ALL if not wanted or one.__name__ in wanted]
    # Long ones first
    first = [values_of_retries, bytes_are_the_programs, bytes_are_shown, live_page_runs, examples_have_pages, advice_is_shown]
    together = sorted((one for one in chosen if one not in ALONE), key=lambda one: (one not in first, ALL.index(one)))
    most = int(os.environ.get("HDMINET_BROWSERS") or min(os.cpu_count() or 1, MOST_BROWSERS))
    found = run_all(together, min(most, len(together))) if together else []
    found += [result for one in chosen if one in ALONE for result in run_all([one], 1)]
    passed, failed = (sum(counts) for counts in zip(*found, (0, 0)))
    print(f"page: {passed} passed, {failed} failed")
    sys.exit(1 if failed else 0)


if __name__ == "__main__":
    main()
