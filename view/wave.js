// The wave: levels over time on a canvas, a row for each wire, and above them the rounds, their bytes and bits as they were read.

import { CHARACTER } from './chart.js';
import { seconds, shortened } from './elements.js';
import { blockOf, isOut, lowWindow, partOf, pullersAt, SLOT, slotsOf, WINDOWS } from './slots.js';
import { stepOf } from './strip.js';
import { lowerBound } from './texts.js';

const WIRE = 24; // height of a wire, in pixels
const RULER = 20;
const READ = 46; // rounds and bits
const NAMES = 104; // width of the names
const NEAR = 7; // pixels in which a cursor stands on an edge
const LEAST_SIGHT = 40; // microseconds
const LEGEND = 'Wheel: zoom.  Drag: pan.  Click: cursor A.  Shift-click: cursor B.  Click a frame: select it.';
const NO_WAVE = 'No wave: add  hdminet run --edges --as vcd --drives < x.net  to see the line.';
const NO_CAPTURE = 'No wave: add the capture where it is a dump or an edge file; tools/look shows the wave of each form.';

export const wavesHeight = wires => RULER + READ + WIRE * wires + 30;

export class Wave {
  /* What is in sight, in microseconds. */
  from = 0;
  to = 1e6;
  cursors = [null, null];
  mouse = null;
  scroll = 0;
  drag = null;
  due = 0;
  width = 0;
  height = 0;
  pen = null;

  constructor(app, canvas, output) {
    this.app = app;
    this.canvas = canvas;
    this.output = output;
    new ResizeObserver(() => this.drawSoon()).observe(canvas);
    canvas.addEventListener('wheel', event => this.wheel(event), { passive: false });
    canvas.addEventListener('pointerdown', event => this.press(event));
    canvas.addEventListener('pointermove', event => this.move(event));
    canvas.addEventListener('pointerup', event => this.release(event));
    canvas.addEventListener('pointercancel', () => {
      this.drag = null;
    });
    canvas.addEventListener('pointerleave', () => {
      this.mouse = null;
      this.drawSoon();
    });
    canvas.addEventListener('dblclick', event => {
      const round = this.roundAt(this.timeAt(event.offsetX));
      if (round) this.showRound(round);
    });
    canvas.addEventListener('contextmenu', event => event.preventDefault());
    canvas.addEventListener('keydown', event => this.key(event));
  }
  drawSoon() {
    if (this.due) return;
    this.due = requestAnimationFrame(() => {
      this.due = 0;
      this.draw();
    });
  }

  get data() {
    return this.app.model.wave;
  }
  get wires() {
    const { data } = this;
    return data ? [data.line, ...data.devices, ...(data.pulses ? [data.pulses] : [])] : [];
  }
  get perPixel() { // microseconds
    return (this.to - this.from) / (this.width - NAMES);
  }
  x(instant) {
    return NAMES + (instant - this.from) / this.perPixel;
  }
  timeAt(x) {
    return this.from + (x - NAMES) * this.perPixel;
  }

  /* What is in sight. */
  see(from, to) {
    const { end } = this.app.model;
    const width = Math.min(Math.max(to - from, LEAST_SIGHT), end * 1.1 + 2000);
    const middle = Math.min(Math.max((from + to) / 2, 0), end);
    this.from = middle - width / 2;
    this.to = middle + width / 2;
    this.drawSoon();
  }
  zoom(factor, at = (this.from + this.to) / 2) {
    this.see(at - (at - this.from) * factor, at + (this.to - at) * factor);
  }
  pan(part) {
    const way = (this.to - this.from) * part;
    this.see(this.from + way, this.to + way);
  }
  showRound(round) {
    const beside = Math.max((round.close - round.begin) * 0.06, 1500);
    this.see(round.begin - beside, round.close + beside);
  }
  showAll() {
    this.see(0, this.app.model.end);
  }

  roundAt(instant) {
    const { rounds } = this.app.model;
    const i = lowerBound(rounds, instant + 1, round => round.begin) - 1;
    return i >= 0 && instant <= rounds[i].close ? rounds[i] : null;
  }
  /* The nearest edge of any wire, or else the instant itself. */
  nearestEdge(instant) {
    let nearest = Math.round(instant);
    let least = this.perPixel * NEAR;
    for (const { changes } of this.wires) {
      const i = lowerBound(changes, instant);
      for (const edge of [changes[i - 1], changes[i]]) {
        if (edge === undefined || Math.abs(edge - instant) >= least) continue;
        least = Math.abs(edge - instant);
        nearest = edge;
      }
    }
    return nearest;
  }
  /* Moves a cursor to the next edge of the line. */
  step(cursor, way) {
    const changes = this.data ? this.data.line.changes : [];
    const now = this.cursors[cursor] ?? this.from;
    const edge = changes[lowerBound(changes, now + (way > 0 ? 1 : 0)) - (way > 0 ? 0 : 1)];
    if (edge === undefined) return;
    this.cursors[cursor] = edge;
    const half = (this.to - this.from) / 2;
    if (edge < this.from || edge > this.to) this.see(edge - half, edge + half);
    this.drawSoon();
  }

  wheel(event) {
    event.preventDefault();
    const isSideways = event.shiftKey || Math.abs(event.deltaX) > Math.abs(event.deltaY);
    if (isSideways) this.pan((event.deltaX || event.deltaY) / 800);
    else this.zoom(Math.pow(1.0018, event.deltaY), this.timeAt(event.offsetX));
  }
  press(event) {
    this.canvas.setPointerCapture(event.pointerId);
    const { from, to, scroll } = this;
    this.drag = { x: event.offsetX, y: event.offsetY, from, to, scroll, hasMoved: false };
  }
  move(event) {
    this.mouse = { x: event.offsetX, y: event.offsetY };
    const { drag } = this;
    if (drag) {
      const [right, down] = [event.offsetX - drag.x, event.offsetY - drag.y];
      if (Math.abs(right) + Math.abs(down) > 4) drag.hasMoved = true;
      if (drag.hasMoved) {
        const way = (-right * (drag.to - drag.from)) / (this.width - NAMES);
        this.scroll = Math.max(0, drag.scroll - down);
        this.see(drag.from + way, drag.to + way);
      }
    }
    this.drawSoon();
  }
  release(event) {
    const { drag } = this;
    this.drag = null;
    if (!drag || drag.hasMoved || event.offsetX < NAMES) return;
    const instant = this.timeAt(event.offsetX);
    const round = event.offsetY < RULER + READ && !event.shiftKey && !event.altKey && this.roundAt(instant);
    if (round) {
      this.app.select(round.row, { keepsWave: true });
      return;
    }
    this.cursors[event.shiftKey || event.button === 2 ? 1 : 0] = this.nearestEdge(instant);
    this.drawSoon();
  }
  key(event) {
    const keys = {
      '+': () => this.zoom(0.6),
      '=': () => this.zoom(0.6),
      '-': () => this.zoom(1.6),
      ArrowLeft: () => this.pan(-0.2),
      ArrowRight: () => this.pan(0.2),
      ArrowUp: () => {
        this.scroll = Math.max(0, this.scroll - WIRE);
      },
      ArrowDown: () => {
        this.scroll += WIRE;
      },
      Home: () => this.see(0, this.to - this.from),
      End: () => this.see(this.app.model.end - this.to + this.from, this.app.model.end),
      0: () => this.showAll(),
      f: () => {
        const { selected } = this.app;
        if (selected && selected.type === 'round') this.showRound(selected.o);
      },
      ',': () => this.step(0, -1),
      '.': () => this.step(0, 1),
      '<': () => this.step(1, -1),
      '>': () => this.step(1, 1),
      Escape: () => {
        this.cursors = [null, null];
      },
    };
    if (!Object.hasOwn(keys, event.key) || event.ctrlKey || event.metaKey || event.altKey) return;
    keys[event.key]();
    event.preventDefault();
    event.stopPropagation();
    this.drawSoon();
  }

  draw() {
    const { canvas } = this;
    const scale = devicePixelRatio || 1;
    this.width = canvas.clientWidth;
    this.height = canvas.clientHeight;
    if (!this.width || !this.height) return;
    const [width, height] = [Math.round(this.width * scale), Math.round(this.height * scale)];
    if (canvas.width !== width || canvas.height !== height) [canvas.width, canvas.height] = [width, height];
    const pen = (this.pen = canvas.getContext('2d'));
    pen.setTransform(scale, 0, 0, scale, 0, 0);
    pen.clearRect(0, 0, this.width, this.height);
    pen.font = '11px "DejaVu Sans Mono", monospace';
    pen.textBaseline = 'middle';
    const { wires } = this;
    this.scroll = Math.max(0, Math.min(this.scroll, wires.length * WIRE + RULER + READ - this.height + 4));
    this.within(0, RULER + READ, () => wires.forEach((wire, i) => this.drawWire(wire, RULER + READ + i * WIRE - this.scroll)));
    this.within(NAMES, 0, () => {
      this.drawRuler();
      this.drawRounds();
      this.drawEvents();
      this.drawCursors();
    });
    if (wires.length === 0) {
      pen.fillStyle = this.app.colours.dim;
      const none = this.app.model.isCapture ? NO_CAPTURE : NO_WAVE;
      pen.fillText(this.app.isWaiting ? 'The wave is being read ..' : none, NAMES, this.height - 10);
    }
    this.output.textContent = this.reading() || LEGEND;
    this.app.drawStrip(false);
  }
  /* Draws in the part of the canvas that is right of x and below y. */
  within(x, y, draw) {
    this.pen.save();
    this.pen.beginPath();
    this.pen.rect(x, y, this.width, this.height);
    this.pen.clip();
    draw();
    this.pen.restore();
  }
  line(...points) {
    this.pen.beginPath();
    points.forEach(([x, y], i) => (i === 0 ? this.pen.moveTo(x, y) : this.pen.lineTo(x, y)));
    this.pen.stroke();
  }

  drawWire(wire, top) {
    if (top <= RULER + READ - WIRE || top >= this.height) return;
    const { pen, data } = this;
    const { colours } = this.app;
    const [high, low] = [top + 5, top + WIRE - 4];
    pen.fillStyle = colours.dim;
    pen.textAlign = 'right';
    pen.fillText(shortened(String(wire.name), 14), NAMES - 8, top + WIRE / 2);
    pen.textAlign = 'left';
    const first = lowerBound(wire.changes, this.from);
    const last = lowerBound(wire.changes, this.to);
    const isPulses = wire === data.pulses;
    pen.strokeStyle = wire === data.line ? colours.ink : isPulses ? colours.broken : colours.ok;
    pen.lineWidth = 1;
    if (last - first >= (this.width - NAMES) * 1.2) {
      this.drawDense(wire.changes, first, high, low);
      return;
    }
    if (wire !== data.line) this.fillLow(wire.changes, first, last, high, low, isPulses ? colours.broken : colours.low);
    const levelAt = i => (i % 2 === 0 ? high : low); // before the change i
    pen.beginPath();
    pen.moveTo(NAMES, levelAt(first));
    for (let i = first; i < last; i++) {
      const x = Math.round(this.x(wire.changes[i])) + 0.5;
      pen.lineTo(x, levelAt(i));
      pen.lineTo(x, levelAt(i + 1));
    }
    pen.lineTo(this.x(Math.min(this.to, data.end)), levelAt(last));
    pen.stroke();
  }
  fillLow(changes, first, last, high, low, colour) {
    this.pen.fillStyle = colour;
    for (let i = first - (first % 2); i < last; i += 2) {
      const from = Math.max(this.x(changes[i]), NAMES);
      const to = Math.min(this.x(changes[i + 1] ?? this.data.end), this.width);
      this.pen.fillRect(from, high, Math.max(to - from, 1), low - high);
    }
  }
  /* Where there are more edges than pixels: a bar where there are some. */
  drawDense(changes, first, high, low) {
    const { pen } = this;
    const pixels = this.width - NAMES;
    pen.fillStyle = pen.strokeStyle;
    pen.globalAlpha = 0.65;
    let i = first;
    let busyFrom = null;
    for (let pixel = 0; pixel <= pixels; pixel++) {
      const next = pixel === pixels ? i : lowerBound(changes, this.timeAt(NAMES + pixel + 1));
      const isBusy = pixel < pixels && (next > i || i % 2 === 1);
      if (isBusy && busyFrom === null) busyFrom = pixel;
      if (!isBusy && busyFrom !== null) {
        pen.fillRect(NAMES + busyFrom, high, pixel - busyFrom, low - high);
        busyFrom = null;
      }
      if (!isBusy) pen.fillRect(NAMES + pixel, high, 1, 1);
      i = next;
    }
    pen.globalAlpha = 1;
  }
  drawRuler() {
    const { pen } = this;
    const { colours } = this.app;
    const step = stepOf(this.perPixel * 110);
    pen.fillStyle = colours.dim;
    pen.strokeStyle = colours.rule;
    for (let t = Math.ceil(Math.max(this.from, 0) / step) * step; t <= this.to; t += step) {
      const x = this.x(t);
      this.line([x, 0], [x, this.height]);
      pen.fillText(seconds(t), x + 3, 10);
    }
  }
  drawRounds() {
    const { pen } = this;
    const { rounds } = this.app.model;
    const { colours, selected } = this.app;
    const top = RULER + 2;
    const slotPixels = SLOT / this.perPixel;
    let drawnTo = NAMES - 1;
    const first = Math.max(lowerBound(rounds, this.from, round => round.begin) - 1, 0);
    for (let i = first; i < rounds.length && rounds[i].begin < this.to; i++) {
      const round = rounds[i];
      const [from, to] = [this.x(round.begin), this.x(round.close)];
      if (to < drawnTo) continue; // narrower than a pixel that is drawn already
      pen.fillStyle = pen.strokeStyle = colours[round.row.cls] || colours.dim;
      if (to - from < 4) {
        pen.fillRect(from, top, Math.max(to - from, 1), 18);
        drawnTo = Math.ceil(Math.max(to, from + 1));
        continue;
      }
      pen.globalAlpha = selected === round.row ? 0.35 : 0.15;
      pen.fillRect(from, top, to - from, 18);
      pen.globalAlpha = 1;
      pen.strokeRect(Math.round(from) + 0.5, top + 0.5, Math.round(to - from), 17);
      const label = round.ending === 'complete' ? `${round.frame} ${round.verdict}` : round.row.text;
      const shownFrom = Math.max(from, NAMES);
      const fitting = Math.floor((Math.min(to, this.width) - shownFrom - 8) / CHARACTER);
      pen.fillStyle = colours.ink;
      if (fitting > 2) pen.fillText(shortened(label, fitting), shownFrom + 4, top + 9);
      if (slotPixels > 3.2) this.drawSlots(round, slotPixels);
    }
  }
  drawEvents() {
    const { pen } = this;
    const { events } = this.app.model;
    pen.fillStyle = pen.strokeStyle = this.app.colours.event;
    let last = -Infinity;
    for (let i = lowerBound(events, this.from, row => row.at); i < events.length && events[i].at < this.to; i++) {
      const x = this.x(events[i].at);
      if (x - last < 2) continue;
      last = x;
      pen.setLineDash([1, 3]);
      this.line([x, RULER], [x, this.height]);
      pen.setLineDash([]);
      pen.beginPath();
      pen.moveTo(x - 4, RULER - 4);
      for (const [right, down] of [[0, -8], [4, -4], [0, 0]]) pen.lineTo(x + right, RULER + down);
      pen.fill();
    }
  }
  /* The bits of a round below it, or its bytes where bits do not fit. */
  drawSlots(round, slotPixels) {
    const { pen } = this;
    const { colours } = this.app;
    if (!this.data || round.row.cls === 'idle') return;
    const slots = slotsOf(this.app.model, round);
    const top = RULER + 22;
    if (!slots) {
      pen.fillStyle = colours.dim;
      pen.fillText('no bits: the wave is not this reading\'s', Math.max(this.x(round.begin), NAMES) + 4, top + 10);
      return;
    }
    const endOf = i => (slots[i + 1] ? slots[i + 1].at : Math.max(round.close, slots[i].at + Math.max(slots[i].low, SLOT)));
    slots.forEach((slot, i) => {
      const [from, to] = [this.x(slot.at), Math.min(this.x(endOf(i)), this.width + 50)];
      if (to < NAMES || from > this.width) return;
      pen.strokeStyle = colours.rule;
      pen.strokeRect(Math.round(from) + 0.5, top + 0.5, Math.round(to - from), 20);
      const isHandshake = i > 0 && (i - 1) % 10 >= 8;
      pen.fillStyle = isOut(round, i) ? colours.broken : i === 0 ? colours.dim : isHandshake ? colours.event : colours.ink;
      const start = to - from > 36 ? 'start' : 'S';
      const bit = slot.bit ?? '–';
      const text = i === 0 ? start : isHandshake && slotPixels > 34 ? `${partOf(i)} ${bit}` : String(bit);
      const width = text.length * CHARACTER;
      if (to - from > width) pen.fillText(text, (from + to - width) / 2, top + 10.5);
    });
    if (slotPixels <= CHARACTER + 0.5) this.drawBytes(slots, slotPixels, top);
  }
  drawBytes(slots, slotPixels, top) {
    const { pen } = this;
    const width = slotPixels * 8;
    for (let i = 1; i + 8 <= slots.length; i += 10) {
      const x = this.x(slots[i].at);
      const bits = slots.slice(i, i + 8).map(slot => slot.bit);
      if (bits.includes(null)) return;
      const byte = parseInt(bits.join(''), 2);
      pen.fillStyle = this.app.colours.bg;
      pen.fillRect(x + 1, top + 2, width - 2, 17);
      pen.fillStyle = this.app.colours.ink;
      pen.fillText(byte.toString(16).padStart(2, '0'), x + width / 2 - CHARACTER, top + 10.5);
    }
  }
  drawCursors() {
    const { pen } = this;
    const { colours } = this.app;
    this.cursors.forEach((instant, i) => {
      if (instant === null) return;
      const x = this.x(instant);
      pen.strokeStyle = pen.fillStyle = i === 0 ? colours.nack : colours.refused;
      pen.setLineDash([4, 3]);
      this.line([x, 0], [x, this.height]);
      pen.setLineDash([]);
      pen.fillText('AB'[i], x + 3, RULER + READ - 4);
    });
    if (!this.mouse || this.mouse.x <= NAMES) return;
    pen.strokeStyle = colours.dim;
    pen.globalAlpha = 0.5;
    this.line([this.mouse.x, 0], [this.mouse.x, this.height]);
    pen.globalAlpha = 1;
  }

  /* One line: the cursors, and what is under the mouse, or else under cursor A. */
  reading() {
    const [a, b] = this.cursors;
    const parts = [];
    if (a !== null) parts.push(`A ${a}`);
    if (b !== null) parts.push(`B ${b}`);
    if (a !== null && b !== null) parts.push(`B−A ${b - a} µs`);
    const isOver = this.mouse && this.mouse.x > NAMES;
    if (this.data && isOver) parts.push(...this.readingAt(this.timeAt(this.mouse.x), this.wireUnder(this.mouse.y)));
    else if (this.data && a !== null) parts.push(...this.readingAt(a, this.data.line));
    return parts.join('   ');
  }
  wireUnder(y) {
    return y > RULER + READ ? this.wires[Math.floor((y - RULER - READ + this.scroll) / WIRE)] : undefined;
  }
  readingAt(instant, wire) {
    const parts = [`${Math.round(instant)} µs`];
    if (wire) {
      const i = lowerBound(wire.changes, instant + 1e-9) - 1;
      const [from, to] = [wire.changes[i] ?? 0, wire.changes[i + 1]];
      const level = i >= 0 && i % 2 === 0 ? 'low' : 'high';
      parts.push(`${wire.name} ${level} ${to === undefined ? `from ${from}` : `${to - from} µs, from ${from} to ${to}`}`);
    }
    const round = this.roundAt(instant);
    const slots = round && slotsOf(this.app.model, round);
    if (!slots) return parts;
    const i = lowerBound(slots, instant + 1e-9, slot => slot.at) - 1;
    if (i >= 0) parts.push(slotText(slots, i));
    const pulling = pullersAt(this.app.model, instant);
    if (pulling && pulling.length > 0) parts.push(`pulled by ${pulling.join(', ')}`);
    return parts;
  }
}

/* A slot with its widths and what is allowed. */
function slotText(slots, i) {
  const { bit, low, total } = slots[i];
  const isRead = i === 0 || bit !== null;
  const name = i === 0 ? 'start bit' : `slot ${i}: block ${blockOf(i)} ${partOf(i)}${isRead ? ` = ${bit}` : ', not read'}`;
  const whole = slots[i + 1] ? `, total ${total} of ${(i === 0 ? WINDOWS.startTotal : WINDOWS.total).join('..')}` : '';
  return `${name}, low ${low}${isRead ? ` of ${lowWindow(i, bit).join('..')}` : ''}${whole}`;
}
