// The chart: time runs down, and a lifeline stands for each device. Only the rows in sight are in the document.

import { byId, duration, seconds, shortened, svg } from './elements.js';
import { delayOf } from './answers.js';
import { deviceAt, overOf } from './model.js';
import { blockOf } from './slots.js';
import { lowerBound } from './texts.js';
import { meaningOf, verdictInWords } from './words.js';

export const CHARACTER = 6.65; // width of a character of the chart's font, in pixels
const HEIGHTS = { round: 32, event: 24, gap: 18, ports: 22, end: 22, test: 24 };
const LEFT = 96; // the times
const RIGHT = 150; // the verdicts
const NARROW = 700; // below so many pixels a lane has less room
const MARGIN = 10;
const HEADS = 50;
const BESIDE = 12; // rows that are drawn above and below those in sight
const MOST_PRINTED = 5000; // rows
const PRINTED = 8; // rows of one printed picture
const widthOf = text => text.length * CHARACTER;

/* Why a device stopped: it sent a 1 and the line said 0. In the initiator's address that is an arbitration. */
export function whyStopped(model, { lane, slot }) {
  const { name } = model.lanes[lane];
  if (slot <= 4) return `${name} lost the arbitration at bit ${slot} of the initiator's address`;
  return `${name} stopped at slot ${slot}, block ${blockOf(slot)} bit ${((slot - 1) % 10) + 1}`;
}

export class Chart {
  /* The rows shown, and the place of each from above. */
  shown = [];
  tops = new Float64Array(1);
  /* The first and the last row in the document, for which instant the heads are, and what is measured. */
  drawn = null;
  headsAt = null;
  due = 0;
  seen = 0;
  distance = 0;
  scrolled = 0;
  width = 0;

  constructor(app, box, heads, space) {
    this.app = app;
    this.box = box;
    this.heads = heads;
    this.space = space;
    box.addEventListener('scroll', () => this.drawSoon());
    new ResizeObserver(() => {
      this.drawn = null;
      this.drawSoon();
    }).observe(box);
    const onRow = act => event => {
      const group = event.target.closest('.row[data-row]');
      if (group) act(app.model.rows[Number(group.dataset.row)]);
    };
    box.addEventListener('click', onRow(row => app.select(row)));
    box.addEventListener('dblclick', onRow(row => app.toggle(row)));
  }
  drawSoon() {
    if (this.due) return;
    this.due = requestAnimationFrame(() => {
      this.due = 0;
      this.draw();
    });
  }

  /* Takes the rows to show. Their heights go by their kinds, so their places are sums that are made once. */
  show(rows) {
    this.shown = rows;
    this.tops = new Float64Array(rows.length + 1);
    rows.forEach((row, i) => {
      row.place = i;
      this.tops[i + 1] = this.tops[i] + HEIGHTS[row.type];
    });
    this.drawn = null;
    this.draw();
  }
  /* Places lanes: all in sight where they are few, else at their least distance. */
  measure() {
    const lanes = Math.max(this.app.model.lanes.length, 1);
    const least = this.box.clientWidth < NARROW || lanes > 8 ? 72 : 86;
    this.seen = this.box.clientWidth;
    this.distance = Math.min(Math.max((this.seen - LEFT - RIGHT) / lanes, least), 320);
    this.scrolled = this.box.scrollLeft;
    this.width = Math.max(LEFT + RIGHT + this.distance * lanes, this.seen - 2);
  }
  laneX(lane) {
    return LEFT + (lane + 0.5) * this.distance;
  }
  get laneEnd() {
    return this.width - RIGHT + MARGIN;
  }
  get sightHeight() {
    return this.box.clientHeight - this.heads.offsetHeight;
  }
  /* The first and the last row in sight. */
  sight() {
    const top = this.box.scrollTop;
    const most = Math.max(this.shown.length - 1, 0);
    const rowAt = y => Math.min(Math.max(lowerBound(this.tops, y + 0.1) - 1, 0), most);
    return [rowAt(top), rowAt(top + this.sightHeight)];
  }
  reveal(row) {
    if (this.shown[row.place] !== row) return;
    const top = this.tops[row.place];
    const isAbove = top < this.box.scrollTop;
    const isBelow = top + HEIGHTS[row.type] > this.box.scrollTop + this.sightHeight;
    if (isAbove || isBelow) this.box.scrollTop = top - this.sightHeight / 3;
  }

  /* Marks the row that is selected, where it is drawn. */
  mark(row) {
    for (const one of this.space.querySelectorAll('[aria-selected=true]')) one.setAttribute('aria-selected', 'false');
    const group = byId(`row${row.index}`);
    if (group) group.setAttribute('aria-selected', 'true');
  }
  /* Scrolls to the rows of an instant. */
  showTime(instant) {
    const place = lowerBound(this.shown, instant, row => row.at);
    this.box.scrollTop = this.tops[Math.min(place, this.shown.length - 1)] - this.sightHeight / 2;
  }
  drawAnew() {
    this.drawn = null;
    this.draw();
  }
  /* All rows as pictures that no printed page cuts. */
  print() {
    if (this.shown.length === 0 || this.shown.length > MOST_PRINTED) return;
    this.measure();
    [this.scrolled, this.seen] = [0, this.width];
    const pictures = [];
    for (let from = 0; from < this.shown.length; from += PRINTED) {
      pictures.push(this.picture(from, Math.min(from + PRINTED, this.shown.length) - 1));
    }
    this.space.replaceChildren(...pictures);
  }

  draw() {
    if (this.shown.length === 0) {
      this.heads.replaceChildren();
      this.space.style.height = 'auto';
      this.space.replaceChildren(this.app.whatElse());
      this.drawn = null;
      return;
    }
    const [first, last] = this.sight();
    const isDrawn = this.drawn && this.scrolled === this.box.scrollLeft && first >= this.drawn[0] && last <= this.drawn[1];
    if (!isDrawn) {
      this.measure();
      const from = Math.max(first - BESIDE, 0);
      const to = Math.min(last + BESIDE, this.shown.length - 1);
      this.space.style.height = `${this.tops[this.shown.length]}px`;
      this.space.style.width = this.heads.style.width = `${this.width}px`;
      const picture = this.picture(from, to);
      picture.style.top = `${this.tops[from]}px`;
      this.space.replaceChildren(picture);
      this.drawn = [from === 0 ? -1 : from, to === this.shown.length - 1 ? Infinity : to];
      this.headsAt = null;
    }
    const { selected } = this.app;
    const isInSight = selected && selected.place >= first && selected.place <= last;
    const now = isInSight ? selected : this.shown[last];
    const at = now ? overOf(now) : 0;
    if (this.headsAt !== at) {
      this.heads.replaceChildren(this.headsPicture(at));
      this.headsAt = at;
    }
    this.app.drawStrip(false);
  }

  picture(from, to) {
    const top = this.tops[from];
    const height = Math.max(this.tops[to + 1] - top, 1);
    const size = { width: this.width, height, viewBox: `0 0 ${this.width} ${height}` };
    const all = svg('svg', { class: 'chart', ...size, role: 'presentation' });
    for (let i = from; i <= to; i++) all.append(new RowPicture(this, this.shown[i], this.tops[i] - top).draw());
    return all;
  }

  /* The heads of the lanes, with what each device's addresses are at an instant. */
  headsPicture(at) {
    const { model } = this.app;
    const { isCapture } = model;
    const fitting = text => shortened(text, Math.floor((this.distance - 6) / CHARACTER));
    const heads = model.lanes.map((lane, i) => {
      const then = deviceAt(lane, at) || {};
      const x = this.laneX(i);
      const line = (y, cls, text) => svg('text', { x, y, class: cls, 'text-anchor': 'middle' }, fitting(text));
      const addresses = then.isJoined === false ? 'not joined' : `${then.logical || '–'} ${then.physical || '–'}`;
      return svg(
        'g', { class: 'row', click: () => this.app.searchForLane(lane.name) },
        svg('title', {}, `${lane.name}, ${lane.kind}: search for what it sends, and then for what it is sent`),
        line(15, 'head', isCapture ? lane.osdName || lane.kind : lane.name),
        line(29, 'sub', isCapture ? '' : lane.kind),
        line(43, 'sub', addresses),
      );
    });
    const unit = svg('text', { x: 8, y: 30, class: 'time' }, 'seconds');
    const size = { width: this.width, height: HEADS, viewBox: `0 0 ${this.width} ${HEADS}` };
    return svg('svg', { class: 'chart', ...size }, unit, heads);
  }

  /* The rows shown, as one SVG that stands by itself, with the rules of its style. */
  exported(rules) {
    this.measure();
    [this.scrolled, this.seen] = [0, this.width];
    const to = this.shown.length - 1;
    const last = this.shown[to];
    const heads = this.headsPicture(last ? overOf(last) : 0);
    const body = this.picture(0, to);
    body.setAttribute('y', HEADS);
    this.drawn = null;
    this.drawSoon();
    return svg(
      'svg', { xmlns: 'http://www.w3.org/2000/svg', width: this.width, height: HEADS + this.tops[to + 1], class: 'chart' },
      svg('style', {}, rules), svg('rect', { width: '100%', height: '100%', style: 'fill:var(--bg)' }), heads, body,
    );
  }
}

/* One row of the chart. */
class RowPicture {
  /* What is drawn above all else. */
  onTop = [];

  constructor(chart, row, top) {
    this.chart = chart;
    this.row = row;
    this.top = top;
    this.height = HEIGHTS[row.type];
    this.y = row.type === 'round' ? top + 21 : top + this.height / 2;
    this.model = chart.app.model;
    this.group = this.frame();
  }
  x(lane) {
    return this.chart.laneX(lane);
  }
  add(...elements) {
    this.group.append(...elements);
  }
  path(cls, d) {
    this.add(svg('path', { class: cls, d }));
  }
  frame() {
    const { chart, row, top, height } = this;
    const { app } = chart;
    return svg(
      'g',
      {
        class: `row ${row.cls}${app.isBanded(row) ? ' banded' : ''}`, id: `row${row.index}`, 'data-row': row.index,
        role: 'option', 'aria-selected': String(app.selected === row), 'aria-posinset': row.place + 1,
        'aria-setsize': chart.shown.length, 'aria-label': row.o ? row.o.line.slice(0, 200) : row.text || row.type,
      },
      svg('rect', { class: 'hit', x: 0, y: top, width: chart.width, height }),
      row.type === 'round' && svg('title', { class: 'about' }, meaningOf(row.o, chart.app.model)),
    );
  }

  draw() {
    const { row } = this;
    this.drawLifelines();
    if (row.type === 'round') this.drawRound();
    else if (row.type === 'event') this.drawEvent();
    else if (row.type === 'gap') this.drawIdle();
    else if (row.type === 'ports') this.drawPorts();
    else if (row.type === 'test') this.drawFailure();
    else this.drawEnd();
    for (const change of row.changes) this.drawAddress(change);
    this.add(...this.onTop); // above all else, where the chart is scrolled to the right
    return this.group;
  }
  /* A lifeline is dashed where the device has no address, or is not joined. */
  drawLifelines() {
    const { row, top, height, y } = this;
    this.model.lanes.forEach((lane, i) => {
      const line = (from, to, then) => {
        const cls = then && then.isJoined && then.logical ? 'life' : 'life off';
        this.add(svg('line', { class: cls, x1: this.x(i), x2: this.x(i), y1: from, y2: to }));
      };
      const before = deviceAt(lane, row.at - 1);
      const after = deviceAt(lane, overOf(row));
      if (before === after) {
        line(top, top + height, after);
      } else {
        line(top, y, before);
        line(y, top + height, after);
      }
    });
  }
  drawTime() {
    const { chart, top, height, y } = this;
    const x = chart.scrolled;
    if (x > 0) this.onTop.push(svg('rect', { class: 'cover', x, y: top + 1, width: 86, height: height - 2 }));
    this.onTop.push(svg('text', { class: 'time', x: x + 8, y: y + 4 }, seconds(this.row.at)));
  }
  /* A text that is centred at x, and kept in sight. */
  drawLabel(text, x, y) {
    const { chart } = this;
    const least = Math.max(LEFT - MARGIN, chart.scrolled + 90);
    const most = Math.min(chart.laneEnd, chart.scrolled + chart.seen);
    const half = widthOf(text) / 2;
    const inSight = Math.min(Math.max(x, least + half), Math.max(most - half, least + half));
    this.add(svg('text', { class: 'label', x: inSight, y, 'text-anchor': 'middle' }, text));
  }
  /* A text at the right. */
  drawNote(text, cls, down = 4) {
    this.add(svg('text', { class: cls, x: this.chart.width - RIGHT + 14, y: this.y + down }, text));
  }
  get middleX() {
    return (LEFT + this.chart.width - RIGHT) / 2;
  }

  drawIdle() {
    const { row, y, chart } = this;
    const points = [];
    for (let x = LEFT - MARGIN; x < chart.laneEnd; x += 12) points.push(`${x} ${y + (points.length % 2 ? 2 : -2)}`);
    this.add(svg('path', { class: 'life', fill: 'none', d: `M${points.join('L')}` }));
    this.drawNote(`idle ${duration(row.until - row.at)}`, 'note');
  }
  drawEvent() {
    const { row, y } = this;
    this.drawTime();
    const x = row.lane === undefined ? LEFT : this.x(row.lane);
    const isRefused = row.o.verdict !== 'ok';
    this.path(isRefused ? 'hollow' : 'solid', `M${x - 6} ${y}l6 -6l6 6l-6 6z`);
    // The text stands at the side where it has room, and ends before the addresses of this row.
    const claims = row.changes.map(change => this.claimOf(change));
    const right = Math.min(this.chart.laneEnd, ...claims.map(claim => claim.x).filter(at => at > x)) - x - 12;
    const left = x - 12 - Math.max(LEFT - MARGIN, ...claims.map(claim => claim.x + claim.width).filter(at => at < x));
    const isLeft = right < widthOf(row.text) && left > right;
    const place = { class: 'label', x: isLeft ? x - 11 : x + 11, y: y + 4, 'text-anchor': isLeft ? 'end' : 'start' };
    this.add(svg('text', place, shortened(row.text, Math.floor((isLeft ? left : right) / CHARACTER))));
    if (isRefused) this.drawNote(row.verdict, 'warn');
    else this.drawNote(`line ${row.o.scriptLine}`, 'note');
  }
  drawPorts() {
    const byDevice = new Map();
    for (const { device, port } of this.row.ports) byDevice.set(device, [...(byDevice.get(device) || []), port]);
    const ports = [...byDevice].map(([device, numbers]) => `${device} ${numbers.join(' ')}`).join(', ');
    this.drawTime();
    this.drawLabel(`EDIDs passed on: ${ports}`, this.middleX, this.y + 4);
  }
  drawFailure() {
    const { chart, row, top, height, y } = this;
    const width = chart.width - RIGHT - LEFT;
    this.add(svg('rect', { x: LEFT - 6, y: top + 3, width: width + 12, height: height - 6, class: 'hollow' }));
    this.drawTime();
    this.drawLabel(shortened(row.text, Math.floor(width / CHARACTER) - 1), this.middleX, y + 4);
    this.drawNote('✗ failed', 'verdict');
  }
  drawEnd() {
    this.drawTime();
    this.add(svg('line', { class: 'arrow', x1: LEFT - MARGIN, x2: this.chart.laneEnd, y1: this.y, y2: this.y }));
    this.drawNote('end', 'note');
  }
  /* Where an address stands: left of its lifeline. */
  claimOf({ lane, text }) {
    const width = widthOf(text) + 8;
    return { x: this.x(lane) - width - 7, width };
  }
  /* The address that a device has from here on. */
  drawAddress({ lane, text }) {
    const { y } = this;
    const { x, width } = this.claimOf({ lane, text });
    this.add(svg('rect', { class: 'claim', x, y: y - 8, width, height: 16, rx: 8 }));
    this.add(svg('text', { x: x + width / 2, y: y + 4, 'text-anchor': 'middle' }, text));
  }

  drawRound() {
    const { row, y, chart } = this;
    this.drawTime();
    const senders = row.from.length > 0 ? row.from.map(lane => this.x(lane)) : [LEFT - MARGIN];
    if (row.o.ending === 'joined') this.drawLabel(row.text, this.middleX, y + 3);
    else if (row.cls === 'broken') this.drawBroken(senders[0]);
    else if (row.cls === 'poll') this.drawPoll(senders[0]);
    else this.drawArrow(senders[0]);
    for (const x of senders) this.add(svg('circle', { class: 'solid', cx: x, cy: y, r: 3.4 }));
    for (const loser of row.losers) this.drawLoser(loser);
    this.drawAttempt();
    const folded = row.folded ? ` ×${row.folded.length}` : '';
    const remarks = row.remarks.length > 0 && svg('tspan', { class: 'warn', dx: 8 }, `⚠ ${row.remarks.length}`);
    const place = { class: 'verdict', x: chart.width - RIGHT + 14, y: y + 4 };
    this.add(svg('g', {}, svg('title', {}, verdictInWords(row)), svg('text', place, row.verdict + folded, remarks)));
  }
  drawHead(from, to) {
    this.path('solid', `M${to} ${this.y}l${to > from ? -9 : 9} -4.5v9z`);
  }
  drawCross(x) {
    this.path('cross', `M${x - 5} ${this.y - 5}l10 10m0 -10l-10 10`);
  }
  /* A broken round stops in the open, and its text stands behind it. */
  drawBroken(x) {
    const { row, y, chart } = this;
    const wide = 62 + widthOf(row.text) + 8;
    const losers = row.losers.map(loser => this.x(loser.lane) - x);
    const isClear = way => !losers.some(at => at * way > 0 && at * way < wide);
    const fits = way => (way > 0 ? x + wide <= chart.laneEnd : x - wide > LEFT - MARGIN);
    const isLeft = fits(-1) && (!fits(1) || (!isClear(1) && isClear(-1)));
    const way = isLeft ? -1 : 1;
    const end = x + way * 56;
    this.path('arrow', `M${x} ${y}H${end - way * 14}l${3 * way} -6l${4 * way} 12l${4 * way} -12l${3 * way} 6`);
    if (!isLeft && !fits(1)) {
      this.drawLabel(row.text, end, y - 9); // at neither side there is room
      return;
    }
    const place = { class: 'label', x: end + way * 7, y: y + 4, 'text-anchor': isLeft ? 'end' : 'start' };
    this.add(svg('text', place, row.text));
  }
  drawPoll(x) {
    const { row, y, chart } = this;
    this.path('arrow', `M${x} ${y - 5}h16a5 5 0 0 1 0 10h-9`);
    this.path('solid', `M${x + 1} ${y + 5}l8 -4v8z`);
    if (x + 26 + widthOf(row.text) < chart.laneEnd) this.add(svg('text', { class: 'label', x: x + 26, y: y + 4 }, row.text));
    else this.drawLabel(row.text, x, y - 8); // at the right border it stands above
  }
  drawArrow(x) {
    const { row, y, chart } = this;
    const ends = row.to.map(lane => this.x(lane));
    if (row.destination === 'f') {
      this.drawBroadcast(x, ends);
    } else if (ends.length > 0) {
      for (const end of ends) {
        this.path('arrow', `M${x} ${y}H${end}`);
        this.drawHead(x, end);
        if (row.cls === 'nack') this.drawCross(end + (end > x ? -14 : 14));
      }
      this.drawLabel(row.text, (x + ends[0]) / 2, y - 6);
    } else { // nobody has the address: the arrow ends in the open
      const end = x + (x + 60 > chart.laneEnd ? -54 : 54);
      this.path('arrow', `M${x} ${y}H${end}`);
      this.add(svg('circle', { class: 'hollow', cx: end, cy: y, r: 4.5 }));
      if (row.cls === 'nack') this.drawCross(end);
      this.drawLabel(`${row.text} → ${row.destination}`, (x + end) / 2, y - 6);
    }
  }
  /* A line to both sides, with a dot for each who hears it. */
  drawBroadcast(x, ends) {
    const { row, y } = this;
    const least = Math.min(x, ...ends);
    const most = Math.max(x, ...ends);
    this.path('arrow', `M${least} ${y}H${most}`);
    for (const end of ends) {
      if (end === least || end === most) this.drawHead(x, end);
      else this.add(svg('circle', { class: 'solid', cx: end, cy: y, r: 2.6 }));
    }
    if (ends.length === 0) {
      this.path('arrow', `M${x} ${y}h40`);
      this.drawHead(x, x + 40);
    }
    if (row.cls === 'refused') this.drawCross((least + most) / 2 + 3);
    this.drawLabel(row.text, (least + most) / 2, y - 6);
  }
  drawLoser(loser) {
    const x = this.x(loser.lane);
    const why = svg('title', {}, whyStopped(this.model, loser));
    this.add(svg('path', { class: 'lost', d: `M${x - 4} ${this.y - 4}l8 8m0 -8l-8 8` }, why));
    this.add(svg('text', { class: 'warn', x: x + 8, y: this.y - 5 }, `out @${loser.slot}`));
  }
  /* The number of the attempt, and a bracket to the one above. */
  drawAttempt() {
    const { row, chart, y } = this;
    const above = row.place > 0 ? chart.shown[row.place - 1] : null;
    if (row.first !== row && above && above.first === row.first) this.path('again', `M${LEFT - 14} ${y - 26}v26h5`);
    const kind = row.o.ending === 'bad-start' ? `${row.o.ending}s` : 'attempts';
    const folded = row.folded ? `▸ ${kind} 1–${row.folded.length}` : '';
    const which = folded || (row.attempt > 1 ? `attempt ${row.attempt}` : '');
    const answers = row.answers ? `answers in ${duration(delayOf(row))}` : '';
    if (which || answers) this.drawNote(which || answers, 'note', -8);
  }
}

/* The rows as a sequence diagram of Mermaid, which many pages of documents draw. */
export function asMermaid(model, rows) {
  const plain = text => text.replace(/[^\w .,()+>@=/-]/g, c => `#${c.codePointAt(0)};`);
  const participants = model.lanes.map((lane, i) => `  participant L${i} as ${plain(lane.osdName || lane.name)}`);
  const lines = ['sequenceDiagram', ...participants];
  for (const row of rows) {
    const over = row.from && row.from.length > 0 ? `L${row.from[0]}` : row.lane !== undefined ? `L${row.lane}` : 'L0';
    const said = plain(`${row.text} ${row.verdict || ''}`.trim());
    if (row.type === 'gap') lines.push(`  Note over L0: idle ${plain(duration(row.until - row.at))}`);
    else if (row.type === 'test') lines.push(`  Note over L0: ${plain(row.text)}`);
    else if (row.type === 'event') lines.push(`  Note over ${over}: ${said}`);
    else if (row.type === 'round' && row.to.length > 0) {
      const arrow = row.cls === 'nack' || row.cls === 'refused' ? '-x' : '->>';
      for (const to of row.to) lines.push(`  ${over}${arrow}L${to}: ${said}`);
    } else if (row.type === 'round') lines.push(`  ${over}->>${over}: ${said}`);
  }
  return `${lines.join('\n')}\n`;
}
