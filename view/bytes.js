// The bytes of an EDID: a map of them, and in the side panel what each is of. What is selected or under the mouse in one of both
// is marked in the other.

import { fieldsAt, titleOf } from './edid.js';
import { counted, html, link, table } from './elements.js';
import { BLOCK } from './texts.js';

const ROW = 16; // bytes
const HALF = 8; // a row in a narrow window
const HUE = 47; // degrees from one stretch to the next

const hexDigits = (value, digits) => value.toString(16).padStart(digits, '0');
const hexPlace = at => hexDigits(at, 3);
export function spanOf({ from, to }) {
  if (to - from < 2) return to > from ? hexPlace(from) : '';
  return `${hexPlace(from)}..${hexPlace(to - 1)}`;
}
const bitsOf = ({ high, low }) => (high === low ? `bit ${high}` : `bits ${high}..${low}`);
const binaryOf = ({ value, high, low }) => value.toString(2).padStart(high - low + 1, '0');
const character = byte => (byte > 0x20 && byte < 0x7f ? String.fromCharCode(byte) : byte === 0x20 ? '\u00a0' : '·');
/* What a field says, and what is odd about it. */
const fieldSays = ({ meaning, found }) => [meaning, found && found !== meaning && found].filter(Boolean).join(', ');
const hueOf = stretch => `--h:${(stretch.index * HUE) % 360}`;
const FOUND = { __proto__: null, reserved: 'The standard keeps this value.', left: 'After all that the standard has here.' };

export class ByteMap {
  edid = null;
  /* The byte that is selected, and that under the mouse. */
  at = null;
  hot = null;
  cells = [];
  nodes = [];
  words = [];

  constructor(app, isBeside = false) {
    this.app = app;
    this.isBeside = isBeside; // it has no panel of its own
    this.grid = html('div', { class: 'grids' });
    this.reading = html('output', { class: 'byte', 'aria-live': 'off' });
    this.root = html('div', { class: 'bytes' }, this.grid, this.reading);
    const cellAt = event => event.target.closest('[data-at]');
    this.grid.addEventListener('pointerover', event => this.hover(cellAt(event)));
    this.grid.addEventListener('pointerleave', () => this.hover(null));
    this.grid.addEventListener('click', event => {
      const cell = cellAt(event);
      if (cell) this.select(Number(cell.dataset.at));
    });
    this.grid.addEventListener('keydown', event => this.key(event));
  }

  /* Draws the bytes of an EDID. */
  show(edid) {
    this.edid = edid;
    this.hot = this.at = null;
    this.cells = [];
    this.nodes = [];
    if (!edid) return;
    const blocks = [];
    for (let from = 0; from < edid.bytes.length; from += BLOCK) blocks.push(this.block(from));
    this.grid.replaceChildren(...blocks.flat());
    this.tell();
    if (this.cells[0]) this.cells[0].setAttribute('tabindex', '0');
  }
  block(from) {
    const number = from / BLOCK;
    const rows = [];
    for (let at = from; at < from + BLOCK; at += ROW) rows.push(this.row(at));
    const name = number === 0 ? 'Base block' : `Extension ${number}`;
    return [html('h3', {}, name), html('div', { role: 'grid', 'aria-label': `${name}, bytes` }, rows)];
  }
  row(from) {
    const { bytes } = this.edid;
    const halves = [from, from + HALF].map((first, i) => {
      const all = Array.from({ length: HALF }, (_, j) => first + j);
      const text = all.map(at => (bytes[at] === null ? ' ' : character(bytes[at]))).join('');
      return [
        html('span', { class: `at of${i}`, 'aria-hidden': 'true' }, hexPlace(first)),
        html('span', { class: `half of${i}`, role: 'presentation' }, all.map(at => this.cell(at))),
        html('span', { class: `ascii of${i}`, 'aria-hidden': 'true' }, text),
      ];
    });
    return html('div', { class: 'row16', role: 'row' }, halves);
  }
  cell(at) {
    const { bytes, owners } = this.edid;
    const owner = owners[at];
    const isFirst = at === owner.from || at % ROW === 0;
    const isOwn = owner.lines.length === 0 && !owner.part;
    const fields = fieldsAt(this.edid, at);
    const cls = [
      'cell', isFirst && 'first', isOwn && 'own', bytes[at] === null && 'unknown', this.severity(at),
      fields.some(field => field.found) && 'odd',
    ];
    const attributes = {
      'class': cls.filter(Boolean).join(' '), 'role': 'gridcell', 'data-at': at, 'tabindex': -1, 'style': hueOf(owner),
      'aria-label': this.label(at), 'aria-selected': 'false',
    };
    const cell = html('span', attributes, bytes[at] === null ? '··' : hexDigits(bytes[at], 2));
    this.cells[at] = cell;
    return cell;
  }
  /* The worst of the rules that are broken by a byte. */
  severity(at) {
    const lines = this.findingsAt(at).map(finding => finding.line);
    return lines.some(line => line.startsWith('fail')) ? 'fails' : lines.length > 0 && 'warns';
  }
  findingsAt(at) {
    return this.edid.owners[at].findings.filter(finding => finding.bytes.includes(at));
  }
  /* All that is known of a byte, in a line. */
  label(at) {
    const byte = this.edid.bytes[at];
    const owner = this.edid.owners[at];
    const inWords = field => `${field.name} ${field.value}${fieldSays(field) && `: ${fieldSays(field)}`}`;
    const fields = fieldsAt(this.edid, at).map(inWords);
    return [`byte ${hexPlace(at)}, ${byte === null ? 'not known' : hexDigits(byte, 2)}`, titleOf(owner), ...fields,
      ...this.findingsAt(at).map(finding => finding.line)].join('; ');
  }

  /* Gives some cells a class, and takes it from all others. */
  mark(cls, isMarked) {
    this.cells.forEach((cell, at) => cell.classList.toggle(cls, isMarked(at)));
  }
  markStretch(cls, at) {
    const owner = at === null ? null : this.edid.owners[at];
    this.mark(cls, one => owner !== null && this.edid.owners[one] === owner);
    for (const node of this.nodes) node.classList.toggle(cls, owner !== null && node.dataset.stretch === String(owner.index));
  }
  hover(cell) {
    const at = cell ? Number(cell.dataset.at) : null;
    if (at === this.hot || !this.edid) return;
    this.hot = at;
    this.markStretch('hot', at);
    this.tell();
  }
  /* Selects a byte, and with it the stretch that it is of. */
  select(at, { isFocused = true, keepsPanel = false } = {}) {
    if (!this.edid || !this.cells[at]) return;
    this.at = at;
    this.markStretch('in', at);
    this.mark('is', one => one === at);
    for (const cell of this.grid.querySelectorAll('[aria-selected=true],[tabindex="0"]')) {
      cell.setAttribute('aria-selected', 'false');
      cell.setAttribute('tabindex', '-1');
    }
    const cell = this.cells[at];
    cell.setAttribute('aria-selected', 'true');
    cell.setAttribute('tabindex', '0');
    if (isFocused) cell.focus({ preventScroll: true });
    this.tell();
    this.reveal(cell);
    if (this.isBeside) return;
    if (this.app.panel === 'edids') this.markFields();
    else if (!keepsPanel) this.app.openPanel('edids');
    this.app.tellAddress();
    this.app.onSelect();
  }
  /* Scrolls what scrolls by itself, and not the whole page. */
  reveal(element) {
    const box = element.closest('.grids, #panel');
    if (!box || box.scrollHeight <= box.clientHeight + 1 || getComputedStyle(box).overflowY === 'hidden') return;
    const [inner, outer] = [element.getBoundingClientRect(), box.getBoundingClientRect()];
    if (inner.top < outer.top) box.scrollTop -= outer.top - inner.top + 8;
    else if (inner.bottom > outer.bottom) box.scrollTop += Math.min(inner.bottom - outer.bottom + 8, inner.top - outer.top);
  }
  /* In the panel: the fields of the stretch are open, and those of the byte are marked. */
  markFields() {
    const { at } = this;
    const owner = at === null ? null : this.edid.owners[at];
    for (const node of this.nodes) {
      const isIn = owner !== null && node.dataset.stretch === String(owner.index);
      node.classList.toggle('in', isIn);
      const fields = node.querySelector('details');
      if (fields) fields.open = isIn;
      if (!isIn) continue;
      this.reveal(node);
      const rows = [...node.querySelectorAll('tr[data-at]')];
      for (const row of rows) row.classList.toggle('is', row.dataset.at === String(at));
      const first = rows.find(row => row.classList.contains('is'));
      if (first) this.reveal(first);
    }
  }
  /* Below the map: the byte under the mouse, or else the selected one. */
  tell() {
    const at = this.hot ?? this.at;
    this.reading.replaceChildren(...(at === null ? this.legend() : this.about(at)).flat(9).filter(Boolean));
  }
  legend() {
    const { bytes, stretches } = this.edid;
    const parts = counted(stretches.filter(one => one.fields.length > 0).length, 'part');
    const words = `${counted(bytes.length, 'byte')}, ${parts} with fields. A click or an arrow key selects a byte.`;
    return [html('p', { class: 'dim' }, words)];
  }
  about(at) {
    const byte = this.edid.bytes[at];
    const owner = this.edid.owners[at];
    const [high, low] = [7, 0];
    const inBits = byte === null ? '' : binaryOf({ value: byte, high, low }).replace(/(....)/, '$1 ');
    const value = byte === null ? 'not known' : `${hexDigits(byte, 2)} = ${byte} = ${inBits}`;
    const place = ` block ${Math.floor(at / BLOCK)} byte ${at % BLOCK}: ${value}`;
    const cells = field => [bitsOf(field), html('code', {}, binaryOf(field)), field.name, field.value, oddOf(field)];
    const rows = fieldsAt(this.edid, at).map(cells);
    return [
      html('p', { class: 'mono' }, html('b', {}, hexPlace(at)), place), html('p', {}, html('code', {}, titleOf(owner))),
      rows.length > 0 && table(rows, ['', '', 'field', 'value', 'meaning']),
      this.findingsAt(at).map(({ line, said }) => html('p', { class: 'bad' }, [line, ...said].join('. '))),
    ];
  }

  /* Which stretches a search finds: those that have all of its words. The others are faint in the map, and not in the panel. */
  search(text) {
    this.words = text.toLowerCase().split(/\s+/).filter(Boolean);
    if (!this.edid) return;
    this.mark('faint', at => !this.isFound(this.edid.owners[at]));
  }
  isFound(stretch) {
    const { name, lines, findings, fields } = stretch;
    stretch.find ??= [
      titleOf(stretch), name, spanOf(stretch), lines.map(line => line.meanings), findings.map(({ line, said }) => [line, said]),
      fields.map(field => [field.name, field.meaning, field.found]),
    ].flat(9).join(' ').toLowerCase();
    return this.words.every(word => stretch.find.includes(word));
  }

  /* The side panel: the rules that are broken, and the stretches with their lines, what these mean, and their fields. */
  panel(findings) {
    const rules = findings.length > 0 && [html('h3', {}, 'Rules that it breaks'), findings.map(one => this.finding(one))];
    if (!this.edid) return rules;
    const found = this.edid.stretches.filter(stretch => this.isFound(stretch));
    this.nodes = found.map(stretch => this.node(stretch));
    const { length } = this.edid.stretches;
    const count = found.length === length ? '' : `, ${found.length} of ${length} meet the search`;
    setTimeout(() => this.at !== null && this.markFields());
    return [rules, html('h3', {}, `What the bytes say${count}`), html('div', { class: 'stretches' }, this.nodes)];
  }
  /* A rule that an EDID breaks: what it asks with its section, and the value at fault, in the program's words. */
  finding({ line, said, bytes }) {
    const go = at => link(`byte ${hexPlace(at)}`, () => this.select(at));
    return html(
      'div', { class: 'finding' }, html('code', { class: 'bad' }, line), said.map(words => html('p', {}, words)),
      bytes && bytes.length > 0 && html('p', {}, go(bytes[0])),
    );
  }
  node(stretch) {
    const { from, to, lines, name, part, fields, findings } = stretch;
    const attributes = {
      'class': 'stretch', 'data-stretch': stretch.index, 'style': hueOf(stretch),
      'pointerenter': () => to > from && this.hover(this.cells[from]), 'pointerleave': () => this.hover(null),
    };
    const go = () => to > from && this.select(from, { isFocused: false });
    const head = html('button', { class: 'link', click: go },
      html('span', { class: 'mono dim' }, spanOf(stretch)), ' ', html('code', {}, lines.length > 0 ? lines[0].text : name));
    const said = lines.map((line, i) => [i > 0 && html('div', {}, html('code', {}, line.text)),
      line.meanings.map(meaning => html('div', { class: 'meaning' }, meaning))]);
    const missing = part && part.cut > 0 && html('p', { class: 'bad' }, `${counted(part.cut, 'byte')} too few`);
    return html(
      'div', attributes, head, part && lines.length > 0 && html('div', { class: 'dim' }, name), said, missing,
      findings.map(({ line, said: [asked] }) => html('p', { class: 'bad' }, asked ? `${line}: ${asked}` : line)),
      fields.length > 0 && html('details', {}, html('summary', {}, counted(fields.length, 'field')), this.fieldTable(fields)),
    );
  }
  fieldTable(fields) {
    const acts = ({ at }) => ({
      pointerenter: () => this.hover(this.cells[at]), click: () => this.select(at, { isFocused: false }),
    });
    const line = field => html(
      'tr', { 'data-at': field.at, ...acts(field) },
      html('td', { class: 'mono dim' }, `${hexPlace(field.at)} ${bitsOf(field)}`), html('td', {}, field.name),
      html('td', { class: 'number' }, String(field.value)), html('td', {}, oddOf(field)),
    );
    const head = ['byte', 'field', 'value', 'meaning'].map(name => html('th', { scope: 'col' }, name));
    return html('table', {}, html('tr', {}, head), fields.map(line));
  }

  /* Keys of the map. */
  key(event) {
    if (!this.edid || event.ctrlKey || event.metaKey || event.altKey) return;
    const last = this.cells.length - 1;
    const now = this.at ?? Number(event.target.dataset.at ?? 0);
    const go = at => this.select(Math.min(Math.max(at, 0), last));
    const { stretches, owners } = this.edid;
    const withBytes = stretches.filter(one => one.to > one.from);
    const beside = way => go((withBytes[withBytes.indexOf(owners[now]) + way] || { from: way < 0 ? 0 : last }).from);
    const keys = {
      ArrowRight: () => go(now + 1),
      ArrowLeft: () => go(now - 1),
      ArrowDown: () => go(now + this.perRow > last ? now : now + this.perRow),
      ArrowUp: () => go(now < this.perRow ? now : now - this.perRow),
      PageDown: () => beside(1),
      PageUp: () => beside(-1),
      Home: () => go(0),
      End: () => go(last),
      Enter: () => go(now),
      n: () => this.next(1),
      N: () => this.next(-1),
    };
    if (!Object.hasOwn(keys, event.key)) return;
    keys[event.key]();
    event.preventDefault();
    event.stopPropagation();
  }
  /* To the next or the previous stretch in which a byte is odd. */
  next(way) {
    const { owners } = this.edid;
    const now = this.at ?? 0;
    const isOdd = at => this.cells[at].matches('.fails, .warns, .odd');
    for (let at = now + way; at >= 0 && at < this.cells.length; at += way) {
      if (isOdd(at) && owners[at] !== owners[now]) return this.select(at);
    }
    return this.app.say('no further one');
  }
  /* How many bytes stand in a row: half of them in a narrow window. */
  get perRow() {
    const [one, other] = [0, HALF].map(at => this.cells[at].getBoundingClientRect().top);
    return Math.abs(one - other) < 2 ? ROW : HALF;
  }
  focus() {
    const cell = this.cells[this.at ?? 0];
    if (cell) cell.focus();
  }
}

/* What a field says; what the standard has not is marked, with a word why. */
function oddOf(field) {
  const said = fieldSays(field);
  return FOUND[field.found] ? html('span', { class: 'bad', title: FOUND[field.found] }, said) : said;
}
