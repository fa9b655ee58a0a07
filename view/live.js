// The page of `tools/look --live`: the text at the left, run again after each change by the server of this machine that gave the
// page. Nothing else is asked of a network.

import { byId, html, link } from './elements.js';
import { nearest } from './strip.js';
import { asText } from './texts.js';
import { app } from './view.js';
import { expectOf } from './words.js';

const PAUSE = 120; // milliseconds after a key until the text is run
const LINE = 18; // height of a line, in pixels
const MOST_EXPECTED = 50; // rounds
const FLAGS = ['signal', 'glitch', 'margin'];

const area = html('textarea', { id: 'text', spellcheck: 'false', wrap: 'off', 'aria-label': 'The text that is run' });
const gutter = html('div', { class: 'gutter', 'aria-hidden': 'true' });
const fault = html('pre', { class: 'fault', role: 'alert', hidden: '' });
const said = html('span', { class: 'dim' });
const onDisk = html('p', { class: 'disk', hidden: '' });
const fields = html('div', { class: 'flags', hidden: '' });
const page = html('div', { class: 'sheet' }, gutter, area);

/* The text with an expectation for each round that is shown: a test that holds as it stands. */
function asTest() {
  const lines = area.value.replace(/\n$/, '').split('\n');
  const rounds = app.chart.shown.filter(row => row.type === 'round').slice(0, MOST_EXPECTED);
  const expectations = rounds.map(row => expectOf(row.o));
  if (app.model.isCapture) return [...expectations, 'capture', ...lines, ''].join('\n');
  const end = lines.map(line => line.startsWith('end ')).lastIndexOf(true);
  return [...lines.slice(0, end), ...expectations, ...lines.slice(end), ''].join('\n');
}

const copying = link('Copy as .test', () => app.copy(asTest()));
const bar = html('div', { class: 'bar' }, html('b', {}, 'Text'), said, copying);
byId('main').prepend(html('section', { id: 'source', 'aria-label': 'Text' }, bar, fields, onDisk, page, fault));

/* What was given by the server last, whether it is a stream of objects, and which line is at fault. */
const state = { given: '', isStream: false, faultLine: null, asked: 0, shown: 0, due: 0 };

/* The line of the text that is the first one of its script, counted from 1. */
const firstOfScript = () => area.value.split('\n').indexOf('script') + 2;
const lineOf = scriptLine => firstOfScript() + scriptLine - 1;

/* Which lines of the text are those of an EDID: lines that begin with a space say what they mean. */
const linesOfEdid = () => area.value.split('\n').map((line, i) => (line.startsWith(' ') ? 0 : i + 1)).filter(Boolean);
/* The lines of the selected byte of an EDID. */
function linesOfByte() {
  const { edid, at } = app.map;
  if (!edid || at === null) return [];
  const all = linesOfEdid();
  return edid.owners[at].lines.map(line => all[line.number]);
}

/* Marks the line at fault, the line of the selected row or byte, and those of tests that fail. */
function markLines() {
  const row = app.selected;
  const ofByte = linesOfByte();
  const selected = row && row.type === 'event' ? row.o.scriptLine : row && row.type === 'test' ? row.test.scriptLine : null;
  const failed = new Set(app.model.tests.filter(test => !test.holds).map(test => lineOf(test.scriptLine)));
  const marks = number => [
    number === state.faultLine && 'at', ((selected !== null && number === lineOf(selected)) || ofByte.includes(number)) && 'is',
    failed.has(number) && 'no',
  ].filter(Boolean).join(' ');
  const lines = area.value.split('\n');
  gutter.replaceChildren(...lines.map((_, i) => html('div', { class: marks(i + 1) }, String(i + 1))));
  area.style.height = `${(lines.length + 1) * LINE + 12}px`;
}

/* What is selected, and where one has scrolled to, so that it stays over a run. */
function place() {
  const { selected, panel, banded, wave } = app;
  return {
    line: selected && selected.o ? selected.o.line : null, at: selected ? selected.at : null, panel,
    text: selected ? selected.text : null,
    banded: banded ? banded.test : null, from: wave.from, to: wave.to, scroll: byId('chart').scrollTop, byte: app.map.at,
  };
}
function backTo(before) {
  const { rows } = app.model;
  if (before.byte !== null) app.map.select(before.byte, { isFocused: false });
  if (before.at === null || rows.length === 0) return;
  const same = rows.find(one => one.o && one.o.line === before.line);
  const alike = rows.filter(one => one.text === before.text && one.type !== 'gap');
  const row = same || nearest(alike.length > 0 ? alike : rows, before.at);
  app.banded = app.model.tests.find(test => test.test === before.banded) || null;
  app.select(row, { keepsPanel: true, keepsWave: true });
  app.openPanel(before.panel);
  app.wave.see(before.from, before.to);
  byId('chart').scrollTop = before.scroll;
}

/* The flags with which a capture is read, as they stand in the fields. */
function flagsAsked() {
  const asked = new URLSearchParams();
  for (const field of fields.querySelectorAll('input')) {
    if (field.type === 'checkbox' ? field.checked : field.value.trim()) asked.set(field.name, field.value.trim() || '1');
  }
  return asked.toString();
}

/* Runs the text. An answer to an earlier one that comes late is not shown. */
async function run(keeps) {
  state.asked += 1;
  const mine = state.asked;
  const began = performance.now();
  let found;
  try {
    const answer = await fetch(`run?${flagsAsked()}`, { method: 'POST', body: area.value });
    found = answer.ok ? await answer.json() : { fault: `the server refuses the text: ${answer.status} ${answer.statusText}` };
  } catch {
    found = { fault: 'the server has ended' };
  }
  if (mine < state.shown || mine !== state.asked) return;
  state.shown = mine;
  state.faultLine = found.line ?? null;
  fault.hidden = !found.fault;
  fault.textContent = asText(found.fault);
  if (found.data) {
    const before = place();
    await app.openData(found.data);
    if (mine !== state.asked) return;
    if (keeps) backTo(before);
    fields.hidden = !app.model.isCapture;
    copying.hidden = Boolean(app.model.edid);
    said.textContent = `run in ${found.took} ms, drawn in ${Math.round(performance.now() - began - found.took)} ms`;
  } else if (app.isReading) {
    app.waiting = 'No run of this text yet: its fault stands below it.';
    app.chart.draw();
  }
  markLines();
  performance.mark('shown');
}
function runSoon() {
  clearTimeout(state.due);
  state.due = setTimeout(() => run(true), PAUSE);
}

/* Takes what the server has: the file's text, or the objects of a stream so far. */
async function take(keeps) {
  const given = await (await fetch('text')).json();
  const isEdited = area.value !== state.given;
  state.given = given.text;
  state.isStream = given.stream;
  byId('source').hidden = given.stream;
  if (given.stream) {
    const before = place();
    const isAtEnd = before.at === null;
    await app.load([{ name: given.name, text: given.text }]);
    if (isAtEnd) byId('chart').scrollTop = byId('chart').scrollHeight;
    else backTo(before);
    performance.mark('shown');
    return;
  }
  const put = () => {
    onDisk.hidden = true;
    area.value = state.given;
    return run(keeps);
  };
  onDisk.replaceChildren('The file has changed. ', link('Take its text', put));
  onDisk.hidden = !isEdited;
  if (!isEdited) await put();
}

/* A line of the script selects its row, a line of an EDID its bytes; a row or a byte its line. */
function selectLine() {
  if (app.map.edid) {
    const cursor = area.value.slice(0, area.selectionStart).split('\n').length;
    const place = linesOfEdid().filter(line => line <= cursor).length - 1;
    const line = app.map.edid.lines[place];
    if (line && line.to > line.from) app.map.select(line.from, { isFocused: false });
    return;
  }
  const number = area.value.slice(0, area.selectionStart).split('\n').length - firstOfScript() + 1;
  const { rows, tests } = app.model;
  const row = rows.find(one => one.type === 'event' && one.o.scriptLine === number);
  const test = tests.find(one => one.scriptLine === number);
  if (row) app.select(row);
  else if (test) app.showTest(test);
}
app.onSelect = () => {
  markLines();
  const marked = gutter.querySelector('.is');
  if (marked) marked.scrollIntoView({ block: 'nearest' });
};

for (const name of [...FLAGS, 'invert']) {
  const field = name === 'invert'
    ? html('input', { type: 'checkbox', name, value: '1', change: runSoon })
    : html('input', { type: 'text', name, size: 6, input: runSoon });
  fields.append(html('label', {}, `--${name} `, field));
}
area.addEventListener('input', () => {
  markLines();
  runSoon();
});
area.addEventListener('click', selectLine);
app.isReading = true; // until the first run is there
app.chart.draw();
new EventSource('events').onmessage = () => take(true);
take(false);
/* For tests. */
window.hdminet.live = { area, run, take, state, asTest };
