// The side panel: what is selected, what to look at, the report, the rows as a table, the devices at the end, who sent what,
// EDIDs and notes.

import { delayOf } from './answers.js';
import { drawBeside } from './beside.js';
import { whyStopped } from './chart.js';
import { counted, duration, html, link, seconds, svg, table } from './elements.js';
import { senderOf } from './model.js';
import { drawRoom, hasRoom } from './room.js';
import { acknowledgersOf, blockOf, freeBefore, isOut, partOf, slotsOf, WINDOWS } from './slots.js';
import { addressInWords, CAUSES, expectOf, meaningOf, partyName, stateWord } from './words.js';

const MOST_LISTED = 500;
const MOST_FLAT = 40; // longer lists are grouped by kind
const PAGE_OF_TABLE = 200;

/* The tabs: when each is there, and what it draws. */
export const PANELS = {
  selected: { name: 'Selected', isThere: model => model.rows.length > 0 || !model.edid, draw: drawSelected },
  look: { name: 'To look at', isThere: model => model.rows.length > 0, draw: drawToLookAt },
  report: { name: 'Report', isThere: model => model.tests.length > 0 || model.stretches.length > 0, draw: drawReport },
  table: { name: 'Table', isThere: model => model.rows.length > 0, draw: drawTable },
  beside: { name: 'Beside', isThere: model => Boolean(model.isBeside), draw: drawBeside },
  room: { name: 'Room', isThere: hasRoom, draw: drawRoom },
  devices: { name: 'At the end', isThere: model => model.states.length > 0, draw: drawDevices },
  talk: { name: 'Who sent what', isThere: model => model.rounds.length > 0, draw: drawTalk },
  edids: { name: 'EDIDs', isThere: hasEdid, draw: drawEdids },
  notes: { name: 'Notes', isThere: model => model.faults.length > 0 || hasAudit(model), draw: drawNotes },
};
const hasAudit = model => model.ofAll.length > 0;
function hasEdid({ ports, meanings, edid, findings }) {
  return ports.length > 0 || meanings.length > 0 || Boolean(edid) || findings.length > 0;
}

const dim = text => html('p', { class: 'dim' }, text);
const bad = text => html('span', { class: 'bad' }, text);

function drawSelected(app, model) {
  const row = app.selected;
  if (!row) return [dim('Select a row of the chart, or a frame of the wave.')];
  return SELECTED[row.type](app, model, row);
}
const SELECTED = {
  round: drawRound,
  event: drawEvent,
  gap: (app, model, row) => [html('p', {}, `Nothing for ${duration(row.until - row.at)}, from ${row.at} to ${row.until} µs.`)],
  ports: (app, model, row) => [
    html('h2', {}, 'EDIDs passed on'),
    table(row.ports.map(p => [`${p.device} ${p.port}`, inList(`${p.edid.length / 2} bytes`, physicalIn(app, p.edid))])),
    html('p', {}, link('All EDIDs', () => app.openPanel('edids'))),
  ],
  end: (app, model, row) => [html('p', {}, `The run ends at ${row.at} µs.`)],
  test: (app, model, row) => [testButton(app, row.test), testDetails(app, row.test)],
};

function drawRound(app, model, row) {
  const round = row.o;
  const links = [
    link('Copy the line', () => app.copy(round.line)),
    round.bytes && link('Copy the bytes', () => app.copy(round.bytes)),
    link('Copy as expect', () => app.copy(expectOf(round))),
    model.wave && link('See its wave', () => app.wave.showRound(round)),
  ];
  return [
    html('h2', {}, round.ending === 'complete' ? round.frame : `${round.ending} ${round.bits}`),
    html('p', {}, html('span', { class: `tag ${row.cls}` }, row.verdict), ' ', meaningOf(round, model)),
    table(partiesAndTimes(app, model, row)),
    round.bytes && blocks(model, round),
    widths(model, round),
    row.remarks.length > 0 && [html('h3', {}, 'Remarks of the audit'), list(row.remarks.map(inWords))],
    row.notes.length > 0 && [html('h3', {}, 'Notes of the audit'), list(row.notes.map(inWords))],
    row.tests.length > 0 && [html('h3', {}, 'Tests'), row.tests.map(test => testButton(app, test))],
    html('h3', {}, 'Line'), html('pre', {}, round.line), html('p', {}, links),
  ];
}
/* A remark or a note, with its section of HDMI 1.4 CEC. */
const inWords = ({ text, section }) => (section ? `${text} (CEC ${section})` : text);
const list = texts => html('ul', {}, texts.map(text => html('li', {}, text)));

/* A frame beside its question or its answer, with the time between the two. */
const answerLink = (app, shown, answer) => link(`${shown.text}, ${duration(delayOf(answer))}`, () => app.select(shown));

function partiesAndTimes(app, model, row) {
  const round = row.o;
  const name = lane => partyName(model, lane, round.begin);
  const both = lanes => lanes.map(name).join(' and ');
  const unknown = model.isCapture && senderOf(round) ? `address ${senderOf(round)}` : '–';
  const isSeeker = model.isCapture && row.cls === 'poll'; // it has no address yet, so no lane is its own
  const sender = isSeeker ? 'a device without an address' : row.from.length > 0 ? both(row.from) : unknown;
  const nobody = `address ${row.destination}${round.verdict === 'ack' ? '' : ', which nobody here holds'}`;
  const before = model.rounds[model.rounds.indexOf(round) - 1];
  const attempts = row.folded ? `1 to ${row.folded.length}, folded (Enter unfolds)` : String(row.attempt);
  return [
    ['From', sender],
    row.destination && ['To', row.destination === 'f' ? 'all' : row.to.length > 0 ? both(row.to) : nobody],
    row.losers.length > 0 && ['Out', row.losers.map(loser => whyStopped(model, loser)).join('; ')],
    (row.attempt !== null || row.folded) && ['Attempt', attempts],
    ['Begin', `${round.begin} µs`],
    ['Close', `${round.close} µs, ${round.close - round.begin} later`],
    before && ['Before', `${round.begin - before.close} µs since the close of the round above`],
    row.answer && ['Answer', answerLink(app, row.answer, row.answer)],
    row.answers && ['Answers', answerLink(app, row.answers, row)],
  ].filter(Boolean);
}

/* The blocks of a complete round, with who acknowledged each. */
function blocks(model, round) {
  const bytes = round.bytes.match(/../g);
  const acknowledgers = acknowledgersOf(model, round);
  const isBroadcast = round.destination === 'f';
  const isOfText = /^..(47|64|67|32)/.test(round.bytes);
  const meaning = (byte, i) => {
    if (i === 0) return `${addressInWords(model, byte[0])} to ${isBroadcast ? 'all' : addressInWords(model, byte[1])}`;
    if (i === 1) return model.names.get(byte) || '';
    const code = parseInt(byte, 16);
    return isOfText && code >= 0x20 && code < 0x7f ? `'${String.fromCharCode(code)}'` : '';
  };
  const taken = i => {
    if (!acknowledgers || acknowledgers[i].length === 0) return '';
    return `${isBroadcast ? 'refused' : 'acknowledged'} by ${acknowledgers[i].join(', ')}`;
  };
  const names = ['header', 'opcode'];
  const rows = bytes.map((byte, i) => [names[i] || `operand ${i - 1}`, html('code', {}, byte), meaning(byte, i), taken(i)]);
  const isByPulse = acknowledgers && acknowledgers.some(who => who.length === 1 && who[0] === 'a pulse');
  const pulse = isByPulse && html('p', { class: 'bad' }, 'A pulse from outside alone pulled an acknowledge slot.');
  return [html('h3', {}, 'Blocks'), table(rows), pulse];
}

const span = (least, most) => (least === most ? String(least) : `${least}..${most}`);

/* Whether the fall after a slot came too early, and ended the round. */
const isEnd = (round, slot) => round.ending === 'short' && slot.at + slot.total === round.close;

/** The kinds of widths: what the program calls each, the page, and its window of CEC 5.2.
    @type {[string, string, number[]][]} */
const KINDS = [
  ['start low', 'start low', WINDOWS.startLow], ['start total', 'start total', WINDOWS.startTotal],
  ['zero low', '0 low', WINDOWS.zero], ['one low', '1 low', WINDOWS.one], ['bit total', 'bit total', WINDOWS.total],
];
/* The widths of a round as `mon --timing` has them. */
function measured({ widths: seen }) {
  return KINDS.flatMap(([kind, name, [from, to]]) => {
    const verdict = ({ least, greatest }) => (least >= from && greatest <= to ? 'in' : bad('out'));
    const line = one => [name, span(one.least, one.greatest), `${from}..${to}`, verdict(one)];
    return seen.filter(one => one.kind === kind).map(line);
  });
}

/* The widths of a round, and each slot as a table. */
function widths(model, round) {
  const slots = slotsOf(model, round);
  const isOther = !slots && model.wave && round.ending !== 'joined';
  const free = slots && freeBefore(model, round);
  const asked = free >= 7200 ? ' (7200 to send again, 12000 for a new initiator, 16800 for the last one)' : '';
  return [
    round.widths.length > 0 && [html('h3', {}, 'Widths, in µs'), table(measured(round), ['', 'seen', 'allowed', ''])],
    isOther && dim('The wave is not the line that this was read of: another run, or pulses that --glitch left out.'),
    free !== null && html('p', {}, `The line was high for ${free} µs before${asked}.`),
    slots && html('details', {}, html('summary', {}, 'Each slot'), slotTable(round, slots)),
  ];
}
function slotTable(round, slots) {
  const rows = slots.map(({ bit, low, total }, i) => [
    i === 0 ? 'start' : `block ${blockOf(i)} ${partOf(i)}`, i === 0 ? '' : bit,
    isOut(round, i) ? bad(String(low)) : low, slots[i + 1] || isEnd(round, slots[i]) ? total : '',
  ]);
  return table(rows, ['slot', 'bit', 'low', 'total']);
}

function drawEvent(app, model, row) {
  const { o } = row;
  const answer = o.verdict === 'ok' ? 'was applied' : bad(`was refused: ${CAUSES[o.cause] || o.cause}`);
  return [
    html('h2', {}, row.text),
    html('p', {}, html('span', { class: 'tag event' }, 'event'), ' ', answer, ` at ${o.at} µs.`),
    html('p', {}, `Line ${o.scriptLine} of the script.`),
    !model.room && dim('Give the page the objects of run --json --room, or the room\'s text too, to see what the line says.'),
    html('h3', {}, 'Line'), html('pre', {}, o.line),
  ];
}

/* What is not as it should be, in order of time: the short way into a long run. What is the same is listed once. */
function drawToLookAt(app, model) {
  const found = new Map();
  for (const row of model.rows) {
    for (const [what, cls, kind] of oddities(model, row)) {
      if (found.has(what)) found.get(what).rows.push(row);
      else found.set(what, { what, cls, kind, rows: [row], next: 0 });
    }
  }
  const all = [...found.values()];
  const goTo = one => {
    const row = one.rows[one.next];
    one.next = (one.next + 1) % one.rows.length;
    app.select(row, { keepsPanel: true });
  };
  const cut = all.length > MOST_LISTED ? `; the first ${MOST_LISTED}` : '';
  const how = 'A click goes to it, a further one to the next of its kind.';
  const head = `${counted(all.length, 'thing')}, in order of time${cut}. ${how}`;
  const line = one => html(
    'tr', {},
    html('td', { class: 'mono dim' }, seconds(one.rows[0].at)),
    html('td', {}, html('button', { class: `link ${one.cls}`, style: 'color:var(--c)', click: () => goTo(one) }, one.what)),
    html('td', { class: 'number' }, one.rows.length > 1 ? `×${one.rows.length}` : ''),
  );
  const lines = list => html('table', {}, list.slice(0, MOST_LISTED).map(line));
  if (all.length <= MOST_FLAT) return [dim(all.length > 0 ? head : 'Nothing was refused, lost or broken.'), lines(all)];
  const kinds = [...new Set(all.map(one => one.kind))].map(kind => all.filter(one => one.kind === kind));
  const rows = list => list.reduce((sum, one) => sum + one.rows.length, 0);
  const group = list => html('details', {}, html('summary', {}, `${list[0].kind}: ${counted(rows(list), 'row')}`), lines(list));
  return [dim(head), kinds.map(group)];
}
/* What is odd of a row: what is said of it, its colour, and of which kind that is. */
function oddities(model, row) {
  const names = lanes => lanes.map(lane => model.lanes[lane].name).join(', ');
  const odd = [];
  if (row.type === 'event' && row.o.verdict !== 'ok') odd.push([`${row.text}: ${row.verdict}`, 'event', 'Refused events']);
  if (row.type === 'test') odd.push([row.text, 'failed', 'Failed tests']);
  for (const { lane, text, was } of row.changes) {
    const { name, kind } = model.lanes[lane];
    if (text === '–') odd.push([`${name} loses the address ${was}: ${row.text}`, 'broken', 'Lost addresses']);
    const isSettled = text === 'f' && kind !== 'switch' && row.type === 'round';
    if (isSettled) odd.push([`${name} settles without an address`, 'broken', 'Devices without an address']);
  }
  if (row.type !== 'round') return odd;
  const { o } = row;
  if (row.cls === 'broken') {
    odd.push([`${row.text}${row.from.length > 0 ? ` of ${names(row.from)}` : ''}`, 'broken', 'Broken rounds']);
  } else if (row.cls === 'nack' && row.first === row) {
    const what = o.frame || `${names(row.from)} to ${row.destination}`;
    odd.push([`${what}: not acknowledged${row.attempts > 1 ? `, ${row.attempts} attempts` : ''}`, 'nack', 'Not acknowledged']);
  } else if (row.cls === 'refused') {
    odd.push([`${o.frame || row.text}: refused`, 'refused', 'Refused by somebody']);
  } else if (o.bytes.slice(2, 4) === '00') {
    odd.push([o.frame, 'nack', 'Feature Abort']);
  }
  if (row.verdict === 'taken') {
    const whose = row.from.length > 0 ? `: not for ${model.lanes[row.from[0]].name}` : '';
    odd.push([`address ${o.initiator} is taken${whose}`, 'poll', 'Addresses that are taken']);
  }
  if (row.losers.length > 0 && row.cls !== 'broken') {
    odd.push([row.losers.map(loser => whyStopped(model, loser)).join('; '), 'poll', 'Lost arbitrations']);
  }
  if (row.remarks.length > 0) {
    const others = row.remarks.length > 1 ? ` and ${row.remarks.length - 1} more` : '';
    odd.push([row.remarks[0].text + others, 'broken', `Remarks: ${row.remarks[0].kind}`]);
  }
  return odd;
}

function testButton(app, test) {
  const text = html('span', { class: 'mono' }, test.text || `line ${test.scriptLine} was refused: ${test.refused}`);
  const attributes = {
    class: `test${test.holds ? '' : ' fails'}`, 'aria-pressed': String(app.banded === test), click: () => app.showTest(test),
    'aria-label': `test ${test.test} ${test.holds ? 'holds' : 'fails'}: ${test.text || test.refused}`,
  };
  return html('button', attributes, `${test.holds ? '✓' : '✗'} ${test.test}  `, text);
}
function testDetails(app, test) {
  const { window, state } = test;
  const seen = window && window.from !== null
    ? `${window.seen} seen from ${window.from} to ${window.to} µs.`
    : 'There is no instant to look from: what it names did not happen.';
  const rowLink = row => link(`${seconds(row.at)}  ${row.o.frame || row.text} ${row.verdict}`, () => app.select(row));
  return [
    html('p', {}, window ? seen : state ? 'What the state says:' : ''),
    test.rows.length > 0 && html('ul', {}, test.rows.map(row => html('li', {}, rowLink(row)))),
    state && html('pre', {}, state.line),
  ];
}
/* The report, failures first. */
function drawReport(app, model) {
  const { tests, stretches } = model;
  const failed = tests.filter(test => !test.holds);
  const all = counted(tests.length, 'test');
  const count = failed.length > 0 ? bad(`${failed.length} of ${all} failed.`) : `${all}, none failed.`;
  const ordered = [...failed, ...tests.filter(test => test.holds)];
  const alone = 'A report alone. Add  ./hdminet check --plain < x.test | ./hdminet run --json  to see its rounds.';
  return [
    tests.length > 0 && html('p', {}, count),
    ordered.map(test => [testButton(app, test), app.banded === test && testDetails(app, test)]),
    tests.length > 0 && model.rounds.length === 0 && dim(alone),
    stretches.length > 0 && stretchTable(app, model),
  ];
}

/* A sweep: a bar for each test over the range of instants. */
const BAR_WIDTH = 1000;
export function drawSweep(app, { stretches, room }) {
  const { from } = stretches[0];
  const { to } = stretches[stretches.length - 1];
  const x = instant => ((instant - from) / (to - from || 1)) * (BAR_WIDTH - 5);
  const shape = { class: 'sweep', viewBox: `0 0 ${BAR_WIDTH} 20`, preserveAspectRatio: 'none', role: 'img' };
  const bar = test => svg('svg', { ...shape, 'aria-label': `test ${test + 1}` }, stretches.map(stretch => {
    const holds = stretch.holds[test];
    const [y, height] = holds ? [0, 20] : [8, 12]; // what fails is lower
    const place = { x: x(stretch.from), y, width: Math.max(x(stretch.to) - x(stretch.from), 5), height };
    const title = svg('title', {}, `${holds ? 'holds' : 'fails'} from ${stretch.from} to ${stretch.to}`);
    const colour = `fill:var(--${holds ? 'ack' : 'broken'})`;
    return svg('rect', { ...place, style: colour, click: () => app.openInstant(stretch.from) }, title);
  }));
  const expectation = test => (room && room.expectations[test] ? `  ${room.expectations[test]}` : '');
  return [
    html('h3', {}, `Sweep, ${from} to ${to} µs`),
    stretches[0].holds.map((_, test) => [html('div', { class: 'mono' }, `test ${test + 1}${expectation(test)}`), bar(test)]),
    html('div', { class: 'ends dim' }, html('span', {}, `${from} µs`), html('span', {}, `${to} µs`)),
  ];
}
/* The same in words. */
function stretchTable(app, { stretches }) {
  const mark = holds => (holds ? '✓ holds' : bad('✗ fails'));
  const at = ({ from, to }) => (app.hasInstant(from) ? link(span(from, to), () => app.openInstant(from)) : span(from, to));
  const rows = stretches.map(stretch => [at(stretch), ...stretch.holds.map(mark)]);
  return table(rows, ['instants, µs', ...stretches[0].holds.map((_, test) => `test ${test + 1}`)]);
}

/* The rows of the chart as a table, for a screen reader too: a page of them, from the one that is selected on. */
function drawTable(app, model) {
  const { shown } = app.chart;
  const at = app.selected && shown[app.selected.place] === app.selected ? app.selected.place : 0;
  const from = app.tableFrom ?? Math.max(at - (at % PAGE_OF_TABLE), 0);
  const to = Math.min(from + PAGE_OF_TABLE, shown.length);
  const names = lanes => lanes.map(lane => model.lanes[lane].osdName || model.lanes[lane].name).join(', ');
  const receivers = row => (row.destination === 'f' ? 'all' : names(row.to || []) || row.destination || '');
  const what = row => {
    if (row.type === 'gap') return `idle ${duration(row.until - row.at)}`;
    if (row.type === 'ports') return 'EDIDs passed on';
    if (row.type === 'end') return 'end';
    const losers = (row.losers || []).map(loser => `; ${whyStopped(model, loser)}`).join('');
    const attempt = row.folded ? `; attempts 1 to ${row.folded.length}` : row.attempt > 1 ? `; attempt ${row.attempt}` : '';
    return row.text + losers + attempt;
  };
  const addresses = row => row.changes.map(({ lane, text }) => `${model.lanes[lane].name} ${text}`).join(', ');
  const line = row => [
    seconds(row.at), names(row.from || []), row.type === 'round' ? receivers(row) : '', link(what(row), () => app.select(row)),
    row.verdict || '', addresses(row), (row.remarks || []).map(remark => remark.text).join('; '),
  ];
  const page = first => app.openTable(first);
  return [
    html('p', {}, `Rows ${Math.min(from + 1, to)} to ${to} of ${shown.length}. `,
      from > 0 && link('Rows before', () => page(Math.max(from - PAGE_OF_TABLE, 0))), ' ',
      to < shown.length && link('Rows after', () => page(to))),
    html('div', { class: 'wide grid' },
      table(shown.slice(from, to).map(line), ['seconds', 'from', 'to', 'what', 'verdict', 'address from here on', 'remarks'])),
  ];
}

function drawDevices(app, model) {
  const keys = Object.keys(model.states[0].fields).filter(key => !['line', 'type', 'device', 'kind'].includes(key));
  const words = key => model.states.map(state => stateWord(model, key, state.fields[key]));
  const line = key => [html('span', { class: 'dim' }, key.replace(/_/g, ' ')), ...words(key)];
  return [
    dim('Each device\'s record at the end. – is none.'),
    html('div', { class: 'wide' }, table(['kind', ...keys].map(line), ['', ...model.states.map(state => state.device)])),
  ];
}

function drawTalk(app, model) {
  const counts = new Map();
  for (const round of model.rounds) {
    const who = round.row.from.map(lane => model.lanes[lane].name).join(' ') || '?';
    const broken = round.row.cls === 'broken' ? round.ending : round.row.text;
    const frame = round.bytes.length === 2 ? 'poll' : round.frame.split(' ')[1] || '?';
    const what = round.ending !== 'complete' ? broken : frame;
    const key = `${who}\n${what}`;
    if (!counts.has(key)) counts.set(key, { who, what, rounds: 0, taken: 0 });
    const count = counts.get(key);
    count.rounds += 1;
    if (round.verdict === 'ack' || round.verdict === 'ok') count.taken += 1;
  }
  const sorted = [...counts.values()].sort((a, b) => (a.who < b.who ? -1 : a.who > b.who ? 1 : b.rounds - a.rounds));
  const search = ({ who, what }) => {
    return `${what} ${who.split(' ').map(name => `from:${name}`).join(' ')}`;
  };
  const line = (count, i) => [
    i > 0 && sorted[i - 1].who === count.who ? '' : count.who, link(count.what, () => app.searchFor(search(count))), count.rounds,
    count.taken,
  ];
  return [
    dim('Taken: acknowledged, or not refused. A free address is a poll that nobody took.'),
    table(sorted.map(line), ['sender', 'what', 'rounds', 'taken']),
  ];
}

/* The physical address in an EDID that is passed on, which the program has read for tools/page. */
function physicalIn({ data }, edid) {
  const isKnown = data && data.addresses && Object.hasOwn(data.addresses, edid);
  return isKnown ? `address ${data.addresses[edid]}` : '';
}
const inList = (...texts) => texts.filter(Boolean).join(', ');
function drawEdids(app, model) {
  const first = model.ports[0];
  const bytesOf = (line, k) => line.match(/../g).map((byte, j) => {
    const at = (k * 16 + j) * 2;
    return [first.edid.slice(at, at + 2) === byte ? byte : bad(byte), ' '];
  });
  const port = ({ device, port: number, at, edid }) => html(
    'details', {},
    html('summary', {}, inList(`${device} port ${number}`, duration(at), physicalIn(app, edid))),
    html('pre', {}, (edid.match(/(..){1,16}/g) || []).map((line, k) => [bytesOf(line, k), '\n'])),
  );
  const meant = line => [line.startsWith(' ') ? html('span', { class: 'dim' }, line) : line, '\n'];
  const meaning = ({ name, text }) => [html('h3', {}, name), html('pre', {}, text.split('\n').map(meant))];
  const isBeside = model.edid && model.rows.length > 0; // the chart has the room of the map
  return [
    isBeside && app.map.root, app.map.panel(model.findings),
    model.ports.map(port), model.ports.length > 1 && dim('Red: bytes that the first one has otherwise.'),
    model.meanings.slice(model.edid && model.edid.lines.length > 0 ? 1 : 0).map(meaning),
  ];
}

function drawNotes(app, model) {
  const { faults, ofAll } = model;
  const others = faults.length > 50 ? [`and ${faults.length - 50} more`] : [];
  return [
    faults.length > 0 && [html('h3', {}, 'Of the data'), list([...faults.slice(0, 50), ...others])],
    hasAudit(model) && [html('h3', {}, 'Audit of all readings'), html('pre', {}, ofAll.join('\n'))],
  ];
}

/* What the page reads: commands that write it, and what it is. */
const COMMANDS = [
  ['./hdminet run --json --room < x.net > x.jsonl', 'the rounds, events and states'],
  ['./hdminet run --edges --as vcd --drives < x.net > x.vcd', 'the wave, and who pulls'],
  ['x.net', 'what the events say, and plugs'],
  ['./hdminet check --json < x.test > report.jsonl', 'a report of tests'],
  ['./hdminet mon --timing --json < capture.pin > x.jsonl', 'a capture, its audit and widths'],
  ['./hdminet mon --verdict --json < capture.pin > x.verdict', 'what a capture is as a whole'],
  ['./hdminet mon --edges < capture.pin > x.edges', 'and its wave: of an edge file or a vcd also the capture itself'],
  ['./hdminet dis --meaning --json < frames.hex > x.meant', 'what frames mean, by their bytes in hex'],
  ['tv.edid', 'an EDID, its bytes; also in hex, as xxd -p writes it'],
  ['./hdminet edid --meaning < tv.edid > tv.meaning', 'what its lines mean'],
  ['./hdminet edid --json < tv.edid > tv.fields', 'of which field each bit is'],
  ['./hdminet edid --check --explain < tv.edid 2> tv.rules', 'and the rules that it breaks'],
];
export const commands = () =>
  html('table', { class: 'commands' }, COMMANDS.map(([command, what]) => html('tr', {}, html('td', {}, html('code', {}, command)),
    html('td', {}, what))));

export function help() {
  const marks = [
    ['→', 'a frame that was acknowledged (green)'],
    ['↔', 'a frame to all that nobody refused (blue); dots are those who hear it'],
    ['× at an end', 'nobody acknowledged (orange), or somebody refused it (violet)'],
    ['○', 'the address is held by nobody here'],
    ['zigzag', 'a round that broke off (red), and where'],
    ['loop', 'a poll: free, nobody took it; or taken'],
    ['round label', 'the logical address that a device has from here on'],
    ['red × out @n', 'a device that stopped at slot n; up to 4 it lost the arbitration'],
    ['◆ ◇', 'an event of the script; ◇ was refused'],
    ['dashed lifeline', 'no logical address, or not joined to the television'],
    ['⚠ n', 'remarks of the audit'],
  ];
  const keys = [
    ['↑ ↓ PgUp PgDn Home End', 'rows of the chart'],
    ['Enter', 'unfold attempts, or show the wave of the round'],
    ['n N', 'next and previous row that is nack, refused or broken, or a failed test'],
    ['/', 'search; Escape clears'],
    ['g Ctrl-G', 'go to a time'],
    ['w c', 'to the wave, to the chart; Tab to all parts'],
    ['+ - ← → 0 f', 'in the wave: zoom, pan, all, the selected round'],
    [', . < >', 'in the wave: cursor A and B to the edge before, after'],
    ['← → ↑ ↓ PgUp PgDn n N', 'bytes of an EDID: to the next one, line, and broken rule'],
    ['o e m t ?', 'open, SVG, Mermaid, light or dark, this'],
  ];
  const searches = [
    ['words', 'rows that have all of them: opcode, device, verdict, time, line'],
    ['from:amp to:amp', 'what a device sends, or is sent; also an address, from:5, and to:all'],
    ['op:82 op:standby', 'frames with an opcode'],
    ['t:3.1..3.2', 'rows of a time; also t:3.1.., t:..3.2, t:3.1'],
    ['not to:all', 'rows that do not meet the next word'],
  ];
  return [
    html('h2', {}, 'Marks'), table(marks), html('h2', {}, 'Search'), table(searches), html('h2', {}, 'Keys'), table(keys),
    html('h2', {}, 'Data'), commands(),
  ];
}
