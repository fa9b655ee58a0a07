// One model of all texts: lanes, rows in order of time, rounds, tests, the wave. Nothing here draws.
// What the program does not write is inferred here, and docs/picture.md lists it: who receives, and addresses where no session of
// `live` tells them.

import { tieAnswers } from './answers.js';
import { edidOf } from './edid.js';
import { SLOT } from './slots.js';
import { asList, asText, begun, kindOf, lowerBound, readBytes, readDump, readEdges, readFindings, readObjects } from './texts.js';
import { readRoom } from './texts.js';
import { addressName } from './words.js';

/* The logical addresses that each kind polls, by unit (docs/behaviour.md). A combo has two units. */
const POLLS = { __proto__: null, tv: ['0e'], amp: ['5'], player: ['48b'], recorder: ['129'], combo: ['129', '48b'] };
/* Who is the root of the tree, and who polls no address. */
const TELEVISIONS = ['tv', 'outside-tv'];
const SILENT = ['outside', 'outside-tv', 'switch'];
/* Idle time from which on it is folded, in microseconds. */
const FOLDED_IDLE = 250000;
const SHORTEST_FOLD = 50000;
const VERDICTS = ['ack', 'ok', 'nack', 'refused'];
const STOPPED = ['nack', 'refused'];

export const isWave = text => ['dump', 'edges'].includes(kindOf(text));

/* The model of some texts: each is { name, text }. */
export function build(texts) {
  const model = {
    title: '', objects: [], tests: [], stretches: [], meanings: [], faults: [], lanes: [], rows: [], rounds: [], states: [],
    ports: [], events: [], sentences: new Map(), names: new Map(), addresses: new Map(), decks: new Map(), wave: null,
    room: null, findings: [], bytes: [], parts: [], edid: null, changes: [], ofAll: [], hasAudit: false, isCapture: false, end: 1,
    verdict: null,
  };
  const waves = [];
  for (const given of texts) {
    const one = isWave(given.text) ? given : { ...given, text: begun(given, model.faults) }; // a wave is read below
    const kind = kindOf(one.text);
    if (kind === 'objects') readObjects(one.text, model);
    else if (kind === 'dump' || kind === 'edges') waves.push(one);
    else if (kind === 'room') model.room = readRoom(one.text);
    else if (kind === 'meaning') model.meanings.push(one);
    else if (kind === 'findings') readFindings(one.text, model);
    else if (kind === 'bytes') model.bytes = readBytes(one.text);
    else if (kind === 'plain') model.faults.push(`${one.name}: a plain text of the program; give the flag --json`);
    else if (kind === 'empty') model.faults.push(`${one.name}: empty`);
    else model.faults.push(`${one.name}: neither objects of hdminet nor a dump, an edge file or a room`);
    if (kind !== 'empty' && kind !== 'unknown') model.title = model.title || one.name;
  }
  const ends = model.objects.filter(o => o.type === 'end').length;
  if (ends > 1) model.faults.push('several runs in one page: their rounds are mixed');
  model.isCapture = !model.objects.some(o => o.type === 'round') && model.objects.some(o => o.type === 'reading');
  addAudit(model);
  addLanes(model);
  addRows(model);
  model.rounds.sort((a, b) => a.begin - b.begin);
  tieAnswers(model);
  model.end = Math.max(...model.rows.slice(-3).map(row => row.until || row.at), 1);
  addTests(model);
  model.events = model.rows.filter(row => row.type === 'event');
  compareWithStates(model);
  model.edid = edidOf(model);
  for (const one of waves) addWave(model, one);
  return model;
}

/* Takes what an audit says of the line of a run to its rounds, which are its readings. */
function addAudit(model) {
  const key = o => `${o.begin} ${o.close}`;
  const all = model.objects.filter(o => o.type === 'reading');
  for (const o of all) o.isAudited = model.hasAudit;
  if (model.isCapture || all.length === 0) return;
  const readings = new Map(all.map(o => [key(o), o]));
  model.objects = model.objects.filter(o => o.type !== 'reading');
  for (const o of model.objects) {
    const found = o.type === 'round' && readings.get(key(o));
    if (found) [o.remarks, o.notes, o.widths, o.isAudited] = [found.remarks, found.notes, found.widths, found.isAudited];
  }
}

/* Adds a wave, which is the longest of the texts to read. */
export function addWave(model, one) {
  const { name } = one;
  const text = begun(one, model.faults);
  const wave = kindOf(text) === 'dump' ? readDump(text) : readEdges(text);
  if (!wave) {
    model.faults.push(`${name}: a dump without a wire or a time scale`);
    return;
  }
  model.wave = wave;
  model.end = Math.max(model.end, wave.end);
}

/* What was inferred, against what the program says at the end: a disagreement is a note. */
function compareWithStates(model) {
  if (model.changes.length > 0) return; // nothing was inferred
  for (const state of model.states) {
    const lane = model.lanes[model.laneOf.get(state.device)];
    const said = state.logical.filter(Boolean).join('+');
    if (!lane || lane.shown === said || !(model.room || state.physical)) continue;
    const inferred = lane.shown || 'none';
    const fault = `the chart infers the logical address ${inferred} of the rounds, its state says ${said || 'none'}`;
    model.faults.push(`${state.device}: ${fault}`);
  }
}

/* A lane a device. A capture knows no devices: there it is one for each address that sends or acknowledges. */
function addLanes(model) {
  model.laneOf = new Map();
  const add = (name, kind) => {
    if (model.laneOf.has(name)) return;
    model.laneOf.set(name, model.lanes.length);
    model.lanes.push({ name, kind, history: [], shown: '', physical: '', osdName: '' });
  };
  model.states = model.objects.filter(o => o.type === 'state');
  if (model.isCapture) {
    const seen = new Set(model.objects.map(senderOf).filter(Boolean));
    for (const o of model.objects) if (/^[0-9a-e]$/.test(o.destination || '') && o.verdict === 'ack') seen.add(o.destination);
    for (const address of [...seen].sort()) add(address, addressName(model, address).replace(' Device ', ' '));
    return;
  }
  for (const state of model.states) add(state.device, state.kind);
  if (model.room) for (const device of model.room.devices) add(device.name, device.kind);
  for (const o of model.objects) {
    for (const name of asList(o.by)) add(name, '');
    for (const loser of asList(o.out)) add(loser.device, '');
  }
}

const fromBits = bits => parseInt(bits, 2).toString(16);
export const senderOf = o => o.initiator || (o.bits && o.bits.length >= 4 ? fromBits(o.bits.slice(0, 4)) : '');

/* A lane's addresses at an instant: { at, logical, isJoined, physical }, or null before the first. */
export function deviceAt(lane, instant) {
  const i = lowerBound(lane.history, instant + 1, entry => entry.at);
  return i > 0 ? lane.history[i - 1] : null;
}

/* Who is joined to the television, and where: the tree of the room's text, which the events plug and unplug. */
class Tree {
  constructor(room) {
    this.parents = new Map(room.plugs.map(([child, parent, port]) => [child, [parent, port]]));
    this.kinds = new Map(room.devices.map(({ name, kind }) => [name, kind]));
    this.places = new Map(); // what was asked since the last change
  }
  plug(child, parent, port) {
    this.parents.set(child, [parent, port]);
    this.places.clear();
  }
  unplug(child) {
    this.parents.delete(child);
    this.places.clear();
  }
  isJoined(device) {
    return this.physicalOf(device) !== '';
  }
  /* The physical address of a device, or nothing where it is not joined to the television. */
  physicalOf(device) {
    if (!this.places.has(device)) this.places.set(device, this.placeOf(device));
    return this.places.get(device);
  }
  placeOf(device) {
    const ports = this.portsTo(device);
    if (ports === null) return '';
    return ports.length > 4 ? 'f.f.f.f' : [0, 1, 2, 3].map(i => (Number(ports[i]) || 0).toString(16)).join('.');
  }
  portsTo(device) {
    const ports = [];
    for (let depth = 0; depth < 16; depth++) {
      if (TELEVISIONS.includes(this.kinds.get(device))) return ports;
      const up = this.parents.get(device);
      if (!up) return null;
      ports.unshift(up[1]);
      device = up[0];
    }
    return null;
  }
}

/* Who holds which addresses, while the rows are gone through. */
class Holders {
  constructor(model) {
    this.model = model;
    this.tree = model.room && !model.isCapture ? new Tree(model.room) : null;
    this.held = model.lanes.map(lane => this.atFirst(lane)); // by lane, and there by unit
    model.lanes.forEach((_, lane) => this.note(null, lane));
  }
  /* What a device holds that has just come on the wire. All others poll. */
  atFirst({ name, kind }) {
    if (this.tree && !this.tree.isJoined(name)) return [];
    if (SILENT.includes(kind)) return ['f'];
    return this.tree && this.tree.physicalOf(name) === 'f.f.f.f' ? (POLLS[kind] || ['']).map(() => 'f') : [];
  }
  /* Writes a lane's addresses down, where a row has changed them. */
  note(row, index) {
    const { model, tree } = this;
    const lane = model.lanes[index];
    const logical = model.isCapture ? lane.name : this.held[index].filter(Boolean).join('+');
    const isJoined = !tree || tree.isJoined(lane.name);
    const physical = tree ? tree.physicalOf(lane.name) : lane.physical;
    const last = lane.history[lane.history.length - 1];
    if (last && last.logical === logical && last.isJoined === isJoined && last.physical === physical) return;
    lane.history.push({ at: row ? (row.until ?? row.at) : -1, logical, isJoined, physical });
    const shown = isJoined ? logical : '';
    if (row && !model.isCapture && lane.shown !== shown) row.changes.push({ lane: index, text: shown || '–', was: lane.shown });
    lane.shown = shown;
    lane.physical = physical;
  }
  /* What a round tells of its sender. */
  hear(row, index) {
    const { model, held } = this;
    const lane = model.lanes[index];
    const { initiator, destination, verdict, bytes } = row.o;
    const polls = POLLS[lane.kind] || [];
    const unit = polls.findIndex(addresses => addresses.includes(initiator));
    if (!model.isCapture && bytes.length === 2 && initiator === destination && unit >= 0) {
      const addresses = polls[unit];
      if (held[index][unit] && initiator === addresses[0]) held[index] = []; // it starts anew
      if (verdict === 'nack') held[index][unit] = initiator;
      else if (initiator === addresses[addresses.length - 1]) held[index][unit] = 'f';
    }
    if (/^..84....../.test(bytes) && verdict) lane.physical = [...bytes.slice(4, 8)].join('.');
    if (model.isCapture && /^..47/.test(bytes)) lane.osdName = asciiOf(bytes.slice(4));
    this.note(row, index);
  }
  /* What an event that was taken changes. */
  apply(row, [verb, name, parent, port]) {
    const { model, tree, held } = this;
    const index = model.laneOf.get(name);
    if (verb === 'hold' && index !== undefined) {
      held[index] = parent === '-' ? ['f'] : asText(parent).split('+');
      this.note(row, index);
    }
    if (!tree || (verb !== 'plug' && verb !== 'unplug')) return;
    const places = () => model.lanes.map(lane => tree.physicalOf(lane.name));
    const before = places();
    if (verb === 'plug') tree.plug(name, parent, port);
    else tree.unplug(name);
    places().forEach((place, lane) => {
      if (place === before[lane]) return;
      held[lane] = this.atFirst(model.lanes[lane]);
      this.note(row, lane);
    });
  }
}

/* When all that a row does is done: of a round that was acknowledged the line rises after its close. */
export const overOf = row => row.over ?? row.until ?? row.at;

/* Writes down what the program says of each device over time: what it says before an instant is so since the last round or event
   ended, or, where it was asked within a slot of that end, since then. */
function addHistory(model) {
  const ends = model.objects.filter(o => ['round', 'event'].includes(o.type)).map(o => o.close ?? o.at).sort((a, b) => a - b);
  for (const { before, state } of model.changes) {
    const lane = model.lanes[model.laneOf.get(state.device)];
    if (!lane) continue;
    const end = ends[lowerBound(ends, before) - 1] ?? -1;
    const at = before - 1 - end < SLOT ? before - 1 : end;
    const logical = state.logical.filter(Boolean).join('+');
    const entry = { at, end, logical, isJoined: state.physical !== '', physical: state.physical, state };
    if (lane.history.length > 0 && lane.history.at(-1).at === at) lane.history.pop();
    lane.history.push(entry);
  }
}
/* Which row has changed an address: the last one that was over then, but before all an event that plugs or holds. */
function addAddresses(model) {
  const ended = new Map();
  for (const row of model.rows) {
    const at = row.until ?? row.at;
    const before = ended.get(at);
    const isFirm = before && before.type === 'event' && PLUGS.test(before.text);
    if (row.type === 'round' || (row.type === 'event' && !(isFirm && !PLUGS.test(row.text)))) ended.set(at, row);
  }
  model.lanes.forEach((lane, index) => {
    for (const { at, end, logical, isJoined } of lane.history) {
      const shown = isJoined ? logical : '';
      const row = ended.get(end);
      if (row) row.over = Math.max(overOf(row), at);
      if (row && shown !== lane.shown) row.changes.push({ lane: index, text: shown || '–', was: lane.shown });
      lane.shown = shown;
    }
  });
}
const PLUGS = /^(plug|unplug|hold) /;

export const asciiOf = hex => (asText(hex).match(/../g) || []).map(byte => String.fromCharCode(parseInt(byte, 16))).join('');

/* Rows of the chart: rounds, events, EDIDs, folded idle time. */
function addRows(model) {
  const isTold = model.changes.length > 0 && !model.isCapture;
  const holders = isTold ? null : new Holders(model);
  if (isTold) addHistory(model);
  const lastOf = new Map(); // a sender's last attempt
  let close = 0;
  let ports = null;
  for (const o of model.objects) {
    const at = o.begin ?? o.at;
    if (o.type === 'state' || at === null || at === undefined) continue;
    if (at - close > FOLDED_IDLE && model.rows.length > 0) {
      model.rows.push({ type: 'gap', at: close, until: at, cls: 'idle', text: '', changes: [] });
    }
    if (o.type === 'port') {
      model.ports.push(o);
      if (!ports || ports.at !== at) {
        ports = { type: 'ports', at, o, ports: [], cls: 'idle', text: '', changes: [] };
        model.rows.push(ports);
      }
      ports.ports.push(o);
      continue;
    }
    ports = null;
    const row = { type: o.type === 'reading' ? 'round' : o.type, at, until: o.close, o, text: '', changes: [], tests: [] };
    model.rows.push(row);
    if (row.type === 'round') {
      o.row = row;
      model.rounds.push(o);
      describeRound(model, row, holders, lastOf);
      close = Math.max(close, o.close);
    } else if (row.type === 'event') {
      describeEvent(model, row, holders);
      close = Math.max(close, at);
    } else {
      row.cls = 'idle';
      close = at;
    }
  }
  if (isTold) addAddresses(model);
  model.rows.forEach((row, index) => {
    row.index = index;
  });
}

/* What the audit says of a block of a round that was not taken. */
const saidOfBlock = ({ notes, remarks }) => [...notes, ...remarks].find(({ attempt }) => attempt !== null);

/* A sender stops where a block was not taken: { block, verdict }, which the audit says. Without an audit the round is silent
   after whole blocks, and its last bit says so. */
function stoppedBy(o, destination) {
  if (o.ending !== 'silent') return null;
  const said = saidOfBlock(o);
  if (o.isAudited) return said && STOPPED.includes(said.verdict) ? said : null;
  const isBroadcast = destination === 'f';
  const isWhole = o.bits.length > 0 && o.bits.length % 10 === 0 && o.bits.endsWith(isBroadcast ? '0' : '1');
  return isWhole ? { block: o.bits.length / 10, verdict: isBroadcast ? 'refused' : 'nack' } : null;
}

function describeRound(model, row, holders, lastOf) {
  const { o } = row;
  const laneOf = name => model.laneOf.get(name);
  const isPoll = o.bytes.length === 2 && o.initiator === o.destination;
  row.destination = o.destination || (o.bits.length >= 8 ? fromBits(o.bits.slice(4, 8)) : '');
  const stopped = stoppedBy(o, row.destination);
  const latest = o.out.reduce((most, { slot }) => Math.max(most, slot), 0);
  const stayed = o.by.length > 0 || !stopped ? o.by : o.out.filter(({ slot }) => slot === latest).map(({ device }) => device);
  const senders = model.isCapture ? [senderOf(o)] : stayed;
  row.from = senders.map(laneOf).filter(lane => lane !== undefined);
  row.losers = o.out
    .filter(({ device }) => !senders.includes(device))
    .map(({ device, slot }) => ({ lane: laneOf(device), slot }))
    .filter(({ lane }) => lane !== undefined);
  row.text = textOf(o, isPoll, stopped);
  const broken = o.ending === 'joined' ? 'idle' : 'broken';
  const ofVerdict = VERDICTS.includes(o.verdict) ? o.verdict : 'idle';
  row.cls = stopped ? stopped.verdict : o.ending !== 'complete' ? broken : isPoll ? 'poll' : ofVerdict;
  row.verdict = o.ending !== 'complete' ? o.ending : !isPoll ? o.verdict : o.verdict === 'nack' ? 'free' : 'taken';
  row.remarks = o.remarks;
  row.notes = o.notes;
  row.to = (o.ending === 'complete' || stopped) && !isPoll ? receiversOf(model, row) : [];
  tieAttempt(row, lastOf);
  if (holders) for (const lane of row.from) holders.hear(row, lane);
}

function textOf(o, isPoll, stopped) {
  if (o.ending === 'complete') return o.frame.slice(4) || `poll ${o.initiator}${isPoll ? '' : ` to ${o.destination}`}`;
  if (stopped) return `block ${stopped.block} ${stopped.verdict === 'nack' ? 'not acknowledged' : 'refused'}`;
  if (o.ending === 'joined') return 'read before the line was first idle';
  return `${o.ending}${o.bits ? ` after ${o.bits}` : ''}`;
}

/* Who receives: all others that are joined, or the holders of the address. */
function receiversOf(model, row) {
  const isReceiver = lane => {
    const { isJoined, logical } = deviceAt(model.lanes[lane], row.at) || {};
    if (row.destination === 'f') return model.isCapture || isJoined;
    return model.isCapture ? model.lanes[lane].name === row.destination : asText(logical).split('+').includes(row.destination);
  };
  return model.lanes.map((_, lane) => lane).filter(lane => !row.from.includes(lane) && isReceiver(lane));
}

/* Which attempt this is says the audit. It is tied to the one before it; so are bad starts one after another. */
function tieAttempt(row, lastOf) {
  const sender = senderOf(row.o);
  const said = saidOfBlock(row.o);
  const last = lastOf.get(sender);
  row.attempt = said ? said.attempt : null;
  row.first = said && last && row.attempt === last.attempt + 1 ? last.first : row;
  row.first.attempts = row.attempt;
  if (said) lastOf.set(sender, row);
  else lastOf.delete(sender);
  if (row.o.ending !== 'bad-start') lastOf.delete('bad-start');
  else if (lastOf.has('bad-start')) row.first = lastOf.get('bad-start');
  else lastOf.set('bad-start', row);
}

function describeEvent(model, row, holders) {
  const { o } = row;
  const line = model.room && model.room.script.get(o.scriptLine);
  row.text = line ? line.replace(/^at \S+ /, '') : `line ${o.scriptLine} of the script`;
  row.cls = 'event';
  row.verdict = o.verdict === 'ok' ? '' : `refused ${o.cause}`;
  const words = row.text.split(' ');
  row.lane = line ? model.laneOf.get(words[1]) : undefined;
  if (holders && line && o.verdict === 'ok') holders.apply(row, words);
}

/* Which rows the tests speak of. A failure stands in the chart too, where its window ends. */
function addTests(model) {
  if (model.tests.length === 0) return;
  const byLine = new Map(model.rows.filter(row => row.o).map(row => [row.o.line, row]));
  const eventOf = new Map(model.rows.filter(row => row.type === 'event').map(row => [row.o.scriptLine, row]));
  for (const test of model.tests) {
    test.rows = test.seen.map(o => byLine.get(o.line)).filter(Boolean);
    for (const row of test.rows) if (row.tests) row.tests.push(test);
    test.state = test.seen.find(o => o.type === 'state') || null;
    test.event = (test.refused && eventOf.get(test.scriptLine)) || null;
    test.at = test.window && test.window.to !== null ? test.window.to : test.event ? test.event.at : null;
  }
  for (const test of model.tests) if (!test.holds && test.at !== null && !test.event) insertFailure(model, test);
  model.rows = model.rows.filter(row => row.type !== 'gap' || row.until - row.at > SHORTEST_FOLD);
  model.rows.forEach((row, index) => {
    row.index = index;
  });
}

function insertFailure(model, test) {
  const { rows } = model;
  const said = test.text || `refused ${test.refused}`;
  const failure = {
    type: 'test', at: test.at, test, cls: 'failed', verdict: 'failed', changes: [],
    text: `not ok ${test.test}  ${said}`,
  };
  let i = rows.findIndex(row => row.type !== 'ports' && row.type !== 'gap' && row.at > test.at);
  if (i < 0) i = rows.length;
  const gap = i > 0 && rows[i - 1].type === 'gap' ? rows[i - 1] : null;
  if (gap && gap.at < test.at && test.at < gap.until) { // it stands in the middle of the idle time
    rows.splice(i, 0, { ...gap, at: test.at });
    gap.until = test.at;
  }
  rows.splice(i, 0, failure);
}
