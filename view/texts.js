// The texts that the program writes and reads, from characters to plain values. Nothing here draws, and nothing trusts its
// input: each field is brought to its type in one place, and a line that is none of the program's is counted and named.

/* How long a text may be, in characters. */
export const LIMITS = { text: 1 << 28 };
/* A text, or the lines at the begin of one that is too long, which is noted. */
export function begun({ name, text, isCut }, faults) {
  const isLong = text.length > LIMITS.text;
  if (isLong || isCut) faults.push(`${name}: too long; its begin is shown`);
  return isLong ? text.slice(0, text.lastIndexOf('\n', LIMITS.text) + 1) : text;
}

const MOST_OF_EDID = 4 * 128; // bytes
const isHexOfEdid = text =>
  text.length < 4 * MOST_OF_EDID && /^\s*00\s*(ff\s*){6}00/i.test(text) && /^[0-9a-f]*$/i.test(text.replace(/\s/g, ''));

/* What a text is, by its first line: files may come in any order. */
export function kindOf(text) {
  const first = /^\s*(.*)/.exec(text)[1];
  if (/^\s*\{/.test(first)) return 'objects';
  if (/^(\$|META )/.test(first)) return 'dump';
  if (/^edid 1\.\d/.test(first)) return 'meaning';
  if (isHexOfEdid(text)) return 'bytes';
  if (/^(warn|fail) [a-z-]+/.test(first)) return 'findings';
  if (/^TAP version|^\d+ event \d|^\d+ port \w|^[0-9a-f]>[0-9a-f]( |$)/.test(first)) return 'plain';
  if (/^\d+ \d+ (complete|short|silent|bad-start|long|open|joined) /.test(first)) return 'plain';
  if (/^script$/m.test(text)) return 'room';
  if (/^\d+ (0|1|end)$/.test(first) || (first.startsWith('#') && /^\d+ [01]$/m.test(text))) return 'edges';
  return text.trim() === '' ? 'empty' : 'unknown';
}

/* Whether objects are those of an audit: beside a run they tell of its rounds. */
export const isAudit = text => kindOf(text) === 'objects' && /"type":"(summary|remark|note)"/.test(text);

/* Whether an object is what the program says of a capture as a whole. */
export const isVerdict = text => kindOf(text) === 'objects' && /"type":"verdict"/.test(text.slice(0, 2000));

/* Whether objects are those of frames and of what they mean. */
export const isOfFrames = text => kindOf(text) === 'objects' && /"type":"(frame|meaning)"/.test(text.slice(0, 2000));

/* Whether objects are those of an EDID: its fields, or the rules that it breaks. */
export const isOfBytes = text => kindOf(text) === 'objects' && /"type":"(part|finding)"/.test(text.slice(0, 2000));

export const asText = value => (value === null || value === undefined ? '' : String(value));
const asNumber = value => (typeof value === 'number' && Number.isFinite(value) ? value : null);
export const asList = value => (Array.isArray(value) ? value : []);

const emptyRoom = () => ({ devices: [], plugs: [], script: new Map(), expectations: [] });

/** An object of `run --json --room` that stands before the trace.
    @param {any} object */
function addHead(object, room) {
  const { type, device, kind, parent, port } = object;
  if (type === 'device') room.devices.push({ name: device, kind });
  if (type === 'plug') room.plugs.push([device, parent, port]);
}

/* Takes what the program says of a frame: its sentence, and the names of its opcode, of addresses and of what a deck does. */
function addMeaning(model, frame, { line, sender, receiver, operand, word }) {
  const { bytes, initiator, destination, opcode, name } = frame;
  model.sentences.set(bytes, line.trim());
  if (opcode && name) model.names.set(opcode, name);
  if (sender) model.addresses.set(initiator, sender);
  if (receiver && destination !== 'f') model.addresses.set(destination, receiver);
  if (name === 'deck-status') model.decks.set(bytes.slice(4), operand || word);
}

/* A rule that an EDID breaks, by its line: that of the objects of `edid --check --json` is that of the words beside it. */
function findingOf(line, model) {
  let found = model.findings.find(one => one.line === line);
  if (!found) model.findings.push((found = { line, timing: null, said: [] }));
  return found;
}

/* What `edid --check --explain` says of an EDID: each rule that it breaks, with what the rule asks and the values at fault. */
export function readFindings(text, model) {
  let last = null;
  for (const line of text.split('\n')) {
    if (/^(fail|warn) /.test(line)) last = findingOf(line, model);
    else if (line.startsWith('  ') && last) last.said.push(line.trim());
  }
}

const NO_PLACE = { part: null, from: 0, to: 0 };
/* The lines of `edid --meaning`, each with those below it that say what it means. */
export function readMeaning(text) {
  const lines = [];
  for (const line of text.split('\n')) {
    if (line.startsWith(' ') && lines.length > 0) lines[lines.length - 1].meanings.push(line.trim());
    else if (line !== '') lines.push({ ...NO_PLACE, text: line, word: line.split(' ')[0], number: lines.length, meanings: [] });
  }
  return lines;
}

/* The bytes of an EDID in hex. */
export function readBytes(text) {
  const bytes = text.replace(/\s/g, '').match(/../g) || [];
  return bytes.slice(0, MOST_OF_EDID).map(byte => parseInt(byte, 16));
}

/* An object of a run, of a reading, of what an audit says of the last reading, or of a device at an instant. */
function addTold(object, model, last) {
  const { type, line } = object;
  if (type === 'remark' || type === 'note') {
    const { kind, section, block, verdict, attempt, slot, least } = object;
    const said = { text: line.trim(), kind, section, block, verdict, attempt, slot, least };
    if (last.reading) last.reading[`${type}s`].push(said);
    else model.ofAll.push(said.text);
  } else if (type === 'summary') {
    last.reading = null;
    model.hasAudit = true;
  } else if (type === 'widths' && last.reading) {
    const { kind, least, greatest } = object;
    last.reading.widths.push({ kind, least, greatest });
  } else if (type === 'sender' || type === 'widths') {
    if (!last.reading) model.ofAll.push(line.trim());
  } else if (type === 'verdict') {
    model.verdict = object;
  } else if (type === 'frame') {
    last.frame = object;
  } else if (type === 'meaning') {
    if (last.frame) addMeaning(model, last.frame, object);
  } else if (type === 'horizon') {
    last.horizon = object.at;
  } else if (type === 'state' && line.startsWith('= ')) {
    if (last.horizon !== null) model.changes.push({ before: last.horizon, state: object });
  } else {
    if (type === 'reading') last.reading = object;
    model.objects.push(object);
  }
}

const VERSION = 13; // of a report
/* Objects of JSON, one a line (docs/formats.md, "Objects of JSON"), put into a model. */
export function readObjects(text, model) {
  let inReport = false; // below a test stand the rounds that it saw, up to the object `trace`
  let test = null;
  const last = { reading: null, horizon: null, frame: null };
  const unknown = new Map(); // types of a later program, by how many there are
  text.split('\n').forEach((line, index) => {
    if (line.trim() === '') return;
    let parsed = null;
    try {
      parsed = JSON.parse(line);
    } catch {
      // named below
    }
    const isTyped = parsed && typeof parsed === 'object' && typeof parsed.type === 'string';
    const object = isTyped ? cleaned(parsed) : null;
    if (object === undefined) {
      unknown.set(parsed.type, (unknown.get(parsed.type) || 0) + 1);
    } else if (!object) {
      model.faults.push(`line ${index + 1} is no object of the program: ${line.slice(0, 60)}`);
    } else if (object.type === 'version') {
      inReport = true;
      const { version } = object;
      if (version !== VERSION) model.faults.push(`a report of version ${version}; this page reads version ${VERSION}`);
    } else if (object.type === 'trace') {
      inReport = false;
    } else if (object.type === 'test') {
      test = object;
      model.tests.push(test);
    } else if (object.type === 'window' && test) {
      test.window = object;
    } else if (object.type === 'stretch') {
      model.stretches.push(object);
    } else if (object.type === 'finding') {
      findingOf(object.line, model).timing = object.timing;
    } else if (object.type === 'part') {
      model.parts.push(object);
    } else if (object.type === 'field') {
      const part = model.parts[model.parts.length - 1];
      if (part && object.at >= part.from && object.at < part.to) part.fields.push(object);
      else model.faults.push(`line ${index + 1} is a field of no part`);
    } else if (['device', 'plug', 'edid', 'pulse', 'pull', 'pin'].includes(object.type)) {
      addHead(object, (model.room ||= emptyRoom()));
    } else {
      object.line = object.line.replace(/^# /, ''); // as it stands in a report
      if (object.text) (model.room ||= emptyRoom()).script.set(object.scriptLine, `at ${object.at} ${object.text}`);
      if (inReport && test && object.type !== 'plan') test.seen.push(object);
      else addTold(object, model, last);
    }
  });
  for (const [type, count] of unknown) {
    model.faults.push(`${count} of the type ${type.slice(0, 40)}, which this page does not know`);
  }
}

export const BLOCK = 128; // bytes of a block of an EDID
const asBelow = (value, most) => (Number.isInteger(value) && value >= 0 && value < most ? value : null);
/* Which byte of an EDID an object tells of. */
function placeOf({ block, byte }) {
  const [first, within] = [asBelow(block, MOST_OF_EDID / BLOCK), asBelow(byte, BLOCK)];
  return first === null || within === null ? null : BLOCK * first + within;
}

/* An object with each field of its type; null where one lacks that has to be there, undefined where its type is not known. */
function cleaned(o) {
  const type = asText(o.type);
  const line = asText(o.line);
  switch (type) {
    case 'round':
    case 'reading':
      return cleanedRound(type, line, o);
    case 'event': {
      const at = asNumber(o.at);
      const scriptLine = asNumber(o.script_line);
      if (at === null) return null;
      return { type, line, at, scriptLine, verdict: asText(o.verdict), cause: asText(o.cause), text: asText(o.text) };
    }
    case 'port': {
      const at = asNumber(o.at);
      return at === null ? null : { type, line, at, device: asText(o.device), port: asNumber(o.port), edid: asText(o.edid) };
    }
    case 'state': {
      const [logical, physical] = [asList(o.logical_addresses), asText(o.physical_address)];
      return { type, line, device: asText(o.device), kind: asText(o.kind), logical, physical, fields: o };
    }
    case 'end':
      return { type, line, at: asNumber(o.at) };
    case 'version':
      return { type, line, version: asNumber(o.version) };
    case 'test': {
      const [text, refused] = [asText(o.expectation), asText(o.refused)];
      const [test, scriptLine] = [asNumber(o.test), asNumber(o.script_line)];
      return { type, line, test, scriptLine, holds: o.holds === true, text, refused, window: null, seen: [] };
    }
    case 'window':
      return { type, line, from: asNumber(o.from), to: asNumber(o.to), seen: asNumber(o.seen) };
    case 'stretch':
      return { type, line, from: asNumber(o.from), to: asNumber(o.to), holds: asList(o.holds) };
    case 'device':
      return { type, line, device: asText(o.device), kind: asText(o.kind) };
    case 'plug':
      return { type, line, device: asText(o.device), parent: asText(o.parent), port: asText(o.port) };
    case 'remark':
    case 'note':
      return {
        type, line, kind: asText(o[type]), section: asText(o.section), block: asNumber(o.block), verdict: asText(o.verdict),
        attempt: asNumber(o.attempt), slot: asNumber(o.slot), least: asNumber(o.least),
      };
    case 'widths':
      return { type, line, kind: asText(o.kind), least: asNumber(o.least), greatest: asNumber(o.greatest) };
    case 'frame': {
      const [initiator, destination, opcode, name] = [o.initiator, o.destination, o.opcode, o.name].map(asText);
      return { type, line, bytes: asText(o.bytes), initiator, destination, opcode, name };
    }
    case 'meaning':
      return {
        type, line, sender: asText(o.sender), receiver: asText(o.receiver), operand: asText(o.operand), word: asText(o.word),
      };
    case 'horizon':
      return { type, line, at: asNumber(o.at) };
    case 'verdict':
      return { type, line, word: asText(o.word), hint: asText(o.hint), value: asText(o.value), more: asNumber(o.more) };
    case 'finding':
      return { type, line, timing: asNumber(o.timing) };
    case 'part': {
      const [from, bytes] = [placeOf(o), /^([0-9a-f]{2})+$/.test(o.bytes) ? readBytes(o.bytes) : []];
      if (from === null || bytes.length === 0 || from % BLOCK + bytes.length > BLOCK) return null;
      const [cut, left] = [asNumber(o.cut) || 0, asNumber(o.left) || 0];
      return { type, line, from, to: from + bytes.length, bytes, name: asText(o.name), cut, left, fields: [] };
    }
    case 'field': {
      const [at, high, low, value] = [placeOf(o), asBelow(o.high, 8), asBelow(o.low, 8), asBelow(o.value, 256)];
      if (at === null || high === null || low === null || value === null || high < low) return null;
      return { type, line, at, high, low, value, name: asText(o.name), meaning: asText(o.meaning), found: asText(o.found) };
    }
    case 'summary':
    case 'sender':
    case 'edge':
    case 'refusal':
    case 'edid':
    case 'pulse':
    case 'pull':
    case 'pin':
    case 'trace':
    case 'plan':
    case 'other':
      return { type, line };
    default:
      return undefined;
  }
}

function cleanedRound(type, line, o) {
  const begin = asNumber(o.begin);
  const close = asNumber(o.close);
  const bytes = asText(o.bytes);
  if (begin === null || close === null) return null;
  return {
    type, line, begin, close,
    ending: asText(o.ending),
    frame: asText(o.frame),
    initiator: asText(o.initiator),
    destination: asText(o.destination),
    bytes: /^([0-9a-f]{2})+$/.test(bytes) ? bytes : '',
    verdict: asText(o.verdict),
    bits: asText(o.bits),
    by: asList(o.by).map(asText),
    out: asList(o.out).map(x => ({ device: asText(x && x.device), slot: asNumber(x && x.slot) })),
    remarks: [], notes: [], widths: [], isAudited: false, row: null, slots: null, slotsOf: null,
  };
}

/* A wire is its name and the instants of its changes: it is high before the first, and each changes its level. So the level at an
   instant is whether the count of changes up to it is even. */
const wire = (name, scope) => ({ name, scope, changes: [], high: true });

/* Notes a level at an instant. Of several in one microsecond the last counts. */
function note(wire, at, high) {
  if (high === wire.high) return;
  const { changes } = wire;
  if (changes.length > 0 && changes[changes.length - 1] === at) changes.pop();
  else changes.push(at);
  wire.high = high;
}

const UNITS = { __proto__: null, s: 1e6, ms: 1e3, us: 1, ns: 1e-3, ps: 1e-6, fs: 1e-9 }; // microseconds

/* The definitions of a Value Change Dump: its wires of one bit by identifier, and its unit in microseconds. */
function readDefinitions(text) {
  const words = text.split(/\s+/).filter(Boolean);
  const found = { byId: new Map(), wires: [], unit: 1 };
  const scopes = [];
  let at = 0;
  const body = () => {
    const from = ++at;
    while (at < words.length && words[at] !== '$end') at++;
    return words.slice(from, at);
  };
  for (; at < words.length; at++) {
    if (words[at] === '$timescale') {
      const scale = /^(1|10|100)(s|ms|us|ns|ps|fs)$/.exec(body().join(''));
      if (!scale) return null;
      found.unit = Number(scale[1]) * UNITS[scale[2]];
    } else if (words[at] === '$scope') {
      scopes.push(body()[1]);
    } else if (words[at] === '$upscope') {
      body();
      scopes.pop();
    } else if (words[at] === '$var') {
      const [, size, id, name] = body();
      if (size !== '1') continue;
      const one = wire(name, scopes[scopes.length - 1]);
      found.wires.push(one);
      found.byId.set(id, one);
    } else if (words[at].startsWith('$')) {
      body();
    }
  }
  return found.wires.length > 0 ? found : null;
}

/* A Value Change Dump, as `run --edges --as vcd --drives`, sigrok and GTKWave write it. The changes are read word by word, by
   hand, since a long run has some millions of them. */
export function readDump(text) {
  const start = text.indexOf('$enddefinitions');
  const found = start < 0 ? null : readDefinitions(text.slice(0, start));
  if (!found) return null;
  const { byId, wires, unit } = found;
  const short = []; // the wires whose identifier is one character, by its code
  for (const [id, one] of byId) if (id.length === 1 && id.charCodeAt(0) < 128) short[id.charCodeAt(0)] = one;
  let now = 0;
  let at = text.indexOf('$end', start + 5) + 4;
  const word = () => {
    const from = at;
    while (at < text.length && text.charCodeAt(at) > 32) at++;
    return text.slice(from, at);
  };
  const passBlanks = () => {
    while (at < text.length && text.charCodeAt(at) <= 32) at++;
  };
  for (passBlanks(); at < text.length; passBlanks()) {
    const code = text.charCodeAt(at++);
    if (code === 35) { // #
      now = Math.ceil(word() * unit - 1e-9);
    } else if ((code === 48 || code === 49) && short[text.charCodeAt(at)] && !(text.charCodeAt(at + 1) > 32)) {
      note(short[text.charCodeAt(at++)], now, code === 49);
    } else if ('01xXzZbBrRsS'.includes(String.fromCharCode(code))) {
      const value = '01xXzZ'.includes(String.fromCharCode(code)) ? String.fromCharCode(code) : word(); // `0!`, or `b0 !`
      passBlanks();
      const one = byId.get(word());
      if (one) note(one, now, value !== '0');
    } else {
      const command = word();
      if (code === 36 && !/^(dump(vars|all|on|off)|end)$/.test(command)) { // a comment is passed over up to its end
        const end = text.indexOf('$end', at);
        at = end < 0 ? text.length : end + 4;
      }
    }
  }
  return {
    line: wires[0],
    devices: wires.filter(w => w.scope === 'devices'),
    pulses: wires.find(w => w.name === 'pulses' && w.scope !== 'devices') || null,
    end: Number.isFinite(now) ? now : 0,
  };
}

/* An edge file: `T 0`, `T 1`, `T end`. It is read by hand, since a long capture has some millions of lines. */
export function readEdges(text) {
  const line = wire('CEC', '');
  let end = 0;
  for (let at = 0; at < text.length; at++) {
    let time = 0;
    const from = at;
    for (let code = text.charCodeAt(at); code >= 48 && code <= 57; code = text.charCodeAt(++at)) time = time * 10 + code - 48;
    const level = text.charCodeAt(at + 1);
    const isLevel = at > from && text.charCodeAt(at) === 32 && (level === 48 || level === 49 || level === 101);
    const next = text.indexOf('\n', at);
    at = next < 0 ? text.length : next;
    if (!isLevel) continue;
    end = time;
    if (level !== 101) note(line, end, level === 49);
  }
  return { line, devices: [], pulses: null, end };
}

/* A room's own text: its devices, its plugs, and the lines of its script by number. */
export function readRoom(text) {
  const lines = text.split('\n');
  const at = lines.indexOf('script');
  const room = emptyRoom();
  for (const line of lines.slice(0, at)) {
    const words = line.split(' ');
    if (words[0] === 'device') room.devices.push({ name: asText(words[1]), kind: asText(words[2]) });
    if (words[0] === 'plug') room.plugs.push(words.slice(1, 4));
  }
  lines.slice(at + 1).forEach((whole, index) => {
    const line = whole.replace(/^label \S+ /, '');
    room.script.set(index + 1, line);
    if (line.startsWith('expect ')) room.expectations.push(line);
  });
  return room;
}

/* The first index of a sorted list whose value is at least `least`. */
export function lowerBound(list, least, valueOf = value => value) {
  let low = 0;
  let high = list.length;
  while (low < high) {
    const middle = (low + high) >> 1;
    if (valueOf(list[middle]) < least) low = middle + 1;
    else high = middle;
  }
  return low;
}
