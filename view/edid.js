// An EDID byte by byte: of which part, of which fields and of which line of its text each byte is. Parts and fields are the
// program's (`edid --json`). A line of the text that is no data block's has its bytes by the places of E-EDID 3 and CTA-861 7.5.

import { BLOCK, readMeaning } from './texts.js';

const TIMING = 18; // bytes
const NATIVE = 128; // is added to a video code
const [STANDARD, DESCRIPTOR] = [11, 19]; // the first line of eight, and of four
/* Where each line of the base block stands in it, in the order of the text: its first byte, and how many. */
const BASE = [
  [18, 2], [8, 2], [10, 2], [12, 4], [16, 2], [20, 1], [21, 2], [23, 1], [24, 1], [25, 10], [35, 3],
  ...Array.from({ length: 8 }, (_, i) => [38 + 2 * i, 2]), ...Array.from({ length: 4 }, (_, i) => [54 + TIMING * i, TIMING]),
];

/* Whether a part is a data block: it begins with its tag. */
const isBlock = ({ fields: [first] }) => Boolean(first) && first.name === 'Tag Code';

/* Gives each line of the text its bytes. Those of an extension follow one another: flags, data blocks, timings, what is left. */
function placeLines(lines, { parts, bytes }) {
  let block = 0;
  let at = 0;
  let blocks = [];
  const put = (line, from, to) => {
    [line.from, line.to] = [from, Math.max(from, to)];
    at = line.to;
  };
  lines.forEach((line, i) => {
    const first = BLOCK * block;
    if (i < BASE.length) {
      put(line, BASE[i][0], BASE[i][0] + BASE[i][1]);
    } else if (/^(ext|cta|cta-none)$/.test(line.word)) {
      block += 1;
      put(line, first + BLOCK, line.word === 'ext' ? first + 2 * BLOCK - 1 : first + BLOCK + 4);
      blocks = parts.filter(part => isBlock(part) && part.from >= at && part.to < first + 2 * BLOCK);
    } else if (line.word === 'timing' || line.word === 'tail') {
      if (lines[i - 1].word !== 'timing') at = first + Math.max(bytes[first + 2] || 0, 4);
      put(line, at, line.word === 'tail' ? first + BLOCK - 1 : at + TIMING);
    } else {
      const part = (line.part = blocks.shift() || null);
      put(line, part ? part.from : at, part ? part.to : at);
    }
  });
}

/* What a byte is that stands in no part and no line. */
function ownName(at) {
  if (at < 8) return 'header of an EDID';
  if (at % BLOCK === BLOCK - 1) return 'checksum of the block';
  return at === BLOCK - 2 ? 'number of extensions' : 'no line of the text';
}

/* Stretches that tile the bytes: the data blocks, then the lines where none stands, with the fields of their bytes, then the
   other parts, then what is left. A line may have no bytes. */
function stretchesOf({ lines, parts, bytes }) {
  const count = bytes.length;
  const owners = new Array(count).fill(null);
  const stretches = [];
  const take = (from, to, told) => {
    const own = bytes.slice(from, to);
    const empty = { index: 0, name: '', part: null, lines: [], fields: [], findings: [], find: null };
    const stretch = { from, to, bytes: own, ...empty, ...told };
    let isThere = false; // not a stretch of bytes that others have
    for (let at = from; at < Math.min(to, count); at++) {
      if (owners[at]) continue;
      owners[at] = stretch;
      isThere = true;
    }
    if (isThere || from === to) stretches.push(stretch);
  };
  const all = parts.flatMap(part => part.fields);
  const fieldsOf = ({ from, to }) => all.filter(({ at }) => at >= from && at < to);
  const takePart = part => take(part.from, part.to, { name: part.name, part, fields: part.fields });
  parts.filter(isBlock).forEach(takePart);
  for (const line of lines) {
    const owner = owners.slice(line.from, line.to).find(one => one && one.part);
    if (owner) owner.lines.push(line);
    else take(line.from, line.to, { lines: [line], fields: fieldsOf(line) });
  }
  parts.filter(part => !isBlock(part)).forEach(takePart);
  for (let at = 0; at < count; at++) {
    if (owners[at]) continue;
    let to = at + 1;
    while (to < count && !owners[to] && ownName(to) === ownName(at)) to++;
    take(at, to, { name: ownName(at) });
  }
  stretches.sort((a, b) => a.from - b.from);
  stretches.forEach((stretch, index) => {
    stretch.index = index;
  });
  return { owners, stretches };
}

export const hexOf = bytes => bytes.map(byte => (byte === null ? '--' : byte.toString(16).padStart(2, '0'))).join('');

/* A data block as a value at fault: its kind, its payload, and perhaps the byte of that. */
const DATA_BLOCK = /^(?:audio|video|vendor|speakers|extended|tag \d) ([0-9a-f]+|-)(?:, byte (\d+)|,|$)/;
/** The lines that the words of a value at fault name (`here: `).
    @type {[RegExp, (lines: any[], n: number) => any[]][]} */
const NAMED = [
  [/^standard timing (\d+)/, (lines, n) => [lines[STANDARD + n - 1]]],
  [/^descriptor (\d+)/, (lines, n) => [lines[DESCRIPTOR + n - 1]]],
  [/^extension (\d+)/, (lines, n) => [lines.filter(line => /^(ext|cta|cta-none)$/.test(line.word))[n - 1]]],
  [/^(?:week|year) /, lines => lines.filter(line => line.word === 'made')],
  [/^serial number /, lines => lines.filter(line => line.word === 'serial')],
  [/^flags /, lines => lines.filter(line => line.word === 'cta')],
  [/^address /, lines => lines.filter(line => line.word === 'hdmi').slice(0, 1)],
];

/* Which bytes a finding is of: those of its timing, or those of the value at fault that the program names. */
function bytesOf(finding, edid) {
  const { lines } = edid;
  const parts = edid.parts.filter(isBlock);
  const all = ({ from, to }) => Array.from({ length: to - from }, (_, i) => from + i);
  const some = list => list.filter(Boolean).flatMap(all);
  if (finding.timing !== null) return some([lines.filter(line => line.word === 'timing')[finding.timing - 1]]);
  const fields = parts.flatMap(part => part.fields);
  const here = (finding.said.find(words => words.startsWith('here: ')) || '').slice(6);
  const [, digits, byte] = DATA_BLOCK.exec(here) || [];
  const part = digits && parts.find(one => hexOf(one.bytes.slice(1)) === digits.replace('-', ''));
  if (part && byte) return [part.from + 1 + Number(byte)];
  if (part) {
    const [, kind] = /(reserved|length)$/.exec(finding.line) || [];
    const isFound = field => field.found !== '' && field.found === { reserved: 'reserved', length: 'left' }[kind];
    const found = part.fields.filter(isFound).map(({ at }) => at);
    return found.length > 0 ? found : all(part);
  }
  const same = lines.find(line => line.text === here);
  if (same) return all(same);
  const placed = /^data block (\d+) of extension (\d+)$/.exec(here);
  if (placed) return some([parts.filter(one => Math.floor(one.from / BLOCK) === Number(placed[2]))[Number(placed[1]) - 1]]);
  const code = /^video code (\d+)(?:,|$)/.exec(here);
  const codeOf = ({ value, meaning }) => (meaning === 'native' ? value - NATIVE : value);
  const isCode = field => field.name === 'SVD' && codeOf(field) === Number(code[1]);
  if (code) return fields.filter(isCode).map(({ at }) => at);
  for (const [words, lead] of NAMED) {
    const found = words.exec(here);
    if (found) return some(lead(lines, Number(found[1])));
  }
  return [];
}

/* Whether a line has other bytes than the data block at its place: it is of another EDID. */
function isOther({ text, part }) {
  const [, payload] = /^[a-z]+\d? ([0-9a-f]+)$/.exec(text) || [];
  return Boolean(part && payload) && hexOf(part.bytes.slice(1)) !== payload;
}

/* The EDID of a model, or null where it has none: of several texts the first. */
export function edidOf(model) {
  const { bytes, parts, meanings, findings } = model;
  if (bytes.length === 0 && parts.length === 0) return null;
  const known = [...bytes];
  for (const part of parts) part.bytes.forEach((byte, i) => (known[part.from + i] ??= byte));
  const count = Math.ceil(known.length / BLOCK) * BLOCK;
  const all = Array.from({ length: count }, (_, at) => known[at] ?? null);
  const edid = { bytes: all, lines: [], parts, owners: [], stretches: [] };
  const lines = meanings.length > 0 ? readMeaning(meanings[0].text) : [];
  placeLines(lines, edid);
  if (lines.some(isOther)) model.faults.push(`${meanings[0].name}: the lines of another EDID than the bytes`);
  else edid.lines = lines;
  ({ owners: edid.owners, stretches: edid.stretches } = stretchesOf(edid));
  for (const finding of findings) {
    finding.bytes = bytesOf(finding, edid).filter(at => at < count);
    for (const at of finding.bytes) {
      const { findings: told } = edid.owners[at];
      if (!told.includes(finding)) told.push(finding);
    }
  }
  return edid;
}

/* The fields of a byte, from its highest bit on. */
export const fieldsAt = (edid, at) => edid.owners[at].fields.filter(field => field.at === at);

/* What a stretch is called: the lines of the text that are its, or its own name. */
export const titleOf = ({ lines, name }) => (lines.length > 0 ? lines.map(line => line.text).join('; ') : name);
