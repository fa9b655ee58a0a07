// A run beside another one: the rows of both in order, aligned by what they say, without their times. And an EDID beside another
// one, by its stretches.

import { spanOf } from './bytes.js';
import { hexOf, titleOf } from './edid.js';
import { counted, html, link, seconds, table } from './elements.js';

const MOST = 1500; // rows after the first difference that are aligned
const ALIKE = 2; // rows that are shown before and after a difference

const isCompared = row => row.type === 'round' || row.type === 'event';
const saidOf = row => row.o.line.replace(/^\d+ (\d+ )?/, '');

/* A model beside another one: of EDIDs their stretches, of runs their rows. */
export function besideOf(model, other) {
  if (model.edid && other.edid) return { pairs: edidsAligned(model.edid, other.edid) };
  return aligned(model.rows.filter(isCompared), other.rows.filter(isCompared));
}
/* Pairs of rows, each of one run or of both: the longest common order of what they say. */
function aligned(a, b) {
  const pairs = [];
  let same = 0;
  while (same < a.length && same < b.length && saidOf(a[same]) === saidOf(b[same])) pairs.push([a[same], b[same++]]);
  const [left, right] = [a.slice(same, same + MOST), b.slice(same, same + MOST)];
  const [wordsLeft, wordsRight] = [left.map(saidOf), right.map(saidOf)];
  const wide = right.length + 1;
  const common = new Uint16Array((left.length + 1) * wide); // of what is left from each place on
  for (let i = left.length - 1; i >= 0; i--) {
    for (let j = right.length - 1; j >= 0; j--) {
      const at = i * wide + j;
      common[at] = wordsLeft[i] === wordsRight[j] ? common[at + wide + 1] + 1 : Math.max(common[at + wide], common[at + 1]);
    }
  }
  for (let i = 0, j = 0; i < left.length || j < right.length; ) {
    const at = i * wide + j;
    if (i < left.length && j < right.length && wordsLeft[i] === wordsRight[j]) pairs.push([left[i++], right[j++]]);
    else if (j === right.length || (i < left.length && common[at + wide] >= common[at + 1])) pairs.push([left[i++], null]);
    else pairs.push([null, right[j++]]);
  }
  return { pairs, same, isWhole: a.length - same <= MOST && b.length - same <= MOST };
}

const stretchSays = stretch => `${titleOf(stretch)} ${hexOf(stretch.bytes)}`;
const kindOfStretch = ({ lines, name, part }) => (part || lines.length === 0 ? name : lines[0].word);

/* Pairs of stretches, each of one EDID or of both: those that say the same, wherever they stand, then those of a kind. */
function edidsAligned(one, other) {
  const rest = [...other.stretches];
  const take = isWanted => {
    const i = rest.findIndex(isWanted);
    return i < 0 ? null : rest.splice(i, 1)[0];
  };
  const pairs = one.stretches.map(stretch => [stretch, take(each => stretchSays(each) === stretchSays(stretch))]);
  for (const pair of pairs) pair[1] ||= take(each => kindOfStretch(each) === kindOfStretch(pair[0]));
  return [...pairs, ...rest.map(stretch => [null, stretch])];
}

/* The bytes that one of two EDIDs has otherwise than the other: of pairs of their stretches the first of each, or the second. */
export function differing(pairs, which) {
  const bytes = new Set();
  for (const pair of pairs) {
    const [one, other] = [pair[which], pair[1 - which]];
    const isLong = other && one && other.bytes.length !== one.bytes.length;
    const isSame = i => other && !isLong && other.bytes[i] === one.bytes[i];
    if (one) one.bytes.forEach((_, i) => !isSame(i) && bytes.add(one.from + i));
  }
  return bytes;
}

/* Two EDIDs beside each other: the bytes of the other one, and the stretches that differ. */
function drawEdidsBeside(app, model) {
  const { pairs } = app.besideOf(model);
  const meant = line => line.meanings.map(meaning => html('div', { class: 'meaning' }, meaning));
  const said = stretch => (stretch ? [html('code', {}, titleOf(stretch)), stretch.lines.map(meant)] : '');
  const place = stretch => (stretch && stretch.to > stretch.from
    ? link(spanOf(stretch), () => app.map.select(stretch.from, { keepsPanel: true })) : '');
  const differs = pairs.filter(([one, other]) => !one || !other || stretchSays(one) !== stretchSays(other));
  const differ = `${counted(differs.length, 'stretch', 'stretches')} differ. In the maps these bytes are underlined.`;
  const rows = differs.map(([one, other]) => [place(one), said(one), other ? spanOf(other) : '', said(other)]);
  return [
    html('h3', {}, app.other.title), app.mapBeside.root,
    html('p', {}, differs.length === 0 ? 'Both say the same.' : differ),
    html('div', { class: 'differences' }, table(rows, ['', model.title, '', app.other.title])),
  ];
}

export function drawBeside(app, model) {
  if (model.edid && app.other.edid) return drawEdidsBeside(app, model);
  const { pairs, same, isWhole } = app.besideOf(model);
  const differs = pairs.map(([one, other]) => !one || !other);
  const first = differs.indexOf(true);
  const isNear = i => differs.slice(Math.max(i - ALIKE, 0), i + ALIKE + 1).includes(true);
  const time = row => (row ? html('span', { class: 'mono' }, seconds(row.at)) : '');
  const lines = [];
  let alike = 0;
  const fold = () => {
    if (alike > 0) lines.push(['', '', '', html('span', { class: 'dim' }, `${counted(alike, 'row')} alike`), '']);
    alike = 0;
  };
  pairs.forEach(([one, other], i) => {
    if (!isNear(i)) {
      alike += 1;
      return;
    }
    fold();
    const mark = !one ? '+' : !other ? '−' : '';
    const words = saidOf(one || other);
    const later = one && other ? `${other.at - one.at >= 0 ? '+' : ''}${other.at - one.at} µs` : '';
    lines.push([mark, time(one), time(other), one ? link(words, () => app.select(one, { keepsPanel: true })) : words, later]);
  });
  fold();
  const names = `− is of ${model.title} alone, + of ${app.other.title} alone.`;
  const differ = `The same for ${counted(same, 'row')}; then they differ. ${names}`;
  return [
    html('p', {}, first < 0 ? 'Both say the same, in the same order.' : differ),
    !isWhole && html('p', { class: 'dim' }, `Only ${MOST} rows after the first difference are aligned.`),
    html('div', { class: 'wide' }, table(lines, ['', model.title, app.other.title, 'what', 'later'])),
  ];
}
