// What a search finds: words, and `from:`, `to:`, `op:` and `t:`, each also after `not`.

import { seconds } from './elements.js';

/* What the words of a search are looked for in: the row's line, its time as it is displayed, and what the chart says. */
function wordsIn(row) {
  if (row.find === undefined) {
    const { line = '', bytes = '' } = row.o || {};
    row.find = [line.slice(0, 300), seconds(row.at), row.text, row.cls, bytes].join(' ').toLowerCase();
  }
  return row.find;
}

const AT_ONCE = 4000; // rows
/* Makes the words of all rows ready while nothing else is to be done, so that the first search is as fast as the next ones. */
export function makeReady(model, from = 0) {
  const to = Math.min(from + AT_ONCE, model.rows.length);
  for (let i = from; i < to; i++) wordsIn(model.rows[i]);
  if (to < model.rows.length) setTimeout(() => makeReady(model, to), 10);
}

/* Whether one of some lanes is meant by a name: its own, that on the screen, or an address. */
const isOneOf = (model, lanes, name) => lanes.some(lane => {
  const { name: own, osdName } = model.lanes[lane];
  return own.toLowerCase() === name || osdName.toLowerCase() === name;
});
const isFrom = (model, row, name) =>
  row.type === 'round' && (row.o.initiator === name || isOneOf(model, row.from, name));
function isTo(model, row, name) {
  if (row.type !== 'round' || row.cls === 'poll') return false;
  if (row.destination === 'f') return name === 'all' || name === 'f';
  return row.destination === name || isOneOf(model, row.to, name);
}
function isOpcode(row, name) {
  const { bytes = '', frame = '' } = row.o || {};
  return bytes.length > 2 && (bytes.slice(2, 4) === name || frame.split(' ')[1] === name);
}
/* Whether a row meets a span of seconds, `3.1..3.2`, `3.1..`, `..3.2`, or begins with a time, `3.1`. */
function timeTest(span) {
  const [from, to] = span.split('..');
  if (to === undefined) return row => seconds(row.at).startsWith(span);
  const least = from === '' ? -Infinity : Number(from) * 1e6;
  const most = to === '' ? Infinity : Number(to) * 1e6;
  return row => (row.until ?? row.at) >= least && row.at <= most;
}

/* The test of one word of a search. */
function testOf(model, word) {
  const [key, value] = [word.slice(0, word.indexOf(':')), word.slice(word.indexOf(':') + 1)];
  if (value !== '' && key === 'from') return row => isFrom(model, row, value);
  if (value !== '' && key === 'to') return row => isTo(model, row, value);
  if (value !== '' && key === 'op') return row => isOpcode(row, value);
  if (value !== '' && key === 't') return timeTest(value);
  return row => wordsIn(row).includes(word);
}

/* What rows a search finds: those that meet all of its words. None where it has no word. */
export function finder(model, text) {
  const tests = [];
  let isNot = false;
  for (const word of text.toLowerCase().split(/\s+/).filter(Boolean)) {
    if (word === 'not') {
      isNot = true;
      continue;
    }
    const test = testOf(model, word);
    tests.push(isNot ? row => !test(row) : test);
    isNot = false;
  }
  if (tests.length === 0) return null;
  return row => row.type !== 'gap' && row.type !== 'end' && tests.every(test => test(row));
}
