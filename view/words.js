// Causes and endings in words: these tables are the page's own. What a frame means, and what an address and what a deck does are
// called, the program says (`dis --meaning --json`).

import { asciiOf, deviceAt } from './model.js';
import { asText } from './texts.js';

/* What the program's sentences call an address. A page without them has its digit. */
export const addressName = ({ addresses }, digit) => addresses.get(digit) || `address ${digit}`;
/* The same on one line. */
export const addressInWords = (model, digit) => addressName(model, digit).replace('Device ', 'Device\u00a0');

export const CAUSES = {
  __proto__: null,
  'port-range': 'the parent has no such port',
  'port-taken': 'something is plugged into that port',
  'not-loose': 'the child is plugged in already, or is the television',
  'loop': 'the parent is the child, or hangs below it',
  'not-plugged': 'it is plugged in nowhere',
  'off-wire': 'the device is not joined to the television',
  'not-for-kind': 'a device of this kind has no such key',
  'no-address': 'the device has not settled yet, or the frame\'s initiator is not its address',
  'own-address': 'the frame goes to the sender\'s own address',
  'queue-full': 'sixteen frames wait already',
};

/* What is to be done about a capture that no flag reads better, by its verdict (docs/mon.md, "The verdict"). */
export const REMEDIES = {
  __proto__: null,
  empty: 'Look at the probe: CEC is pin 13. Press a key of a remote control.',
  idle: 'Look at the probe: CEC is pin 13. Press a key of a remote control.',
  'mid-frame': 'The first readings are the rest of the frame within which the capture begins.',
  'other-wire': 'Look at the wire, the probe and its ground: CEC is pin 13.',
  unit: 'Give the capture in microseconds.',
  stuck: 'Look for a short circuit, or for a device that holds the line.',
  rate: 'Sample each 250 microseconds at least, better each microsecond.',
  clock: 'Look at the clock of the capture, or of the device.',
  short: 'Capture for longer.',
  noise: 'Look at the wire and at the unit of time.',
  odd: 'The remarks of the audit stand below the readings.',
};
/* Verdicts of captures in which nothing is to be put right. */
export const FINE = ['fine', 'mid-frame'];

const ENDINGS = {
  __proto__: null,
  short: 'A fall came too early for the next slot (2050..2750 after the one before).',
  silent: 'No fall came in time for the next slot.',
  'bad-start': 'The start bit was out of time (3500..3900 low, 4300..4700 in all).',
  long: 'A sixteenth block was not the last.',
  open: 'The capture ends before this does.',
  joined: 'The capture may have begun in the middle of a frame.',
};

const VERDICTS_IN_WORDS = {
  __proto__: null,
  ack: 'Each block was acknowledged.',
  ok: 'It went to all, and nobody refused it.',
  nack: 'Nobody acknowledged a block.',
  refused: 'It went to all, and somebody refused it.',
  free: 'Nobody answered the poll: its sender takes the address.',
  taken: 'Somebody acknowledged the poll: the address is taken.',
};
/* What the verdict of a round means. */
export function verdictInWords({ o, verdict, cls, remarks }) {
  const words = VERDICTS_IN_WORDS[verdict] || VERDICTS_IN_WORDS[cls] || ENDINGS[o.ending] || verdict;
  return remarks.length > 0 ? `${words} ⚠ ${remarks.map(remark => remark.text).join('; ')}` : words;
}

/* The line of a script that expects a round as it was, in its own window (docs/formats.md, "Expectations"). */
export function expectOf({ begin, close, ending, frame, verdict, bits }) {
  return `expect from ${begin} to ${close} ${ending === 'complete' ? `${frame} ${verdict}` : `${ending} ${bits || '-'}`}`;
}

/* What a round says, in a sentence. */
export function meaningOf(round, model) {
  const { cls } = round.row;
  if (round.ending !== 'complete') {
    if (cls !== 'nack' && cls !== 'refused') return ENDINGS[round.ending] || '';
    const why = cls === 'nack' ? 'nobody acknowledged' : 'somebody refused';
    return `The sender stopped there, since ${why} the block. What it wanted to say is not on the line.`;
  }
  const sentence = sentenceOf(round, model);
  const said = model.sentences.has(round.bytes) ? sentence[0].toUpperCase() + sentence.slice(1) : sentence;
  return round.bytes.length === 2 && round.initiator === round.destination ? `${said} ${pollAnswer(round)}` : said;
}

/* The program's sentence for a frame, with who is at the physical addresses in it; the frame's text where there is none. */
function sentenceOf(round, model) {
  const sentence = model.sentences.get(round.bytes);
  if (!sentence) return round.frame;
  if (sentence.includes('"')) return `${sentence}.`;
  const place = physical => {
    const who = model.lanes.find(lane => (deviceAt(lane, round.begin) || {}).physical === physical);
    return who ? `${physical} (${who.osdName || who.name})` : physical;
  };
  return `${sentence.replace(/\b[0-9a-f](\.[0-9a-f]){3}\b/g, place)}.`;
}

const pollAnswer = ({ verdict }) =>
  (verdict === 'nack' ? 'Nobody answers: it takes it.' : 'Somebody acknowledges: it is taken.');

/* A lane at an instant, as a sentence names it. */
export function partyName(model, lane, instant) {
  const { name, kind, osdName } = model.lanes[lane];
  if (model.isCapture) return `${osdName ? `"${osdName}" ` : ''}${kind} (${name})`;
  const then = deviceAt(model.lanes[lane], instant);
  return then && then.logical ? `${name} (${then.logical})` : name;
}

/* A field of a state in words. */
export function stateWord(model, key, value) {
  if (value === null || value === undefined) return '–';
  if (key === 'deck') return (model.decks.get(value) || asText(value)).replaceAll('-', ' ');
  if (key === 'menu_language' || key === 'osd_text') return asciiOf(value);
  if (typeof value === 'boolean') return value ? 'on' : 'off';
  if (Array.isArray(value)) return value.map(one => one ?? '–').join('+');
  if (typeof value === 'object') {
    const opcode = asText(value.opcode);
    return `${model.names.get(opcode) || opcode} from ${asText(value.initiator)}`;
  }
  return asText(value);
}
