// Slots of a round on the line: the start bit, then ten a block (eight bits, EOM, ACK), by the line's falls (CEC 5.2).

import { lowerBound } from './texts.js';

/* The widths that CEC 5.2 allows, in microseconds. */
export const WINDOWS = {
  startLow: [3500, 3900],
  startTotal: [4300, 4700],
  one: [400, 800],
  zero: [1300, 1700],
  total: [2050, 2750],
};
/* Whether the audit has a slot's low stretch out of its window. */
export const isOut = ({ remarks }, slot) =>
  remarks.some(one => (slot === 0 ? one.kind === 'start-low' : one.kind === 'bit-low' && one.slot === slot));

/* How long after its fall a bit is read. */
const SAMPLE = 1050;
export const SLOT = 2400;
const MOST_SLOTS = 1 + 16 * 10; // of a frame of sixteen blocks
const PARTS = ['bit 1', 'bit 2', 'bit 3', 'bit 4', 'bit 5', 'bit 6', 'bit 7', 'bit 8', 'EOM', 'ACK'];
export const blockOf = slot => Math.ceil(slot / 10);
export const partOf = slot => PARTS[(slot - 1) % 10];
export const lowWindow = (slot, bit) => (slot === 0 ? WINDOWS.startLow : bit ? WINDOWS.one : WINDOWS.zero);

/* The slots of a round, or null where the wave is not the line that it was read of: where no fall is at its begin, or where the
   bits are not those of its bytes. */
export function slotsOf(model, round) {
  if (!model.wave || round.ending === 'joined') return null;
  if (round.slotsOf !== model.wave) {
    round.slotsOf = model.wave;
    round.slots = readSlots(model.wave, round);
  }
  return round.slots;
}

function readSlots(wave, round) {
  const { changes } = wave.line;
  let i = lowerBound(changes, round.begin);
  if (changes[i] !== round.begin || i % 2 === 1) return null;
  const slots = [];
  const end = round.close + (round.ending === 'bad-start' ? 1 : 0);
  for (; i < changes.length && changes[i] < end; i += 2) {
    if (slots.length > MOST_SLOTS) return null;
    const low = (changes[i + 1] ?? wave.end) - changes[i];
    const total = (changes[i + 2] ?? Infinity) - changes[i];
    // None is read where the line falls again before.
    slots.push({ at: changes[i], low, total, bit: total < SAMPLE ? null : low > SAMPLE ? 0 : 1 });
  }
  if (!round.bytes) return slots;
  const bits = slots.slice(1).map(slot => slot.bit);
  const bytes = round.bytes.match(/../g);
  const isRead = (byte, block) => parseInt(bits.slice(10 * block, 10 * block + 8).join(''), 2) === parseInt(byte, 16);
  return bits.length === 10 * bytes.length && bytes.every(isRead) ? slots : null;
}

/* Who pulls the line at an instant, of the devices and the pulses; null where the wave has no wires of devices. */
export function pullersAt({ wave }, instant) {
  if (!wave || wave.devices.length === 0) return null;
  const isLow = wire => lowerBound(wire.changes, instant + 1) % 2 === 1;
  const pulling = wave.devices.filter(isLow).map(wire => wire.name);
  return wave.pulses && isLow(wave.pulses) ? [...pulling, 'a pulse'] : pulling;
}

/* For each block of a complete round: who pulls where its ACK is read. */
export function acknowledgersOf(model, round) {
  const slots = slotsOf(model, round);
  if (!slots || model.wave.devices.length === 0 || round.ending !== 'complete') return null;
  const blocks = [];
  for (let slot = 10; slot < slots.length; slot += 10) blocks.push(pullersAt(model, slots[slot].at + SAMPLE));
  return blocks;
}

/* The free time before a round: how long the line was high. */
export function freeBefore({ wave }, round) {
  const i = lowerBound(wave.line.changes, round.begin);
  return i > 0 ? round.begin - wave.line.changes[i - 1] : null;
}
