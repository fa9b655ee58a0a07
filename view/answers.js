// Which frame answers which, and after how long: the tables of messages of CEC 13, and Feature Abort (CEC 12.3).

/* By the opcode of a request that of its answer. */
const ANSWERS = {
  __proto__: null, '08': '07', '1a': '1b', 46: '47', 70: '72', 71: '7a', '7d': '7e', 83: '84', 85: '82', '8c': '87',
  '8d': '8e', '8f': '90', 91: '32', '9f': '9e',
};
const FEATURE_ABORT = '00';
const LONGEST = 5000000; // microseconds from which on nothing is an answer, as in the audit

/* Ties each request to the first frame that answers it. */
export function tieAnswers(model) {
  let waiting = [];
  for (const round of model.rounds) {
    const { row, bytes, initiator, destination, verdict } = round;
    if (round.ending !== 'complete' || bytes.length < 4 || (verdict !== 'ack' && verdict !== 'ok')) continue;
    const opcode = bytes.slice(2, 4);
    waiting = waiting.filter(one => round.begin - one.close <= LONGEST);
    const isAnswer = one => {
      const isTo = destination === one.initiator || destination === 'f';
      const isFrom = initiator === one.destination || one.destination === 'f';
      const asked = one.bytes.slice(2, 4);
      return isTo && isFrom && (opcode === ANSWERS[asked] || (opcode === FEATURE_ABORT && bytes.slice(4, 6) === asked));
    };
    const request = waiting.find(isAnswer);
    if (request) {
      row.answers = request.row;
      request.row.answer = row;
      waiting = waiting.filter(one => one !== request);
    }
    if (ANSWERS[opcode] || (destination !== 'f' && opcode !== FEATURE_ABORT)) waiting.push(round);
  }
}
/* How long after its request an answer began. */
export const delayOf = answer => answer.at - answer.answers.until;
