// What the office refuses, in words.

/**
 * @typedef {import('./asking.js').Refusal} Refusal
 * @typedef {import('./names.js').Names} Names
 */

const NO_CONNECTION = 'There is no connection to the office. Please try again in a minute.';

const RULES = {
  Duration: (e) => `Exam ${e} is longer than its period.`,
  Clash: (e, o) => `Exams ${e} and ${o} are in the same period, and a candidate takes both.`,
  Capacity: (e) => `Exam ${e} is in a room and period with more candidates than seats.`,
  After: (e, o) => `Exam ${e} must come after exam ${o}, and does not.`,
  Coincidence: (e, o) => `Exams ${e} and ${o} must be in the same period, and are not.`,
  Exclusion: (e, o) => `Exams ${e} and ${o} must not be in the same period, and are.`,
  RoomExclusive: (e, o) => `Exam ${e} must have its room to itself, and exam ${o} is there too.`,
};

const FORBIDDEN = {
  P1: 'This is for the examination office. Candidates see only their own examinations.',
  P2: 'Only the examination office may do this.',
  P3: 'Your department does not own this exam.',
  P4: 'This page is for candidates.',
  department: 'This page is for departments.',
  origin: 'Another site sent this request, so it was refused.',
};

// The faults that a line of a file can have, by number.
const FAULTS = {
  1: 'the file is too long',
  2: 'the header of the next section is expected',
  3: 'there are more or fewer lines than there should be',
  4: 'a whole number is expected',
  5: 'a date such as 15:04:2005 is expected',
  6: 'a time such as 09:30:00 is expected',
  7: 'this word is not allowed here (in a batch, the action must be add or drop)',
  8: 'a number is too large, or names something that does not exist',
  9: 'this weighting is there already',
  10: 'there is something after the last field',
  11: 'the first line must be student,exam,action',
  12: 'an exam has no place',
  13: 'the office is out of memory',
};

const REFUSALS = {
  caller: 'Your account is not linked to a candidate, a department or the office. Please ask the registry.',
  request: 'The office could not read this request.',
  path: 'The office has no such page.',
  method: 'The office does not do this.',
  body: 'The office could not read this request.',
  transfer: 'The office could not read this request.',
  draft: 'This draft no longer exists.',
  exam: 'You are not enrolled in this exam.',
  number: 'There is no such exam, period or room.',
  publication: 'No timetable is published yet.',
  loaded: 'A session is loaded already.',
  'not-loaded': 'No session is loaded yet.',
  'draft-taken': 'This draft exists already.',
  'already-placed': 'This exam is placed already.',
  'not-placed': 'This exam is not placed.',
  'same-exam': 'These are the same exam.',
  'batch-differs': 'A different batch was already sent under this number. Please choose a new number.',
  'too-many': 'There would be too many enrolments, or too many batches.',
  length: 'This is too long for the office.',
  often: 'There were too many requests in a short time. Please wait a moment, then try again.',
  'ledger-differs': 'The office has numbers or batches that the ledger on the server does not know. '
    + 'Please reload this page, and tell the operator what it says at the top.',
  ledger: 'This session has no ledger on the server.',
  'plan-differs': 'It would do something else by now. Check it again.',
  'files-differ': 'These files aren\'t those that were checked. Check them again.',
  names: 'An ID or a name can\'t be used: it is empty, or has a mark that nobody sees.',
  unreadable: 'The server cannot read the names of this session. Please tell the person who runs it.',
  unavailable: 'The office cannot answer at the moment. Please try again in a minute.',
};

/**
 * What a breach of a rule means.
 * @param {string} rule
 * @param {number} exam
 * @param {number} other
 * @param {Names} names
 */
export function ruleText(rule, exam, other, names) {
  const words = RULES[rule] ?? ((e, o) => `${rule}: exams ${e} and ${o}.`);
  return words(names.code(exam), names.code(other));
}

/**
 * @param {number} status
 * @param {import('./asking.js').Answer} answer
 * @param {Names} names
 */
function answerText(status, answer, names) {
  const { error, rule = '', exam = 0, other = 0 } = answer;
  if (!status) return NO_CONNECTION;
  if (error === 'forbidden') return FORBIDDEN[rule] ?? 'You may not do this.';
  if (error === 'broken') return ruleText(rule, exam, other, names);
  if (error === 'unplaced') return `Exam ${names.code(exam)} is not placed yet.`;
  if (error === 'file') {
    return `Line ${answer.line}: ${FAULTS[answer.fault ?? 0] ?? `fault ${answer.fault}`}.`;
  }
  if (status === 401) return 'You are no longer signed in. Please reload this page.';
  return REFUSALS[error ?? ''] ?? `The office refused this (${status}).`;
}

/**
 * A refusal in words.
 * @param {Refusal} refusal
 * @param {Names} names
 */
export const refusalText = ({ status, answer, words, before, after }, names) => (
  [before, words || answerText(status, answer, names), after].filter(Boolean).join(' '));
