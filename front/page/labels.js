// Names for the numbers of a session, from files that are made of its ledger, if they match what the
// office says.
import { byId, element } from './elements.js';
import { Names } from './names.js';
import { numeral } from './numbers.js';
import { office } from './state.js';

// An office that lacks more of the enrolments that the ledger expects has another session: this share,
// or this number in a small session.
const MOST_LACKING = { share: 0.05, pairs: 10 };
// Smaller exams can have wholly other candidates after late changes.
const LEAST_COMPARED = 5;
// Browsers have digests only for pages that came encrypted or from the same machine.
const hasDigests = () => Boolean(globalThis.crypto?.subtle);

/**
 * Whether a file that was made of a ledger has the digest that its last line says.
 * @param {string} text
 * @returns {Promise<boolean|null>} null if it was made of none, or if this browser has no digests
 */
export async function isSealed(text) {
  if (!/^"ledger": "/m.test(text)) return null;
  const [, wanted] = /^"digest": "([0-9a-f]{64})"\}\n$/m.exec(text) ?? [];
  if (!wanted) return false;
  if (!hasDigests()) return null;
  const lines = new TextEncoder().encode(text.slice(0, text.lastIndexOf('"digest": "')));
  const bytes = new Uint8Array(await crypto.subtle.digest('SHA-256', lines));
  return [...bytes].map((byte) => byte.toString(16).padStart(2, '0')).join('') === wanted;
}

// Files of the session's ledger that the server can't read, by their paths here.
const unreadable = new Map();

/**
 * Reads a file of names: its content, and whether its lines have their digest. Null if there is none,
 * or if it can't be read.
 */
export async function readSealed(path) {
  try {
    const reply = await fetch(path, { cache: 'no-cache' });
    unreadable.delete(path);
    if (reply.status === 503) noteUnreadable(path, await reply.json());
    if (!reply.ok) return null;
    const text = await reply.text();
    const content = JSON.parse(text);
    return content && { ...content, isSealed: await isSealed(text) };
  } catch {
    return null;
  }
}

function noteUnreadable(path, { error, file }) {
  if (error === 'unreadable') unreadable.set(path, file);
}

/** Returns the labels, or null if there are none. */
export const readLabels = () => readSealed('/labels/labels.json');

/** Returns the file of students, which only the office may read, or null if there is none. */
export const readStudents = () => readSealed('/labels/students.json');

/**
 * Returns the reader's own number, ID and name; null if there is no file of them, or another one than
 * the labels were made with.
 */
export async function readOwnName(candidate, labels) {
  const own = await readSealed('/labels/name.json');
  return own?.number === candidate && own.isSealed !== false && own.ledger === labels?.ledger ? own : null;
}

const isSame = (one, other) => JSON.stringify(one) === JSON.stringify(other);

/** The enrolments that students should have, and how many of them the office has. */
function sharedPairs(students, candidates) {
  const taking = candidates.map((numbers) => new Set(numbers));
  const pairs = students.flatMap(({ number, exams }) => exams.map((exam) => [number, exam]));
  return [pairs.length, pairs.filter(([number, exam]) => taking[exam]?.has(number)).length];
}

/** Exams whose candidates in the office are rather those of another exam of the ledger. */
function exchangedExams(students, candidates) {
  const wanted = candidates.map(() => new Set());
  for (const { number, exams } of students) for (const exam of exams) wanted[exam]?.add(number);
  const shared = (exam, other) => candidates[exam].filter((number) => wanted[other].has(number)).length;
  const strange = [...wanted.keys()].filter((exam) => (
    wanted[exam].size >= LEAST_COMPARED && 2 * shared(exam, exam) < wanted[exam].size));
  return strange.filter((exam) => strange.some((other) => {
    const all = wanted[other].size + candidates[exam].length - shared(exam, other);
    return other !== exam && 2 * shared(exam, other) > all;
  }));
}

/** What speaks against the names of the office's files, in words; nothing if they are tied to it. */
export function faultsOfNames(labels, file, session) {
  for (const [name, one] of Object.entries({ 'labels.json': labels, 'students.json': file })) {
    if (one?.isSealed === false) return [`${name} was changed by hand`];
  }
  if (!file) return [];
  if (file.ledger !== labels.ledger) {
    return ['labels.json and students.json were not made together'];
  }
  if (!labels.ledger) return [];
  if (!isSame(file.session, session.frame)) {
    return ['the exams, periods, rooms or rules of these names are those of another session'];
  }
  const [all, kept] = sharedPairs(file.students, session.candidates);
  if (all - kept > Math.max(MOST_LACKING.pairs, MOST_LACKING.share * all)) {
    return [`only ${numeral(kept)} of ${numeral(all)} enrolments of these names are in the office, so `
      + 'they are of another session'];
  }
  const exchanged = exchangedExams(file.students, session.candidates);
  return exchanged.length ? [`the office has other candidates in ${
    exchanged.map((exam) => labels.exams[exam].code).join(', ')} than these names say`] : [];
}

/** What the registry should know of names that are shown, or an empty text. */
function cautionOf(labels, file) {
  if (!labels.ledger) {
    return 'These names have no ledger, so nothing ties them to this session. '
      + 'tools/session_from_csv --take-over makes one.';
  }
  if (!file) return 'students.json is missing, so nothing ties these names to this session.';
  return labels.isSealed === null ? 'This browser can\'t see whether files of names were changed by '
    + 'hand, because this page isn\'t encrypted.' : '';
}

/**
 * Shows the registry's names, if they are tied to the session that the office has; else numbers, and
 * why. Returns the names, which have the students too.
 */
export async function applyOfficeNames(labels, session) {
  let file = labels && await readStudents();
  // Between the two a tool may have switched to other files.
  if (labels && file && labels.ledger !== file.ledger) {
    [labels, file] = [await readLabels(), await readStudents()];
  }
  const [fault] = labels ? faultsOfNames(labels, file, session) : [];
  if (fault) {
    showNote(`This page shows numbers, because ${fault}. Ask the person who installed these files.`);
    return applyNames(new Names());
  }
  const names = applyLabels(labels, labels ? differences(labels, session) : [],
    'Ask the person who installed labels.json.');
  if (!names.labels) return names;
  showNote(cautionOf(labels, file));
  names.students = file?.students ?? [];
  names.here = file?.here ?? [];
  return names;
}

/** Which labels differ from a session: its exams, rooms or periods. */
export function differences(labels, session) {
  const pairs = {
    exams: [labels.exams.map(({ minutes }) => minutes), session.minutes],
    rooms: [labels.rooms.map(({ capacity }) => capacity), session.capacities],
    periods: [labels.periods.map(({ date, start }) => [date, start]),
      session.periods.map(({ date, start }) => [date, start])],
  };
  return Object.keys(pairs).filter((name) => !isSame(...pairs[name]));
}

/** Which labels differ from a candidate's exams. */
export function differencesForCandidate(labels, exams) {
  const dated = exams.filter(({ date }) => date);
  const wrong = {
    exams: exams.some(({ exam }) => !labels.exams[exam]),
    rooms: dated.some(({ room }) => !labels.rooms[room]),
    periods: dated.some(({ period, date, start }) => (
      labels.periods[period]?.date !== date || labels.periods[period].start !== start)),
  };
  return Object.keys(wrong).filter((name) => wrong[name]);
}

/** Which labels differ from a draft, of which a department sees only the places. */
export function differencesForDepartment(labels, draft) {
  const placed = draft.places.filter(({ period }) => period !== null);
  const wrong = {
    exams: labels.exams.length !== draft.places.length,
    rooms: placed.some(({ room }) => !labels.rooms[room]),
    periods: placed.some(({ period }) => !labels.periods[period]),
  };
  return Object.keys(wrong).filter((name) => wrong[name]);
}

function showNote(words) {
  const files = [...unreadable.values()].join(' and ');
  const missing = files && `The server can't read ${files}, so this page shows numbers. `
    + 'Ask the person who runs it.';
  byId('labels-note').textContent = missing || words;
  byId('labels-note').hidden = !missing && !words;
}

/** The page uses these names from now on, and shows their texts; returns them. */
function applyNames(names) {
  const { labels } = names;
  office.names = names;
  byId('session-title').textContent = labels
    ? [labels.university, labels.title].filter(Boolean).join(' · ') : '';
  return names;
}

/**
 * Shows the labels' texts, or what speaks against them and what to do; returns the names for the page.
 * @param {any} labels
 * @param {string[]} different
 * @param {string} advice
 */
export function applyLabels(labels, different, advice = 'Please tell the registry.') {
  const isChanged = labels?.isSealed === false;
  const fault = isChanged ? 'The file of names was changed by hand'
    : different.length && `The names of ${different.join(' and ')} don't match this session`;
  showNote(fault ? `${fault}, so this page shows numbers. ${advice}` : '');
  showContact(labels?.contact);
  return applyNames(new Names(fault ? null : labels));
}

/** A contact as a link, if it is an address. */
export function linkTo(contact) {
  const href = /^\S+@\S+$/.test(contact) ? `mailto:${contact}` : /^https:\/\//.test(contact) && contact;
  return href ? element('a', { href }, contact) : contact;
}

function showContact(contact) {
  byId('contact').replaceChildren(...(contact ? ['Questions? ', linkTo(contact)] : []));
}
