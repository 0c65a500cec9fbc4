// What is wrong with a timetable, with names of whom it concerns. Which rules it breaks is read; only what
// no rule forbids is found here.
import { areAtOnce } from './conflicts.js';
import { count } from './numbers.js';

/**
 * @typedef {{ kind: string, exams: number[], student?: number, period?: number, room?: number,
 *   needed?: number, seats?: number, text?: string }} Finding
 * @typedef {Map<number, { period: number, room: number }>} Places
 */

/** The kinds of findings in their order, and what each is called. */
export const KINDS = {
  overlap: 'Two exams at one time',
  seatless: 'No seat',
  small: 'Room too small',
  unplaced: 'Not placed',
  rule: 'Breaks a rule',
  three: 'Three exams in a day',
};

// The exams of each student, by the candidates of exams that they were found in.
const known = new WeakMap();

/**
 * The exams of each student, ascending.
 * @param {number[][]} candidates
 * @returns {Map<number, number[]>}
 */
export function examsByStudent(candidates) {
  const found = known.get(candidates) ?? new Map();
  if (known.has(candidates)) return found;
  known.set(candidates, found);
  for (const [exam, students] of candidates.entries()) {
    for (const student of students) {
      const exams = found.get(student);
      if (exams) exams.push(exam);
      else found.set(student, [exam]);
    }
  }
  return found;
}

const pairsOf = (exams) => exams.flatMap((one, place) => exams.slice(place + 1).map((other) => [one, other]));

/**
 * The pairs of a student's exams in two periods that overlap in time.
 * @param {Places} places
 * @returns {Finding[]}
 */
function overlapsIn(places, { candidates, periods }) {
  const together = periods.map((one, at) => periods.map((other, place) => (
    at !== place && areAtOnce(one, other))));
  const periodOf = (exam) => places.get(exam)?.period ?? -1;
  return [...examsByStudent(candidates)].flatMap(([student, exams]) => (
    pairsOf(exams.filter((exam) => places.has(exam)))
      .filter(([one, other]) => together[periodOf(one)][periodOf(other)])
      .map((pair) => ({ kind: 'overlap', exams: pair, student, period: periodOf(pair[0]) }))));
}

/** The clashes among breaches, with the candidates who take both exams. */
function clashesOf(breaches, places, { candidates }) {
  return breaches.filter(({ rule }) => rule === 'Clash').flatMap(({ exam, other }) => {
    const taking = new Set(candidates[exam]);
    const both = candidates[other].filter((student) => taking.has(student));
    const period = places.get(exam)?.period;
    // Without anybody the enrolments have changed between two answers.
    return (both.length ? both : [undefined]).map((student) => (
      { kind: 'overlap', exams: [exam, other], student, period }));
  });
}

/** The exams among breaches that are in a room which is too small. */
export const crowdedExams = (breaches) => new Set(breaches.filter(({ rule }) => rule === 'Capacity')
  .map(({ exam }) => exam));

/**
 * The rooms and periods of those exams, with all exams in them, and how many candidates these have.
 * @param {Set<number>} crowded
 * @param {Places} places
 * @param {(exam: number) => number} sizeOf
 */
export function roomsOf(crowded, places, sizeOf) {
  const uses = new Map();
  for (const [exam, { period, room }] of places) {
    const use = uses.get(`${period} ${room}`) ?? { period, room, exams: [], needed: 0 };
    use.exams.push(exam);
    use.needed += sizeOf(exam);
    uses.set(`${period} ${room}`, use);
  }
  return [...uses.values()].filter(({ exams }) => exams.some((exam) => crowded.has(exam)));
}

/**
 * The rooms of a period that are too small.
 * @returns {Finding[]}
 */
const smallRooms = (breaches, places, { candidates, capacities }) => (
  roomsOf(crowdedExams(breaches), places, (exam) => candidates[exam].length)
    .map((use) => ({ kind: 'small', ...use, seats: capacities[use.room] })));

/** The students who have three exams or more on one day. */
function crowdedDays(places, { candidates, periods }) {
  const many = [...examsByStudent(candidates)].filter(([, exams]) => exams.length > 2);
  return many.flatMap(([student, exams]) => {
    const days = new Map();
    for (const exam of exams.filter((one) => places.has(one))) {
      const { date } = periods[places.get(exam)?.period ?? 0];
      days.set(date, [...(days.get(date) ?? []), exam]);
    }
    return [...days.values()].filter((those) => those.length > 2).map((those) => (
      { kind: 'three', exams: those, student, period: places.get(those[0])?.period }));
  });
}

/**
 * The findings of a timetable; `say` has words for a breach, `seatless` are the enrolments without a seat.
 * @returns {Finding[]}
 */
export function findingsIn({ breaches, unplaced }, places, session, say, seatless = []) {
  const others = breaches.filter(({ rule }) => rule !== 'Clash' && rule !== 'Capacity');
  return [
    ...clashesOf(breaches, places, session), ...overlapsIn(places, session),
    ...seatless.map(({ student, exam }) => ({ kind: 'seatless', exams: [exam], student,
      ...places.get(exam) })),
    ...smallRooms(breaches, places, session),
    ...unplaced.map((exam) => ({ kind: 'unplaced', exams: [exam] })),
    ...others.map(({ rule, exam, other }) => ({ kind: 'rule', exams: [...new Set([exam, other])],
      period: places.get(exam)?.period, text: say(rule, exam, other) })),
    ...crowdedDays(places, session),
  ];
}

/**
 * What stops a draft from being published, in words.
 * @param {import('./drafts.js').Judged} draft
 * @param {Places} places
 * @param {import('./state.js').Session} session
 */
export function obstaclesOf({ breaches, unplaced }, places, session) {
  const clashing = new Set(clashesOf(breaches, places, session).map(({ student }) => student)).size;
  const small = smallRooms(breaches, places, session).length;
  const others = breaches.filter(({ rule }) => rule !== 'Clash' && rule !== 'Capacity').length;
  const other = clashing || small ? 'other ' : '';
  return [clashing && count(clashing, 'candidate has two exams at one time',
    'candidates have two exams at one time'),
  small && count(small, 'room is too small', 'rooms are too small'),
  others && count(others, `${other}rule is broken`, `${other}rules are broken`),
  unplaced.length && count(unplaced.length, 'exam is not placed', 'exams are not placed')].filter(Boolean);
}

/** How many findings of each kind there are. */
export const countsOf = (findings) => Object.fromEntries(Object.keys(KINDS).map((kind) => (
  [kind, findings.filter((one) => one.kind === kind).length])));
