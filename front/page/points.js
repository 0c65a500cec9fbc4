// The points of a timetable by the rules' formulas. The office says the points of each place of an exam;
// what a swap would cost, or an exam that is taken out, no question answers.
import { examsByStudent } from './findings.js';

/**
 * @typedef {import('./state.js').Session} Session
 * @typedef {import('./findings.js').Places} Places
 */

const DAY = 86_400_000;

/** What two exams of one candidate cost, by their periods. */
function costs({ periods, weights }) {
  const weight = (word) => weights[word]?.[0] ?? 0;
  const [row, day, night, spread] = ['TWOINAROW', 'TWOINADAY', 'OVERNIGHT', 'PERIODSPREAD'].map(weight);
  const days = periods.map(({ date }) => Date.parse(date) / DAY);
  return days.map((one, p) => days.map((other, q) => {
    const [gap, nights] = [Math.abs(p - q), Math.abs(one - other)];
    if (!gap) return 0;
    const near = gap === 1 && nights === 1 ? night : 0;
    return near + (gap <= spread ? 1 : 0) + (nights ? 0 : (gap === 1 ? row : day));
  }));
}

/**
 * What close exams of these students cost.
 * @param {Places} places
 * @param {Session} session
 * @param {Iterable<number>} students
 */
function ofStudents(places, session, students) {
  const cost = costs(session);
  const byStudent = examsByStudent(session.candidates);
  let sum = 0;
  for (const student of students) {
    const taken = (byStudent.get(student) ?? []).flatMap((exam) => places.get(exam)?.period ?? []);
    for (const [at, period] of taken.entries()) {
      for (const other of taken.slice(at + 1)) sum += cost[period][other];
    }
  }
  return sum;
}

/** @param {Places} places */
function ofMixedDurations(places, { minutes, weights }) {
  const lengths = new Map();
  for (const [exam, { period, room }] of places) {
    const key = `${period} ${room}`;
    lengths.set(key, (lengths.get(key) ?? new Set()).add(minutes[exam]));
  }
  const more = [...lengths.values()].reduce((sum, { size }) => sum + size - 1, 0);
  return more * (weights.NONMIXEDDURATIONS?.[0] ?? 0);
}

/** @param {Places} places */
function ofFrontLoad(places, { candidates, periods, weights }) {
  const [largest, last, points] = weights.FRONTLOAD ?? [0, 0, 0];
  const exams = [...candidates.keys()].sort((one, other) => (
    candidates[other].length - candidates[one].length || one - other)).slice(0, largest);
  const late = exams.filter((exam) => (places.get(exam)?.period ?? -1) >= Math.max(0, periods.length - last));
  return late.length * points;
}

/** @param {Places} places */
function ofPlaces(places, { penalties: { periods, rooms } }) {
  return [...places.values()].reduce((sum, { period, room }) => sum + periods[period] + rooms[room], 0);
}

/** What these students and all exams cost. */
const costOf = (places, session, students) => ofStudents(places, session, students)
  + ofMixedDurations(places, session) + ofFrontLoad(places, session) + ofPlaces(places, session);

/**
 * The penalty of a timetable.
 * @param {Places} places
 * @param {Session} session
 */
export const penaltyOf = (places, session) => (
  costOf(places, session, examsByStudent(session.candidates).keys()));

// The drafts whose points are those of their places, with the session that they were compared with.
const compared = new WeakMap();

/** Whether the office says the same points of a draft; not, if enrolments have changed between. */
function isSame(draft, places, session) {
  const known = compared.get(draft);
  if (known?.session === session) return known.is;
  const is = penaltyOf(places, session) === draft.penalty.total;
  compared.set(draft, { session, is });
  return is;
}

/**
 * The points of a draft after an edit; null if the page can't say.
 * @param {import('./edits.js').Step} step
 * @param {{ penalty: { total: number } }} draft
 * @param {Places} places
 * @param {Session} session
 */
export function pointsAfter(step, draft, places, session) {
  if (!isSame(draft, places, session)) return null;
  const after = new Map(places);
  for (const { exam, to: { period, room } } of step) {
    if (period === null || room === null) after.delete(exam);
    else after.set(exam, { period, room });
  }
  const students = new Set(step.flatMap(({ exam }) => session.candidates[exam]));
  return draft.penalty.total + costOf(after, session, students) - costOf(places, session, students);
}
