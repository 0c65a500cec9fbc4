// Drafts, as the registry's and the departments' pages read them.
import { ask, askOrNull, Refusal } from './asking.js';
import { element } from './elements.js';
import { count, numeral } from './numbers.js';

// The office has no list of its drafts; their numbers are these eight.
const NUMBERS = [1, 2, 3, 4, 5, 6, 7, 8];
const MOST_MOVES_SHOWN = 20;

/**
 * Where an exam is; nowhere, if period and room are null.
 * @typedef {{ exam: number, period: number | null, room: number | null }} Place
 *
 * What drafts and the published timetable have: a penalty by part, breaches, and exams without a place.
 * @typedef {{ name: string, penalty: { parts: [string, number][], total: number }, unplaced: number[],
 *   breaches: { rule: string, exam: number, other: number }[] }} Judged
 *
 * @typedef {Judged & { number: number, places: Place[], uses?: undefined }} Draft
 */

/**
 * The names and numbers of a penalty report.
 * @returns {Judged['penalty']}
 */
export function penaltyIn(report) {
  const lines = report.trimEnd().split('\n').map((line) => line.match(/^(.*) (\d+)$/));
  const capital = (name) => name[0].toUpperCase() + name.slice(1);
  const parts = lines.map(([, name, points]) => [capital(name), Number(points)]);
  return { parts: parts.slice(0, -1), total: parts.at(-1)[1] };
}

/** The breaches in a violation report: each a rule and two exams. */
function breachesIn(report) {
  return report.trimEnd().split('\n').slice(1).map((line) => line.split(' '))
    .map(([rule, exam, other]) => ({ rule, exam: Number(exam), other: Number(other) }));
}

/**
 * Returns a draft, or null. Its places, penalty and violations are three requests; if it changes
 * between them, they are read again.
 * @returns {Promise<Draft | null>}
 */
export async function readDraft(number) {
  for (let tries = 0; tries < 5; tries += 1) {
    const { draft, exams: places, penalty: total } = await ask(`/-/drafts/${number}`);
    if (draft === null) return null;
    const violations = await askOrNull('draft', `/drafts/${number}/violations`);
    const report = violations && await askOrNull('draft', `/drafts/${number}/penalty`);
    if (report && penaltyIn(report).total === total) {
      const unplaced = places.filter(({ period }) => period === null).map(({ exam }) => exam);
      return { name: `Draft ${number}`, number, penalty: penaltyIn(report),
        breaches: breachesIn(violations), places, unplaced };
    }
  }
  throw new Refusal(503, { error: 'unavailable' });
}

/** Returns the drafts that there are. */
export async function readDrafts() {
  const drafts = [];
  for (const number of NUMBERS) {
    const draft = await readDraft(number);
    if (draft) drafts.push(draft);
  }
  return drafts;
}

/** Like `readDraft`; refused if the draft no longer exists. */
export async function readAgain(number) {
  const draft = await readDraft(number);
  if (!draft) throw new Refusal(404, { error: 'draft' });
  return draft;
}

/** Whether a draft breaks rules or has unplaced exams, in words. */
export function verdict({ breaches, unplaced }) {
  const rules = breaches.length ? `Breaks rules: ${count(breaches.length, 'violation')}`
    : 'Breaks no rule';
  return unplaced.length ? `${rules}; ${count(unplaced.length, 'exam')} not placed` : rules;
}

/** Exams whose place differs between two readings of a draft: before and now. */
export function movesBetween(seen, found) {
  return found.places.map((now, i) => ({ before: seen.places[i], now })).filter(
    ({ before, now }) => before.period !== now.period || before.room !== now.room);
}

/** What changed in a draft from one reading to a later one, as elements; none if nothing did. */
export function changesBetween(seen, found, names) {
  const moves = movesBetween(seen, found);
  const [was, is] = [seen.penalty.total, found.penalty.total];
  if (!moves.length && was === is) return [];
  const items = moves.slice(0, MOST_MOVES_SHOWN).map(({ before, now }) => element('li', {},
    `${names.exam(now.exam)}: ${names.place(before)} before, ${names.place(now)} now`));
  const more = moves.length - MOST_MOVES_SHOWN;
  const points = was === is ? `It still has ${count(is, 'point')}.`
    : `It had ${count(was, 'point')} when you looked, and has ${numeral(is)} now.`;
  const moved = moves.length ? `${count(moves.length, 'exam has', 'exams have')} moved:`
    : 'No exam has moved; enrolments have changed.';
  return [element('p', {}, element('b', {}, 'This draft has changed since you looked.'),
    ` ${points} ${moved}`), ...(items.length ? [element('ul', {}, items)] : []),
  ...(more > 0 ? [element('p', {}, `and ${more} more.`)] : [])];
}
