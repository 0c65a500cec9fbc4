// Exams at one time: of a candidate, and of all who take them.
import { count } from './numbers.js';

/**
 * An exam or a period with its time, which has no zone; without a length only what begins at the same
 * time overlaps.
 * @typedef {{date: string, start: string, minutes?: number|null}} Timed
 */

/** @param {Timed} timed */
function spanOf({ date, start, minutes }) {
  const begins = Date.parse(`${date}T${start}Z`);
  return [begins, begins + 60_000 * (minutes ?? 0)];
}

/**
 * Whether two overlap in time.
 * @param {Timed} one
 * @param {Timed} other
 */
export function areAtOnce(one, other) {
  const [[a, aEnd], [b, bEnd]] = [spanOf(one), spanOf(other)];
  return a === b || (a < bEnd && b < aEnd);
}

/** The pairs of these exams that overlap in time. */
export const overlapsOf = (exams) => exams.flatMap((one, place) => (
  exams.slice(place + 1).filter((other) => areAtOnce(one, other)).map((other) => [one, other])));

/**
 * What a candidate reads of their points. These leave out exams without a seat, and a session may have
 * no weights, so times are compared too.
 */
export function pointsInWords(penalty, exams) {
  if (penalty) return `${count(penalty, 'point')} for the exams in which you have a seat. Fewer is better.`;
  if (overlapsOf(exams).length) {
    return 'Two of your exams overlap. Points count only exams in which you have a seat.';
  }
  const isOnOneDay = new Set(exams.map(({ date }) => date)).size < exams.length;
  return isOnOneDay ? 'No points for the exams in which you have a seat.'
    : 'No points: no two of your exams are on one day.';
}
