// Where an exam can go: what the office says of each place of the session, by period.
import { ask } from './asking.js';
import { daysOfPeriods } from './layout.js';
import { count, numeral } from './numbers.js';

/**
 * One place for an exam: the draft's points with the exam there; or the rule that forbids it, with the two
 * exams that it names.
 * @typedef {{ period: number, room: number, points: number | null, rule: string, exams: number[] }} Option
 *
 * A period for an exam: its places in their order, if they differ, the first free one, how many are free, and
 * what forbids it if none is.
 * @typedef {{ period: number, rooms: Option[], best: Option | null, free: number, isHere: boolean,
 *   fault: Option | null }} Period
 */

/**
 * The places of the office's list.
 * @param {string} text
 * @returns {Option[]}
 */
export const optionsIn = (text) => text.trimEnd().split('\n').slice(1).map((line) => {
  const [period, room, points, rule, ...exams] = line.split(',');
  const isFree = points !== '';
  return { period: Number(period), room: Number(room), points: isFree ? Number(points) : null, rule,
    exams: isFree ? [] : exams.map(Number) };
});

/** Asks the office where an exam of a draft can go. */
export const readOptions = async (draft, exam) => (
  optionsIn(await ask(`/drafts/${draft}/exams/${exam}/places`)));

// Rules that another room of the same period can keep.
const OF_ROOMS = ['Capacity', 'RoomExclusive'];

/**
 * How many seats a draft leaves in a room and period. Exams whose size isn't known take none.
 * @param {{ exam: number, period: number | null, room: number | null }[]} places
 * @param {number[]} sizes
 * @param {number[]} capacities
 * @returns {(place: Option) => number}
 */
export function seatsLeft(places, sizes, capacities) {
  const taken = new Map();
  for (const { exam, period, room } of places) {
    const key = `${period} ${room}`;
    taken.set(key, (taken.get(key) ?? 0) + (sizes[exam] ?? 0));
  }
  return ({ period, room }) => (capacities[room] ?? 0) - (taken.get(`${period} ${room}`) ?? 0);
}

/**
 * The places by period, the free ones first: the fewest points, then the fewest seats left, then the rooms'
 * order. Where the exam is now doesn't count as free.
 * @param {Option[]} options
 * @param {{ period: number | null, room: number | null }} here
 * @param {(place: Option) => number} left
 * @returns {Period[]}
 */
export function periodsOf(options, here, left) {
  const rooms = /** @type {Option[][]} */ ([]);
  for (const option of options) (rooms[option.period] ??= []).push(option);
  return rooms.map((all, period) => {
    const others = all.filter(({ room }) => period !== here.period || room !== here.room);
    const inOrder = (those) => [...those].sort((one, other) => (
      (one.points ?? Infinity) - (other.points ?? Infinity) || left(one) - left(other)
      || one.room - other.room));
    const free = inOrder(others.filter(({ points }) => points !== null));
    const best = free[0] ?? null;
    const fault = best ? null : others.find(({ rule }) => !OF_ROOMS.includes(rule)) ?? others[0] ?? null;
    const depends = all.length > 1 && (best !== null || OF_ROOMS.includes(fault?.rule ?? ''));
    return { period, isHere: period === here.period, best, free: free.length, fault,
      rooms: depends ? inOrder(all) : [] };
  });
}

/**
 * The periods in an order: those with the fewest points first, or as time goes.
 * @param {Period[]} periods
 * @param {string} by
 */
export const periodsInOrder = (periods, by) => (by === 'time' ? periods : [...periods].sort((one, other) => (
  (one.best?.points ?? Infinity) - (other.best?.points ?? Infinity) || 0) || one.period - other.period));

/**
 * The period that typed digits mean: the day of the month, and then which period of the day. Null if there
 * is none.
 * @param {string} typed
 * @param {{ date: string }[]} periods
 */
export function periodTyped(typed, periods) {
  const days = daysOfPeriods(periods);
  for (const digits of [2, 1].filter((length) => length <= typed.length)) {
    const day = days.find(({ date }) => Number(date.slice(8)) === Number(typed.slice(0, digits)));
    const place = Number(typed.slice(digits) || '1');
    if (day) return place >= 1 && place <= day.count ? day.first + place - 1 : null;
  }
  return null;
}

// ---- Words

/** How points differ from those that there are now, in words. */
export function differenceText(points, now) {
  if (points === now) return 'no change';
  return `${numeral(Math.abs(points - now))} ${points < now ? 'fewer' : 'more'}`;
}

/** The points of a place in words: how many, and how many more or fewer. */
export const pointsText = (points, now) => `${count(points, 'point')}, ${differenceText(points, now)}`;

/** The same in at most four letters, for the head of a column. */
export function differenceMark(points, now) {
  const difference = points - now;
  const size = Math.abs(difference);
  if (!difference) return '0';
  return `${difference < 0 ? '−' : '+'}${size < 1_000 ? size : `${Math.min(99, Math.round(size / 1_000))}k`}`;
}

/**
 * Why an exam can't be in a place, by rule: the other exam that it names, and whether the exam is the first.
 * @type {Record<string, (other: string | number, isFirst: boolean) => string>}
 */
const FORBIDS = {
  Duration: () => 'the period is too short',
  Clash: (other) => `overlaps with ${other}`,
  Capacity: () => 'too few seats',
  After: (other, isFirst) => `must be ${isFirst ? 'after' : 'before'} ${other}`,
  Coincidence: (other) => `must be in the period of ${other}`,
  Exclusion: (other) => `must not be in the period of ${other}`,
  RoomExclusive: (other, isFirst) => (
    isFirst ? `needs the room for itself, and ${other} is there` : `${other} needs the room for itself`),
};
const MOST_NAMED = 3;

/**
 * What forbids a place, in words; `shared` are the exams of the period with the same candidates, and how
 * many these are.
 * @param {Option} option
 * @param {number} exam
 * @param {(exam: number) => string | number} nameOf
 * @param {[number, number][]} shared
 */
export function forbidText(option, exam, nameOf, shared = []) {
  const [first, second] = option.exams;
  const isFirst = first === exam;
  const words = FORBIDS[option.rule]?.(nameOf(isFirst ? second : first), isFirst) ?? option.rule;
  if (option.rule !== 'Clash' || !shared.length) return words;
  const named = shared.slice(0, MOST_NAMED).map(([one, candidates]) => (
    `${nameOf(one)} (${count(candidates, 'candidate')})`));
  const more = shared.length - MOST_NAMED;
  return `overlaps with ${named.join(', ')}${more > 0 ? ` and ${count(more, 'more exam')}` : ''}`;
}

/**
 * The exams of each period that have candidates of an exam, and how many, the most first.
 * @param {number} exam
 * @param {Map<number, { period: number }>} places
 * @param {number[][]} candidates
 * @returns {Map<number, [number, number][]>}
 */
export function sharedByPeriod(exam, places, candidates) {
  const taking = new Set(candidates[exam]);
  const found = new Map();
  for (const [other, { period }] of places) {
    const both = other === exam ? 0 : candidates[other].filter((student) => taking.has(student)).length;
    if (both) found.set(period, [...(found.get(period) ?? []), [other, both]]);
  }
  for (const shared of found.values()) shared.sort(([, one], [, other]) => other - one);
  return found;
}
