// What a page has read last, and what it shows: names and edits on every page, the rest on the registry's.
import { Names } from './names.js';
import { Steps } from './steps.js';

/**
 * @typedef {{ minutes: number[], candidates: number[][], capacities: number[], spread: number,
 *   penalties: { periods: number[], rooms: number[] }, weights: Record<string, number[]>,
 *   periods: { date: string, start: string, minutes: number }[], frame: string[] }} Session
 * @typedef {{ period: number, room: number, used: number, capacity: number, exams: number[] }} Use
 * @typedef {import('./drafts.js').Judged & { number?: undefined, places?: undefined, uses: Use[],
 *   isJudged: boolean }} Published its breaches are those with today's enrolments, if they are judged
 * @typedef {import('./drafts.js').Draft | Published} Timetable
 * @typedef {{ student: number, exam: number, period: number, room: number, seat: number }} Seat
 */

export const office = {
  /** @type {Timetable[]} */
  timetables: [],
  /** @type {Session | null} */
  session: null,
  names: new Names(),
  /**
   * The published seats.
   * @type {Seat[] | null}
   */
  seats: null,
  /**
   * The registry's service, if it runs.
   * @type {import('./service.js').Service | null}
   */
  service: null,
  /**
   * The name of the timetable that is open.
   * @type {string | null}
   */
  open: null,
  /** The section that is shown. */
  section: '',
  /**
   * The exam that the address names.
   * @type {number | null}
   */
  exam: null,
  /**
   * The exam of the open draft that is being moved, and what the office says of its places.
   * @type {import('./moving.js').Move | null}
   */
  move: null,
  /** The edits that can be taken back. */
  steps: new Steps(),
  /** How many timetables there are, in words. */
  summary: '',
  /**
   * Late changes: the last number that was used, and what was checked and not sent yet.
   * @type {{ last: number, checked: any }}
   */
  batch: { last: 0, checked: null },
};

/** The timetable that is open, or null. */
export const openTimetable = () => office.timetables.find(({ name }) => name === office.open) ?? null;
