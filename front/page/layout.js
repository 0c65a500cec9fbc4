// The numbers behind the pictures of a timetable: who sits where and when.
import { examsByStudent } from './findings.js';

/**
 * @typedef {import('./state.js').Use} Use
 * @typedef {import('./findings.js').Places} Places
 */

// From this number of periods on, gaps between exams are one.
export const MOST_GAP = 16;
const SHADES = 8;

/** Where each exam of a timetable is: its period and its room. */
export function placesIn(timetable) {
  if (!timetable) return new Map();
  return new Map(timetable.uses
    ? timetable.uses.flatMap(({ period, room, exams }) => exams.map((exam) => [exam, { period, room }]))
    : timetable.places.filter(({ period }) => period !== null)
      .map(({ exam, period, room }) => [exam, { period, room }]));
}

/** The days of periods: each with its date, its first period and how many it has, as they are numbered. */
export function daysOfPeriods(periods) {
  const days = [];
  for (const [period, { date }] of periods.entries()) {
    const last = days[days.length - 1];
    if (last?.date === date) last.count += 1;
    else days.push({ date, first: period, count: 1 });
  }
  return days;
}

/**
 * The numbers of rooms in an order: as they are listed, the largest first, or by building and then by size.
 * @param {string} by
 * @param {number[]} capacities
 * @param {(room: number) => string | null} building
 */
export function roomsInOrder(by, capacities, building) {
  const rooms = [...capacities.keys()];
  const bySize = (a, b) => capacities[b] - capacities[a] || a - b;
  const { compare } = new Intl.Collator();
  const orders = { list: (a, b) => a - b, size: bySize,
    building: (a, b) => compare(building(a) ?? '', building(b) ?? '') || bySize(a, b) };
  return rooms.sort(orders[by] ?? orders.list);
}

/** How dark a cell is, from 0 for an empty one to 8 for a full one. */
export const shadeOf = (used, capacity) => (
  used ? Math.min(SHADES, Math.max(1, Math.ceil((SHADES * used) / Math.max(1, capacity)))) : 0);

const keyOf = ({ period, room }) => `${period} ${room}`;

/**
 * The rooms in use, by period and room.
 * @param {Use[]} uses
 * @returns {Map<string, Use>}
 */
export const usesByPlace = (uses) => new Map(uses.map((use) => [keyOf(use), use]));

/**
 * The periods and rooms in which two timetables have other exams.
 * @param {Use[]} uses
 * @param {Use[]} others
 * @returns {Set<string>}
 */
export function differingPlaces(uses, others) {
  const exams = (list) => new Map(list.map((use) => (
    [keyOf(use), [...use.exams].sort((a, b) => a - b).join(' ')])));
  const [those, these] = [exams(uses), exams(others)];
  return new Set([...those.keys(), ...these.keys()].filter((key) => those.get(key) !== these.get(key)));
}

/** How many candidates sit in each period. */
export function loadOf(uses, periods) {
  const load = Array(periods).fill(0);
  for (const { period, used } of uses) load[period] += used;
  return load;
}

/** The candidates of each exam who have a seat. */
export function seatedIn(seats, exams) {
  const candidates = Array.from({ length: exams }, () => /** @type {number[]} */ ([]));
  for (const { student, exam } of seats) candidates[exam].push(student);
  return candidates;
}

/**
 * How many times a candidate's next exam is so many periods after one: from 0 to 15, and 16 or more.
 * @param {Places} places
 * @param {number[][]} candidates by exam
 */
export function gapsOf(places, candidates) {
  const gaps = Array(MOST_GAP + 1).fill(0);
  for (const exams of examsByStudent(candidates).values()) {
    const periods = exams.flatMap((exam) => places.get(exam)?.period ?? []).sort((a, b) => a - b);
    for (const [place, period] of periods.slice(1).entries()) {
      gaps[Math.min(MOST_GAP, period - periods[place])] += 1;
    }
  }
  return gaps;
}

/** A candidate's days: each date of the session, and how many of these periods it has. */
export function daysOfCandidate(taken, periods) {
  const days = [...new Set(periods.map(({ date }) => date))].sort();
  return days.map((date) => (
    { date, exams: taken.filter((period) => periods[period].date === date).length }));
}

const STEPS = { ArrowUp: [-1, 0], ArrowDown: [1, 0], ArrowLeft: [0, -1], ArrowRight: [0, 1] };

/**
 * The row and the column that a key leads to in a grid, or null if it is no such key.
 * @param {string} key
 * @param {number[]} at
 * @param {number} rows
 * @param {number} columns
 */
export function stepIn(key, [row, column], rows, columns) {
  if (key === 'Home') return [row, 0];
  if (key === 'End') return [row, columns - 1];
  const step = STEPS[key];
  return step ? [Math.min(rows - 1, Math.max(0, row + step[0])),
    Math.min(columns - 1, Math.max(0, column + step[1]))] : null;
}
