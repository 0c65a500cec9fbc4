// A timetable as a picture: a cell for each room and period, darker the more seats are taken, and below
// them the candidates of each period as bars. It is a grid with one tab stop; arrows go between cells.
import { day, dayInShort, shortWeekday, time } from './dates.js';
import { element, row } from './elements.js';
import { daysOfPeriods, loadOf, shadeOf, stepIn, usesByPlace } from './layout.js';
import { count, numeral } from './numbers.js';
import { office } from './state.js';

/**
 * @typedef {import('./state.js').Use} Use
 *
 * What a picture does with its cells: `open` one that has the focus, or that Enter chose; `point` at one
 * under the mouse; `press` and `choose` one when a click begins and ends; `pick` the exam of one.
 * @typedef {{ open: (period: number, room: number, isEntered: boolean) => void,
 *   point: (period: number, room: number) => void,
 *   press: (period: number, room: number, isMouse: boolean) => void,
 *   choose: (period: number, room: number) => void,
 *   pick: (period: number, room: number) => void }} Acts
 * @typedef {{ name: string, uses: Use[], rooms: number[], most: number, differing: Set<string> | null,
 *   crowded: Set<number>, acts: Acts }} Picture `crowded` are the exams in rooms that are too small
 */

// The classes of cells, the darker the more seats are taken.
const SHADES = ['s0', 's1', 's2', 's3', 's4', 's5', 's6', 's7', 's8'];

const labelled = (name, attributes, label, ...children) => element(name,
  { ...attributes, 'aria-label': label }, ...children);

/** The periods in words, for the names of cells. */
const periodTexts = (periods) => periods.map(({ date, start }) => (
  `${dayInShort(date).textContent}, ${time(start).textContent}`));

// ---- Heads

function dayHead({ date, count: periods }) {
  const [weekday, number] = [shortWeekday(date), Number(date.slice(8))];
  return labelled('th', { scope: 'colgroup', colspan: periods, class: 'day' }, day(date).textContent,
    ...(periods > 1 ? [weekday, element('br')] : []), `${number}`);
}

const periodHeads = (days, texts) => days.flatMap(({ first, count: periods }) => (
  Array.from({ length: periods }, (_, place) => labelled('th', {
    scope: 'col', class: place ? null : 'day' }, texts[first + place], `${place + 1}`))));

// ---- Cells

function cellText(use, room, period, isOther, texts) {
  const { names, session } = office;
  const where = `${names.room(room)}, ${texts[period]}`;
  const what = use ? `${use.exams.map((exam) => names.exam(exam)).join(', ')}, ${numeral(use.used)} of ${
    count(use.capacity, 'seat')}` : `free, ${count(session?.capacities[room] ?? 0, 'seat')}`;
  return `${where}: ${what}${isOther ? ', differs' : ''}`;
}

function cellOf(use, { room, period, isFirst, isOther, texts, crowded }) {
  const classes = [SHADES[use ? shadeOf(use.used, use.capacity) : 0], isFirst && 'day', isOther && 'differs',
    use && use.exams.some((exam) => crowded.has(exam)) && 'over'];
  return labelled('td', { role: 'gridcell', tabindex: -1, class: classes.filter(Boolean).join(' ') },
    cellText(use, room, period, isOther, texts));
}

function loadRow(load, most, isFirst, texts) {
  const bars = load.map((candidates, period) => {
    const bar = element('span', { class: 'load' });
    bar.style.blockSize = `${most ? (100 * candidates) / most : 0}%`;
    return labelled('td', { role: 'gridcell', class: isFirst(period) ? 'day' : null },
      `${texts[period]}: ${count(candidates, 'candidate')}`, bar);
  });
  return row(element('th', { scope: 'row' }, 'Candidates', element('span', { class: 'below' },
    `at most ${numeral(Math.max(0, ...load))}`)), bars);
}

/** Moves the tab stop and the focus of a grid to a cell. */
function focusCell(table, at, isFocused = true) {
  const cells = table.tBodies[0].rows[at[0]]?.querySelectorAll('td');
  if (!cells?.[at[1]]) return;
  for (const old of table.querySelectorAll('[tabindex="0"]')) old.setAttribute('tabindex', '-1');
  cells[at[1]].setAttribute('tabindex', '0');
  if (isFocused) cells[at[1]].focus();
}

/** Where a cell is: its row and its column among the cells of the grid. */
const placeOf = (cell) => [cell.parentElement.sectionRowIndex, cell.cellIndex - 1];

function listen(table, { rooms, acts }, periods) {
  const cellAt = (event) => event.target.closest('tbody td');
  /** Does something with the period and the room of a cell. */
  const of = (cell, act, ...more) => {
    const [at, period] = placeOf(cell);
    act(period, rooms[at], ...more);
  };
  const on = (name, act) => table.addEventListener(name, (event) => {
    const cell = cellAt(event);
    if (cell) act(cell, event);
  });
  on('focusin', (cell) => {
    focusCell(table, placeOf(cell), false);
    of(cell, acts.open, false);
  });
  on('mouseover', (cell) => of(cell, acts.point));
  on('pointerdown', (cell, event) => of(cell, acts.press, event.pointerType === 'mouse'));
  on('click', (cell) => {
    cell.focus();
    of(cell, acts.choose);
  });
  on('keydown', (cell, event) => {
    const to = stepIn(event.key, placeOf(cell), rooms.length, periods);
    if (to) focusCell(table, to);
    else if (event.key === 'Enter' || event.key === ' ') of(cell, acts.open, true);
    else if (event.key === 'm' && !event.ctrlKey && !event.metaKey) of(cell, acts.pick);
    else return;
    event.preventDefault();
  });
}

/**
 * The picture of a timetable, as a table.
 * @param {Picture} picture
 */
export function pictureOf(picture) {
  const { name, uses, rooms, most, differing, crowded } = picture;
  const periods = office.session?.periods ?? [];
  const [days, texts, there] = [daysOfPeriods(periods), periodTexts(periods), usesByPlace(uses)];
  const firsts = new Set(days.map(({ first }) => first));
  const line = (room) => row(
    element('th', { scope: 'row' }, office.names.room(room), element('span', {}, ` ${
      numeral(office.session?.capacities[room] ?? 0)}`)),
    periods.map((_, period) => cellOf(there.get(`${period} ${room}`), { room, period,
      isFirst: firsts.has(period), isOther: Boolean(differing?.has(`${period} ${room}`)), texts,
      crowded })));
  const table = element('table', { class: 'picture', role: 'grid' },
    element('caption', {}, `${name}: rooms by period, darker the more seats are taken`),
    element('thead', {}, row(element('th', { scope: 'col', rowspan: 2 }, 'Room, seats'), days.map(dayHead)),
      row(periodHeads(days, texts))),
    element('tbody', {}, rooms.map(line)),
    element('tfoot', { role: 'rowgroup' }, loadRow(loadOf(uses, periods.length), most,
      (period) => firsts.has(period), texts)));
  table.style.setProperty('--periods', `${periods.length}`);
  focusCell(table, [0, 0], false);
  listen(table, picture, periods.length);
  return table;
}

/** Makes a room and period the tab stop of a picture, and puts the focus there if it may. */
export const focusPlace = (table, rooms, { period, room }, isFocused) => (
  focusCell(table, [rooms.indexOf(room), period], isFocused));

// ---- Where an exam can go

/**
 * Marks the cells of a picture, and a line of its head.
 * @param {HTMLTableElement} table
 * @param {number[]} rooms
 * @param {(period: number, room: number) => { kind: string, text: string }} markOf
 * @param {{ mark: string, text: string }[]} heads one for each period
 * @returns {() => void} takes the marks away
 */
export function markPlaces(table, rooms, markOf, heads) {
  const marked = [...table.tBodies[0].rows].flatMap((line, at) => (
    [...line.querySelectorAll('td')].map((cell, period) => {
      const { kind, text } = markOf(period, rooms[at]);
      const label = cell.getAttribute('aria-label') ?? '';
      cell.setAttribute('aria-label', `${label}; ${text}`);
      cell.classList.add(kind);
      return { cell, kind, label };
    })));
  const head = row(element('th', { scope: 'row' }, 'Points'), heads.map(({ mark, text }) => (
    labelled('td', { role: 'gridcell' }, text, element('span', {}, mark)))));
  table.tHead?.append(head);
  table.classList.add('choosing');
  return () => {
    for (const { cell, kind, label } of marked) {
      cell.setAttribute('aria-label', label);
      cell.classList.remove(kind);
    }
    head.remove();
    table.classList.remove('choosing');
  };
}

/** Shows which cell of a picture is meant. */
export function markTarget(table, rooms, { period, room }) {
  table.querySelector('.target')?.classList.remove('target');
  table.tBodies[0].rows[rooms.indexOf(room)]?.querySelectorAll('td')[period]?.classList.add('target');
}
