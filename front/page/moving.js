// Moving an exam of the open draft: its picture and a list say of each place what it costs, or what forbids
// it, before anything is made.
import { dayInShort, time } from './dates.js';
import { makeAgain, makeEdit, stepText } from './edits.js';
import { byId, element } from './elements.js';
import { placesIn } from './layout.js';
import { showProgress } from './messages.js';
import { count, numeral } from './numbers.js';
import { focusPlace, markPlaces, markTarget } from './picture.js';
import { focusPlaceList, showPlaceList } from './placelist.js';
import {
  differenceMark, forbidText, periodsOf, pointsText, readOptions, seatsLeft, sharedByPeriod,
} from './places.js';
import { keepDraft } from './reading.js';
import { addressOf } from './sections.js';
import { office, openTimetable } from './state.js';
import { costText, showSwap, showSwapsIn } from './swapping.js';

/**
 * @typedef {import('./drafts.js').Draft} Draft
 * @typedef {import('./edits.js').Edit} Edit
 * @typedef {import('./places.js').Option} Option
 *
 * What is moved: the exam, the draft as it was seen, the office's places and periods, which exams of each
 * period have the same candidates, the place that is shown, whether a click makes the move, whether another
 * exam is looked for to swap with, and what takes the marks of the picture away.
 * @typedef {{ exam: number, draft: Draft, options: Map<string, Option>,
 *   periods: import('./places.js').Period[], shared: Map<number, [number, number][]>, shown: string,
 *   isSure: boolean, isSwap: boolean, rooms: number[], clear: () => void }} Move
 */

const keyOf = (period, room) => `${period} ${room}`;

/** The draft that is open, or null. */
export function openDraft() {
  const open = openTimetable();
  return open && open.number !== undefined ? open : null;
}

// What the pictures' module does: shows a timetable, a cell, and the order of rooms.
const page = {
  show: (/** @type {import('./state.js').Timetable} */ _) => {},
  showExam: (/** @type {number} */ _) => {},
  rooms: () => /** @type {number[]} */ ([]),
};

const picture = () => byId('pictures').querySelector('table');

// ---- Words

function periodText(period) {
  const when = office.session?.periods[period];
  return when ? `${dayInShort(when.date).textContent}, ${time(when.start).textContent}` : '';
}

const roomText = (room) => `${office.names.roomInBuilding(room)} (${
  count(office.session?.capacities[room] ?? 0, 'seat')})`;

/** What forbids a place, in words. */
const whyNot = (option, { exam, shared }) => (
  forbidText(option, exam, (one) => office.names.exam(one), shared.get(option.period)));

function markOf(option, move) {
  if (!option) return { kind: 'shut', text: '' };
  const { period, room } = move.draft.places[move.exam];
  if (option.period === period && option.room === room) return { kind: 'here', text: 'here now' };
  return option.points === null ? { kind: 'shut', text: whyNot(option, move) }
    : { kind: 'free', text: pointsText(option.points, move.draft.penalty.total) };
}

// ---- Looking for a place

/** Asks where an exam of the open draft can go, and shows it. */
export function startMoving(exam) {
  const draft = openDraft();
  if (!draft) return Promise.resolve();
  return showProgress(`Looking where ${office.names.exam(exam)} can go …`, async () => {
    const options = await readOptions(draft.number, exam);
    if (openDraft() !== draft) return office.summary;
    endMoving();
    show(exam, draft, options);
    const free = options.filter(({ points }) => points !== null).length;
    return `${numeral(free)} of ${count(options.length, 'place')} ${free === 1 ? 'is' : 'are'} free for ${
      office.names.exam(exam)}.`;
  }, byId('cell-edit'));
}

function show(exam, draft, options) {
  const places = placesIn(draft);
  const { candidates, capacities } = office.session ?? { candidates: [], capacities: [] };
  const sizes = candidates.map(({ length }) => length);
  const move = { exam, draft, options: new Map(options.map((one) => [keyOf(one.period, one.room), one])),
    periods: periodsOf(options, draft.places[exam], seatsLeft(draft.places, sizes, capacities)), shown: '',
    isSure: false, isSwap: false, rooms: page.rooms(),
    shared: sharedByPeriod(exam, places, candidates), clear: () => {} };
  const now = draft.penalty.total;
  const heads = move.periods.map(({ best, fault }) => (best
    ? { mark: differenceMark(best.points, now), text: pointsText(best.points, now) }
    : { mark: '×', text: fault ? whyNot(fault, move) : 'no other room' }));
  move.clear = markPlaces(picture(), move.rooms, (period, room) => (
    markOf(move.options.get(keyOf(period, room)), move)), heads);
  office.move = move;
  showPanel(move);
  focusPlaceList('move-places');
}

/** Ends the move without a change. */
export function endMoving() {
  office.move?.clear();
  office.move = null;
}

function cancel() {
  const { exam, draft, rooms } = /** @type {Move} */ (office.move);
  endMoving();
  const place = placesIn(draft).get(exam);
  page.showExam(exam);
  if (place) focusPlace(picture(), rooms, place, true);
  else byId('cell-title').focus();
}

// ---- The panel

function button(words, act) {
  const made = element('button', { type: 'button' }, words);
  made.addEventListener('click', act);
  return made;
}

const ORDERS = { points: 'fewest points', time: 'time' };

function orderField(list) {
  const field = element('select', { id: 'move-order' },
    Object.entries(ORDERS).map(([value, words]) => element('option', { value }, words)));
  field.addEventListener('change', () => list(field.value));
  return element('p', {}, element('label', { for: 'move-order' }, 'Periods by'), field);
}

function showPanel(move) {
  const { exam, draft, periods } = move;
  const { names, session } = office;
  const place = draft.places[exam];
  const isPlaced = place.period !== null;
  const list = (order) => showPlaceList(byId('move-places'), { order, periods,
    label: `Where ${names.exam(exam)} can go`, points: draft.penalty.total, dates: session?.periods ?? [],
    period: periodText, room: (room) => names.room(room), roomInFull: roomText,
    why: (option) => whyNot(option, move),
    act: ({ period, room }) => edit({ kind: 'put', exam, period, room }),
    show: (at) => markTarget(picture(), move.rooms, at) });
  byId('cell-body').replaceChildren(
    element('h3', { id: 'cell-title', tabindex: -1 }, `${isPlaced ? 'Move' : 'Place'} ${names.exam(exam)} ${
      names.examTitle(exam) ?? ''}`),
    element('p', { class: 'quiet' }, `${count(session?.candidates[exam].length ?? 0, 'candidate')}, ${
      session?.minutes[exam]} minutes. Now ${names.place(place)}, ${count(draft.penalty.total, 'point')}.`),
    element('div', { class: 'buttons' }, button('Cancel', cancel),
      isPlaced && button('Take out', () => edit({ kind: 'clear', exam })),
      isPlaced && button('Swap …', swap)),
    element('p', { id: 'move-out', class: 'quiet' }),
    element('div', { id: 'move-way' },
      element('p', { id: 'move-shown' }, 'Choose a place here or in the picture.'),
      element('div', { class: 'fields' }, orderField(list)), element('div', { id: 'move-places' })));
  list('points');
  // After the places are shown, because it takes longer.
  if (isPlaced) setTimeout(() => showOut(move));
}

/** Shows what the draft would cost without the exam. */
function showOut(move) {
  if (office.move !== move) return;
  const words = costText({ kind: 'clear', exam: move.exam }, move);
  byId('move-out').textContent = words && `Taken out: ${words}.`;
}

/** Looks for an exam to swap with, in place of a place. */
function swap() {
  const move = /** @type {Move} */ (office.move);
  move.clear();
  move.isSwap = true;
  showSwap(byId('move-way'), move, edit);
}

/** Shows what a place of the picture would cost, or what forbids it. */
export function showPlace(period, room) {
  const move = /** @type {Move} */ (office.move);
  if (move.isSwap) return;
  const { text } = markOf(move.options.get(keyOf(period, room)), move);
  move.shown = keyOf(period, room);
  byId('move-shown').replaceChildren(element('b', {}, `${periodText(period)}, ${office.names.room(room)}`),
    `: ${text}`);
}

/** Notes whether a click that begins on a place may make the move: only if its points were seen before. */
export function pressPlace(period, room, isMouse) {
  const move = /** @type {Move} */ (office.move);
  move.isSure = isMouse || move.shown === keyOf(period, room);
}

/** Puts the exam into a place of the picture, if that is free; or lists the exams there to swap with. */
export function putInto(period, room, isByKey = false) {
  const { options, exam, isSure, isSwap } = /** @type {Move} */ (office.move);
  if (isSwap) {
    showSwapsIn(period, room, office.move, edit);
    return;
  }
  if ((isSure || isByKey) && markOf(options.get(keyOf(period, room)), office.move).kind === 'free') {
    edit({ kind: 'put', exam, period, room });
  }
}

// ---- Edits

/** Shows the draft after an edit, with the exam where it is now. */
function showDraft(exam) {
  return (draft) => {
    keepDraft(draft);
    office.exam = exam;
    history.replaceState(null, '', addressOf('timetable', draft.name, exam));
    page.show(draft);
  };
}

/** @param {Edit} wanted */
function edit(wanted) {
  const { draft } = /** @type {Move} */ (office.move);
  const { names, steps } = office;
  return showProgress(`Changing ${draft.name} …`, () => makeEdit(wanted, draft, {
    names, steps, show: showDraft(wanted.exam) }), byId('cell-edit'));
}

/**
 * Takes the last edit of the open draft back, or makes it again.
 * @param {'undo' | 'redo'} way
 */
function again(way) {
  const draft = openDraft();
  const { names, steps } = office;
  const step = draft && steps.next(draft.number, way);
  if (!draft || !step) return;
  showProgress(`Changing ${draft.name} …`, () => makeAgain(way, draft, {
    names, steps, show: showDraft(step[0].exam) }), byId('cell-edit')).then(showSteps);
}

/** Shows which edits of the open draft can be taken back or made again. */
export function showSteps() {
  const draft = openDraft();
  for (const way of /** @type {('undo' | 'redo')[]} */ (['undo', 'redo'])) {
    const step = draft && office.steps.next(draft.number, way);
    byId(way).hidden = !step;
    byId(way).textContent = `${way === 'undo' ? 'Undo' : 'Redo'}${
      step ? `: ${stepText(step, way, office.names)}` : ''}`;
  }
}

/** Sets up what is outside the pictures: the buttons, and the keys that leave a move or take it back. */
export function setUpMoving(pictures) {
  Object.assign(page, pictures);
  byId('undo').addEventListener('click', () => again('undo'));
  byId('redo').addEventListener('click', () => again('redo'));
  document.addEventListener('keydown', (event) => {
    if (event.key === 'Escape' && office.move && !byId('confirm').open) cancel();
    const isTyping = event.target instanceof Element && event.target.matches('input, select, textarea');
    if (event.key.toLowerCase() === 'z' && (event.ctrlKey || event.metaKey) && !isTyping
      && office.section === 'timetable') again(event.shiftKey ? 'redo' : 'undo');
  });
}
