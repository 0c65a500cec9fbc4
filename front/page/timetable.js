// The timetable that is open, as a picture: its cells, what is in them, and another one beside it.
import { findingsOf, showConflicts } from './conflictlist.js';
import { dayInShort, time } from './dates.js';
import { byId, element, fill } from './elements.js';
import { crowdedExams } from './findings.js';
import { histogramOf } from './histogram.js';
import { differingPlaces, loadOf, placesIn, roomsInOrder, usesByPlace } from './layout.js';
import {
  endMoving, openDraft, pressPlace, putInto, setUpMoving, showPlace, showSteps, startMoving,
} from './moving.js';
import { count, numeral } from './numbers.js';
import { showOverview } from './overview.js';
import { focusPlace, pictureOf } from './picture.js';
import { showPublishing } from './publish.js';
import { rereadDraft } from './reading.js';
import { addressOf } from './sections.js';
import { usesOf } from './session.js';
import { office, openTimetable } from './state.js';
import { showComparison, showDownloads, showFinder } from './tables.js';

/** Reads a draft again, and shows it in its card, and below if it is open. */
export async function reread(number) {
  const found = await rereadDraft(number);
  if (office.open === found.name) showTimetable(found);
  else showOverview();
  return found;
}

/**
 * The rooms in use in a timetable.
 * @param {import('./state.js').Timetable} timetable
 */
const usesIn = (timetable) => (timetable.number ? usesOf(timetable.places, office.session)
  : timetable.uses ?? []);

/** The timetable that the open one is compared with, or null. */
const compared = () => office.timetables.find(({ name }) => name === byId('compare').value) ?? null;

/** Shows a timetable, which is open from then on. */
export function showTimetable(timetable) {
  const { name } = timetable;
  office.open = name;
  showOverview();
  byId('timetable-title').textContent = name;
  showPublishing(timetable);
  showDownloads(timetable, office);
  showComparison(timetable, office, showPictures);
  showFinder(timetable, office);
  showSteps();
  showConflicts(office.section === 'conflicts' ? office.exam : null);
}

// ---- Pictures

const order = () => {
  const { session, names } = office;
  return roomsInOrder(byId('room-order').value, session?.capacities ?? [], (room) => names.building(room));
};

/** Shows the pictures of the open timetable and of the one that it is compared with, in their section. */
export function showPictures() {
  endMoving();
  const open = openTimetable();
  const { session } = office;
  if (!open || !session || office.section !== 'timetable') return;
  const other = compared();
  const shown = other ? [open, other] : [open];
  const uses = shown.map(usesIn);
  const most = Math.max(...uses.flatMap((those) => loadOf(those, session.periods.length)));
  const differing = other ? differingPlaces(uses[0], uses[1]) : null;
  const rooms = order();
  byId('pictures').replaceChildren(...shown.map((timetable, place) => element('div', {}, pictureOf({
    name: timetable.name, uses: uses[place], rooms, most, differing,
    crowded: crowdedExams(timetable.breaches), acts: actsOf(timetable) }))));
  byId('gaps').replaceChildren(...histogramOf(shown));
  showCell(open, { period: 0, room: rooms[0] }, false);
  if (office.section === 'timetable' && office.exam !== null) showExam(office.exam);
}

/**
 * What the cells of a picture do: they show what is in them, or, of the draft in which an exam is moved,
 * what they would cost.
 * @returns {import('./picture.js').Acts}
 */
function actsOf(timetable) {
  const isMoving = () => office.move?.draft === timetable;
  return {
    open: (period, room, isEntered) => {
      if (!isMoving()) showCell(timetable, { period, room }, isEntered);
      else if (isEntered) putInto(period, room, true);
      else showPlace(period, room);
    },
    point: (period, room) => isMoving() && showPlace(period, room),
    press: (period, room, isMouse) => isMoving() && pressPlace(period, room, isMouse),
    choose: (period, room) => isMoving() && putInto(period, room),
    pick: (period, room) => {
      const use = usesByPlace(usesIn(timetable)).get(`${period} ${room}`);
      const isOpen = timetable === openDraft();
      if (isOpen && use?.exams.length === 1) startMoving(use.exams[0]);
      else if (!isMoving()) showCell(timetable, { period, room }, true);
      if (isOpen && !isMoving() && use && use.exams.length > 1) askWhich(use.exams.length);
    },
  };
}

// ---- What is in a cell

/** The button that looks for another place of an exam, if the timetable is the open draft. */
function moveButton(exam, timetable, word) {
  if (timetable !== openDraft()) return null;
  const made = element('button', { type: 'button', class: 'move' }, `${word} ${office.names.exam(exam)} …`);
  made.addEventListener('click', () => startMoving(exam));
  return made;
}

function examItem(exam, timetable, chosen) {
  const { names, session } = office;
  const conflicts = findingsOf(timetable).filter(({ exams }) => exams.includes(exam)).length;
  return element('li', { class: exam === chosen ? 'chosen' : null }, element('b', {}, names.exam(exam)), ' ',
    names.examTitle(exam), element('span', { class: 'below' },
      `${count(session?.candidates[exam].length ?? 0, 'candidate')}, ${session?.minutes[exam]} minutes`),
    conflicts > 0 && element('a', { href: addressOf('conflicts', timetable.name, exam) },
      count(conflicts, 'conflict')), moveButton(exam, timetable, 'Move'));
}

/** Asks which of the exams of the cell that is shown is to be moved. */
function askWhich(exams) {
  byId('cell-title').after(element('p', { id: 'cell-question' }, `Which of the ${exams} exams moves?`));
  const [first] = byId('cell-body').querySelectorAll('.exams-there .move');
  first?.setAttribute('aria-describedby', 'cell-question');
  first?.focus();
}

const MOST_WAITING = 5;

/** The exams of the open draft that have no place, the largest first, with buttons that look for one. */
function waitingExams(timetable) {
  const { candidates } = office.session ?? { candidates: [] };
  const waiting = timetable === openDraft() ? [...timetable.unplaced] : [];
  waiting.sort((one, other) => candidates[other].length - candidates[one].length || one - other);
  return waiting.length > 0 && element('div', { class: 'waiting' },
    element('p', {}, element('a', { href: addressOf('conflicts', timetable.name) },
      `${count(waiting.length, 'exam')} not placed`)),
    waiting.slice(0, MOST_WAITING).map((exam) => moveButton(exam, timetable, 'Place')));
}

/** Shows what is in a room and period, with the chosen exam marked. */
function showCell(timetable, place, isEntered, chosen = null) {
  const { names, session } = office;
  const when = session?.periods[place.period];
  const use = usesByPlace(usesIn(timetable)).get(`${place.period} ${place.room}`);
  const capacity = session?.capacities[place.room] ?? 0;
  const crowded = crowdedExams(timetable.breaches);
  fill(byId('cell-body'),
    element('h3', { id: 'cell-title', tabindex: -1 }, names.roomInBuilding(place.room)),
    element('p', {}, ...(when ? [dayInShort(when.date), ', ', time(when.start), ', '] : []), timetable.name),
    element('p', { class: use?.exams.some((exam) => crowded.has(exam)) ? 'verdict broken' : 'quiet' },
      `${numeral(use?.used ?? 0)} of ${count(capacity, 'seat')} taken`),
    element('ul', { class: 'exams-there' }, (use?.exams ?? []).map(
      (exam) => examItem(exam, timetable, chosen))),
    waitingExams(timetable),
    element('p', { class: 'quiet' }, `The mouse or the arrow keys choose a cell; Enter comes here${
      timetable.number ? ', M moves the exam of a cell' : ''}.`));
  if (isEntered) byId('cell-title').focus();
}

/** Whether the focus may move: it is nowhere, or on a heading. */
const isFree = () => document.activeElement === document.body
  || Boolean(document.activeElement?.matches('h2, #cell h3, .picture td'));

/** Shows where an exam of the open timetable is, and puts the focus there if nothing else has it. */
function showExam(exam) {
  const timetable = openTimetable();
  const place = timetable && placesIn(timetable).get(exam);
  if (!place) {
    fill(byId('cell-body'),
      element('h3', { id: 'cell-title', tabindex: -1 }, office.names.exam(exam)),
      element('p', {}, office.names.examTitle(exam)), element('p', {}, 'Not placed'),
      moveButton(exam, timetable, 'Place'));
    if (isFree()) byId('cell-title').focus();
    return;
  }
  focusPlace(byId('pictures').querySelector('table'), order(), place, isFree());
  showCell(timetable, place, false, exam);
}

/** Sets up the lists above the pictures. */
export function setUpPictures() {
  byId('room-order').addEventListener('change', showPictures);
  setUpMoving({ show: showTimetable, showExam, rooms: order });
}
