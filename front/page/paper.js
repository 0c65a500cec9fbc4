// The open timetable on paper: a table for each period, with a line for each room. It is made when the
// page is printed.
import { dayInShort, time } from './dates.js';
import { byId, cell, element, row, rowHead } from './elements.js';
import { usesByPlace } from './layout.js';
import { usesOf } from './session.js';
import { office, openTimetable } from './state.js';

function examNames(exams) {
  const { names } = office;
  return exams.map((exam) => [names.exam(exam), names.examTitle(exam)].filter(Boolean).join(' ')).join(', ');
}

function roomRow(room, use) {
  return row(rowHead(office.names.roomInBuilding(room)), cell(use ? examNames(use.exams) : 'free'),
    cell(use ? `${use.used} of ${use.capacity}` : ''));
}

function periodTable(when, period, uses) {
  const rooms = [...(office.session?.capacities.keys() ?? [])];
  return element('table', { class: 'period' },
    element('caption', {}, element('b', {}, `Period ${period}`), ' ', dayInShort(when.date), ', ',
      time(when.start)),
    element('tbody', {}, rooms.map((room) => roomRow(room, uses.get(`${period} ${room}`)))));
}

/** Makes the tables before the page is printed, and takes them away afterwards. */
export function setUpPaper() {
  window.addEventListener('beforeprint', () => {
    const open = openTimetable();
    const { session } = office;
    if (!open || !session || office.section !== 'timetable') return;
    const uses = usesByPlace(open.uses ?? usesOf(open.places, session));
    byId('paper').replaceChildren(...session.periods.map((when, period) => periodTable(when, period, uses)));
  });
  window.addEventListener('afterprint', () => byId('paper').replaceChildren());
}
