// A timetable as tables: files to download, what differs from another one, and what is looked for.
import { csvText } from './csv.js';
import { dayInShort, endTime, time } from './dates.js';
import { byId, cell, download, element, listTable, rowHead } from './elements.js';
import { fold } from './names.js';
import { count } from './numbers.js';
import { addressOf } from './sections.js';

/** Where each exam of a timetable is, by number; null in both if it isn't placed. */
export function placesOf({ places, uses }, session) {
  if (places) return places;
  const found = session.candidates.map((_, exam) => ({ exam, period: null, room: null }));
  for (const { period, room, exams } of uses) {
    for (const exam of exams) Object.assign(found[exam], { period, room });
  }
  return found;
}

// ---- Files

const solutionText = (places) => places.map(({ period, room }) => `${period}, ${room}\r\n`).join('');

const ORDERS = {
  exam: (a, b) => a.exam - b.exam,
  room: (a, b) => (a.room ?? Infinity) - (b.room ?? Infinity) || a.period - b.period || a.exam - b.exam,
  day: (a, b) => (a.period ?? Infinity) - (b.period ?? Infinity) || a.room - b.room || a.exam - b.exam,
};

const HEAD = ['exam', 'title', 'department', 'date', 'start', 'end', 'room', 'building'];

/** The rows of a timetable, in the order of exams, rooms or days. */
export function timetableRows(places, order, { names, session }) {
  return [HEAD, ...[...places].sort(ORDERS[order]).map(({ exam, period, room }) => {
    const what = [names.exam(exam), names.examTitle(exam), names.department(exam)];
    if (period === null) return [...what, '', '', '', '', ''];
    const { date, start } = session.periods[period];
    return [...what, date, start.slice(0, 5),
      endTime(start, session.minutes[exam]).dateTime.slice(0, 5), names.room(room), names.building(room)];
  })];
}

/** Sets up the buttons for the timetable that is open. */
export function showDownloads(timetable, office) {
  const places = placesOf(timetable, office.session);
  const file = timetable.name.toLowerCase().replace(' ', '-');
  byId('download-solution').disabled = timetable.unplaced.length > 0;
  byId('download-solution').onclick = () => download(`${file}.sol`, 'text/plain', solutionText(places));
  for (const order of Object.keys(ORDERS)) {
    byId(`download-${order}`).onclick = () => download(`${file}-by-${order}.csv`, 'text/csv',
      csvText(timetableRows(places, order, office)));
  }
}

// ---- Differences

const placeCell = ({ period, room }, names) => cell(names.place({ period, room }));

/** Shows which exams have another place in the chosen timetable. */
function compare(timetable, office) {
  const other = office.timetables.find(({ name }) => name === byId('compare').value);
  if (!other) {
    byId('differences').replaceChildren();
    return;
  }
  const { names, session } = office;
  const there = placesOf(other, session);
  const moved = placesOf(timetable, session).filter(({ exam, period, room }) => (
    there[exam].period !== period || there[exam].room !== room));
  const rows = moved.map((place) => [rowHead(names.exam(place.exam)), placeCell(place, names),
    placeCell(there[place.exam], names)]);
  byId('differences').replaceChildren(
    element('p', {}, moved.length ? `${count(moved.length, 'exam has', 'exams have')} another place.`
      : 'All exams have the same places.'),
    ...(moved.length ? listTable(`Exams of ${timetable.name} that have another place in ${other.name}`,
      ['Exam', timetable.name, other.name], rows) : []));
}

/** Offers the other timetables to compare with; `showPictures` draws the one that is chosen. */
export function showComparison(timetable, office, showPictures) {
  const others = office.timetables.filter(({ name }) => name !== timetable.name);
  const chosen = byId('compare').value;
  byId('compare').replaceChildren(element('option', { value: '' }, 'none'),
    ...others.map(({ name }) => element('option', { value: name }, name)));
  byId('compare').value = others.some(({ name }) => name === chosen) ? chosen : '';
  const show = () => {
    compare(timetable, office);
    showPictures();
  };
  byId('compare').onchange = show;
  byId('comparison').hidden = !others.length;
  show();
}

// ---- What is looked for

/**
 * The exams whose number, code, title, department, room or building has these words, without accents;
 * the one with this code first.
 */
export function examsWith(words, places, names) {
  const whole = fold(words.trim());
  const wanted = whole.split(/\s+/).filter(Boolean);
  const isCode = ({ exam }) => fold(names.exam(exam)) === whole;
  const found = places.filter(({ exam, room }) => {
    const text = fold([names.exam(exam), names.examTitle(exam), names.department(exam),
      room !== null && names.roomInBuilding(room)].filter(Boolean).join(' '));
    return wanted.every((word) => text.includes(word));
  });
  return [...found.filter(isCode), ...found.filter((place) => !isCode(place))];
}

function find(timetable, { names, session }) {
  const words = byId('find').value.trim();
  if (!words) {
    byId('found').replaceChildren();
    return;
  }
  const found = examsWith(words, placesOf(timetable, session), names);
  const rows = found.map(({ exam, period, room }) => [
    rowHead(element('a', { href: addressOf('timetable', timetable.name, exam) }, names.exam(exam)),
      names.examTitle(exam) && element('span', { class: 'below' }, names.examTitle(exam))),
    cell(names.department(exam) ?? ''), cell(count(session.candidates[exam].length, 'candidate')),
    period === null ? cell('not placed') : cell(dayInShort(session.periods[period].date), ', ',
      time(session.periods[period].start)),
    cell(room === null ? '' : names.roomInBuilding(room))]);
  byId('found').replaceChildren(element('p', { role: 'status' }, `${count(found.length, 'exam')}.`),
    ...(found.length ? listTable('Exams that were found',
      ['Exam', 'Department', 'Candidates', 'Period', 'Room'], rows) : []));
}

export function showFinder(timetable, office) {
  byId('find').oninput = () => find(timetable, office);
  find(timetable, office);
}
