// Sheets for a room in a period, on paper: door lists, attendance sheets, seat labels.
import { day, dayInShort, endTime, time } from './dates.js';
import { byId, cell, columnHead, element, row, small, unseen } from './elements.js';
import { count } from './numbers.js';

const ORDERS = {
  name: (people) => {
    const { compare } = new Intl.Collator();
    return (a, b) => compare(people.name(a.student), people.name(b.student))
      || compare(people.id(a.student), people.id(b.student)) || a.exam - b.exam;
  },
  seat: () => (a, b) => a.seat - b.seat,
};
const COLUMNS = {
  Candidate: ({ student }, { people }) => people.name(student),
  'ID or number': ({ student }, { people }) => people.id(student),
  Exam: ({ exam }, { names }) => names.exam(exam),
  Seat: ({ seat }) => `${seat}`,
  Present: () => element('span', { class: 'box' }),
};
const KINDS = {
  door: { title: 'Door list', order: 'name', columns: ['Candidate', 'ID or number', 'Exam', 'Seat'] },
  attendance: { title: 'Attendance sheet', order: 'seat',
    columns: ['Seat', 'Candidate', 'ID or number', 'Exam', 'Present'] },
  labels: { title: 'Seat labels', order: 'seat' },
};

/**
 * The seats of each room in each period, by period and then by room: only those of one, if it is given.
 * @param {any[]} seats
 * @param {{ period?: number | null, room?: number | null }} only
 */
export function sheetsOf(seats, { period = null, room = null } = {}) {
  const sheets = new Map();
  for (const seat of seats) {
    if ((period ?? seat.period) === seat.period && (room ?? seat.room) === seat.room) {
      const place = `${seat.period} ${seat.room}`;
      if (!sheets.has(place)) sheets.set(place, { period: seat.period, room: seat.room, seats: [] });
      sheets.get(place).seats.push(seat);
    }
  }
  return [...sheets.values()].sort((a, b) => a.period - b.period || a.room - b.room);
}

/** An exam in a room: its name, from when until when it is, and how many candidates sit there. */
function examLine(exam, { period, seats }, { names, session }) {
  const { start } = session.periods[period];
  return element('div', {}, [names.exam(exam), names.examTitle(exam)].filter(Boolean).join(' '), ', ',
    time(start), ' – ', endTime(start, session.minutes[exam]), ', ',
    count(seats.filter((seat) => seat.exam === exam).length, 'candidate'));
}

function sheetHead({ title, columns }, sheet, office) {
  const exams = [...new Set(sheet.seats.map(({ exam }) => exam))].sort((a, b) => a - b);
  return element('th', { scope: 'colgroup', role: 'columnheader', colspan: columns.length },
    element('div', { class: 'sheet-title' }, office.names.roomInBuilding(sheet.room), small(title)),
    element('div', {}, day(office.session.periods[sheet.period].date)),
    exams.map((exam) => examLine(exam, sheet, office)));
}

// What is in the table's head is printed again on each page of a long list.
function listSheet(kind, sheet, office, people) {
  const { names } = office;
  const rows = sheet.seats.map((seat) => row(kind.columns.map(
    (column) => cell(COLUMNS[column](seat, { names, people })))));
  return element('table', { class: 'sheet' }, unseen('caption', `${kind.title}: ${names.place(sheet)}`),
    element('thead', {}, row(sheetHead(kind, sheet, office)),
      row(kind.columns.map((column) => columnHead(column)))),
    element('tbody', {}, rows));
}

function labelSheet({ period, room, seats }, { names, session }, people) {
  const { date, start } = session.periods[period];
  return element('div', { class: 'sheet labels' }, seats.map(({ student, exam, seat }) => element('div', {},
    element('b', {}, `${seat}`), element('div', {}, people.name(student)),
    element('div', {}, people.id(student), ' · ', names.exam(exam)),
    small(names.roomInBuilding(room), ', ', dayInShort(date), ', ', time(start)))));
}

/** Puts sheets in the place of the page, prints them, and takes them away again. */
function printed(sheets) {
  byId('sheets').replaceChildren(...sheets);
  document.body.classList.add('with-sheets');
  window.addEventListener('afterprint', () => {
    document.body.classList.remove('with-sheets');
    byId('sheets').replaceChildren();
  }, { once: true });
  window.print();
}

/** Prints sheets of a kind, each on a page of its own. */
export function printSheets(kind, sheets, office, people) {
  const order = ORDERS[KINDS[kind].order](people);
  const sorted = sheets.map((sheet) => ({ ...sheet, seats: [...sheet.seats].sort(order) }));
  printed(sorted.map((sheet) => (kind === 'labels' ? labelSheet(sheet, office, people)
    : listSheet(KINDS[kind], sheet, office, people))));
}
