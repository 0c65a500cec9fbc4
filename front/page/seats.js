// Who sits where: the seat list of the published timetable, searched, compared, downloaded, printed.
import { ask } from './asking.js';
import { csvText } from './csv.js';
import { dayInShort, time } from './dates.js';
import { byId, cell, download, element, listTable, rowHead } from './elements.js';
import { daysOfCandidate } from './layout.js';
import { FormFault, showProgress } from './messages.js';
import { fold, numberOf } from './names.js';
import { count, numeral } from './numbers.js';
import { printSheets, sheetsOf } from './sheets.js';

const MOST_PRINTED = 10_000;

// ---- Reading

/** Returns the published seats, by exam and then by student, or null if nothing is published. */
export async function readSeats() {
  const list = await ask('/-/publication/seats');
  if (typeof list !== 'string') return null;
  return list.trimEnd().split('\n').slice(1).map((line) => {
    const [student, exam, period, room, seat] = line.split(',').map(Number);
    return { student, exam, period, room, seat };
  });
}

/** IDs and names of students: those of students.json, else only numbers. */
export class People {
  constructor(students) {
    this.students = students;
    this.byNumber = new Map(students.map((student) => [student.number, student]));
  }

  id(number) {
    return this.byNumber.get(number)?.id ?? `${number}`;
  }

  name(number) {
    return this.byNumber.get(number)?.name ?? '';
  }

  /** The numbers of the students whose ID or number this is, then of those whose names have these words. */
  found(text) {
    const words = fold(text).split(/\s+/).filter(Boolean);
    const number = numberOf(this.students.map(({ id, number: one }) => ({ text: id, number: one })), text)
      ?? (/^\d{1,9}$/.test(text.trim()) ? Number(text) : null);
    const named = words.length ? this.students.filter(({ name }) => {
      const folded = fold(name ?? '');
      return words.every((word) => folded.includes(word));
    }) : [];
    return [...new Set([...(number === null ? [] : [number]),
      ...named.map((student) => student.number)])];
  }
}

export const peopleOf = ({ names }) => new People(names.students);

// ---- Seats and enrolments

const pairOf = ({ exam, student }) => `${exam} ${student}`;

/** The enrolments of a session that have no seat, by exam and then by student. */
export function withoutSeat(seats, { candidates }) {
  const seated = new Set(seats.map(pairOf));
  return candidates.flatMap((students, exam) => students.map((student) => ({ student, exam })))
    .filter((pair) => !seated.has(pairOf(pair)));
}

/** The exams of some students: the seat in each, null if there is none, and whether they are enrolled. */
export function examsOf(students, seats, session) {
  const areTheirs = ({ student }) => students.has(student);
  const isEnrolled = ({ exam, student }) => session.candidates[exam].includes(student);
  const unseated = { period: null, room: null, seat: null, isEnrolled: true };
  return [
    ...seats.filter(areTheirs).map((seat) => ({ ...seat, isEnrolled: isEnrolled(seat) })),
    ...withoutSeat(seats, session).filter(areTheirs).map((pair) => ({ ...pair, ...unseated })),
  ].sort((a, b) => a.student - b.student || (a.period ?? Infinity) - (b.period ?? Infinity)
    || a.exam - b.exam);
}

const isSame = (one, other) => (
  one.period === other.period && one.room === other.room && one.seat === other.seat);

/** What differs between two seat lists: a student, an exam, and the seat before and now, or null. */
export function changesBetween(before, now) {
  const old = new Map(before.map((seat) => [pairOf(seat), seat]));
  const kept = new Set(now.map(pairOf));
  return [
    ...now.map((seat) => ({ was: old.get(pairOf(seat)) ?? null, is: seat }))
      .filter(({ was, is }) => !was || !isSame(was, is)),
    ...before.filter((seat) => !kept.has(pairOf(seat))).map((seat) => ({ was: seat, is: null })),
  ].map(({ was, is }) => ({ student: (is ?? was).student, exam: (is ?? was).exam, was, is }))
    .sort((a, b) => a.student - b.student || a.exam - b.exam);
}

// ---- Files

export const WHOSE = ['student', 'id', 'name', 'exam', 'title'];
const WHERE = ['date', 'start', 'room', 'building', 'seat'];

export const whose = ({ student, exam }, { names }, people) => [
  student, people.id(student), people.name(student), names.exam(exam), names.examTitle(exam)];

function where(seat, { names, session }) {
  if (!seat) return WHERE.map(() => '');
  const { date, start } = session.periods[seat.period];
  return [date, start.slice(0, 5), names.room(seat.room), names.building(seat.room), seat.seat];
}

/** The rows of a seat list with names. */
export const seatRows = (seats, office, people) => [[...WHOSE, ...WHERE],
  ...seats.map((seat) => [...whose(seat, office, people), ...where(seat, office)])];

/** The rows of changed seats with names, before and now. */
export const changedRows = (changes, office, people) => [
  [...WHOSE, ...['before', 'now'].flatMap((when) => WHERE.map((column) => `${column} ${when}`))],
  ...changes.map((change) => [...whose(change, office, people), ...where(change.was, office),
    ...where(change.is, office)])];

/** The rows of enrolments without a seat. */
export const seatlessRows = (pairs, office, people) => [WHOSE,
  ...pairs.map((pair) => whose(pair, office, people))];

const downloadRows = (name, rows) => download(name, 'text/csv', csvText(rows));

// ---- What is found

const below = (words) => words && element('span', { class: 'below' }, words);

function candidateHead(student, people, ...more) {
  const name = people.name(student);
  return rowHead(name || `Candidate ${student}`, name && below(people.id(student)), ...more);
}

/** A candidate's days as a strip: a square for each day of the session, darker the more exams it has. */
function stripOf(taken, { periods }) {
  return element('ol', { class: 'strip' }, daysOfCandidate(taken, periods).map(({ date, exams }) => {
    const words = `${dayInShort(date).textContent}: ${exams ? count(exams, 'exam') : 'no exam'}`;
    return element('li', { class: `s${Math.min(3, exams)}`, title: words },
      element('span', { class: 'unseen' }, words));
  }));
}

const examCell = (exam, names) => cell(names.exam(exam), below(names.examTitle(exam)));

function placeCells({ period, room, seat, isEnrolled }, { names, session }) {
  if (seat === null) return [cell(''), cell(''), cell('none yet')];
  const { date, start } = session.periods[period];
  return [cell(dayInShort(date), ', ', time(start)), cell(names.roomInBuilding(room)),
    cell(isEnrolled ? `${seat}` : `${seat}, withdrawn`)];
}

/**
 * Shows a table of these, if there are any; `made` makes the cells of a row after the candidate's, and
 * `more` what comes below a candidate's name.
 * @param {string} caption
 * @param {string[]} heads
 * @param {any[]} found
 * @param {People} people
 * @param {(one: any) => HTMLElement[]} made
 * @param {(student: number) => HTMLElement[]} more
 */
function showFound(caption, heads, found, people, made, more = () => []) {
  const isFirst = (one, place) => found[place - 1]?.student !== one.student;
  const rows = found.map((one, place) => [candidateHead(one.student, people,
    ...(isFirst(one, place) ? more(one.student) : [])), ...made(one)]);
  byId('seat-found').replaceChildren(...(found.length
    ? listTable(caption, ['Candidate', ...heads], rows) : []));
}

function showCandidates(seats, office, people) {
  const order = people.found(byId('seat-words').value);
  const places = new Map(order.map((student, place) => [student, place]));
  const found = examsOf(new Set(order), seats, office.session)
    .sort((a, b) => places.get(a.student) - places.get(b.student));
  showFound('Seats that were found', ['Exam', 'Period', 'Room', 'Seat'], found, people,
    (one) => [examCell(one.exam, office.names), ...placeCells(one, office)].flat(),
    (student) => [stripOf(found.filter((one) => one.student === student && one.period !== null)
      .map(({ period }) => period), office.session)]);
  const students = new Set(found.map(({ student }) => student)).size;
  return students ? `${count(students, 'candidate')} with ${count(found.length, 'exam')} found.`
    : 'No candidate of this session has this number, ID or name.';
}

function showSeatless(seats, office, people) {
  const pairs = withoutSeat(seats, office.session);
  showFound('Enrolments without a seat', ['Exam'], pairs, people, ({ exam }) => [
    examCell(exam, office.names)]);
  if (!pairs.length) return 'Everybody who is enrolled has a seat.';
  const button = element('button', { type: 'button', id: 'seatless-csv' }, 'Download as CSV');
  button.addEventListener('click', () => downloadRows('without-seat.csv',
    seatlessRows(pairs, office, people)));
  byId('seat-found').append(element('p', { class: 'buttons' }, button));
  return `${count(pairs.length, 'enrolment has', 'enrolments have')} no seat.`;
}

// ---- The section of the page

function showOptions(id, all, names) {
  const chosen = byId(id).value;
  byId(id).replaceChildren(element('option', { value: '' }, all),
    ...names.map((name, number) => element('option', { value: number }, name)));
  byId(id).value = chosen < names.length ? chosen : '';
}

/** Fills the section's lists, if a timetable is published. */
export function showSeats({ names, seats, session }) {
  byId('seat-found').replaceChildren();
  if (!seats) return;
  showOptions('print-period', 'All periods', session.periods.map((when, period) => (
    `Period ${period}: ${dayInShort(when.date).textContent}, ${time(when.start).textContent}`)));
  showOptions('print-room', 'All rooms', session.capacities.map((_, room) => names.roomInBuilding(room)));
}

/** Offers what the publication of a draft changed as a file; `before` has the seats of the last one. */
export async function offerChanges(draft, before, office) {
  const changes = changesBetween(before ?? [], await readSeats());
  const people = peopleOf(office);
  byId('changed-seats').hidden = !changes.length;
  byId('changed-seats').textContent = `Seats changed by publishing ${draft}, as CSV`;
  byId('changed-seats').onclick = () => downloadRows('changed-seats.csv',
    changedRows(changes, office, people));
}

/** Sets up the forms; `readSession` reads the enrolments again. */
export function setUpSeats(office, readSession) {
  const asking = (words, work) => (event) => {
    event.preventDefault();
    showProgress(words, async () => {
      await readSession();
      const seats = await readSeats();
      return seats ? work(seats, office, peopleOf(office)) : 'Nothing is published yet.';
    }, event.submitter ?? event.currentTarget);
  };

  byId('seat-find').addEventListener('submit', asking('Looking for the candidate …', showCandidates));
  byId('seatless').addEventListener('click', asking('Comparing seats and enrolments …', showSeatless));
  byId('seats-csv').addEventListener('click', asking('Reading the seat list …', (seats, _, people) => {
    downloadRows('seats.csv', seatRows(seats, office, people));
    return `${count(seats.length, 'seat is', 'seats are')} in the list.`;
  }));
  byId('seat-print').addEventListener('submit', asking('Making the sheets …', (seats, _, people) => {
    const [period, room] = ['print-period', 'print-room'].map((id) => byId(id).value)
      .map((value) => (value === '' ? null : Number(value)));
    const sheets = sheetsOf(seats, { period, room });
    const printed = sheets.flatMap((sheet) => sheet.seats).length;
    if (!printed) return 'Nobody has a seat there.';
    if (printed > MOST_PRINTED) {
      throw new FormFault(`These are ${numeral(printed)} seats, and a browser can print ${
        numeral(MOST_PRINTED)} at once. Choose a period or a room${
        office.service?.ledger ? ', or make PDF files' : ''}.`, 'print-period');
    }
    printSheets(byId('print-kind').value, sheets, office, people);
    return `${count(sheets.length, 'sheet')} with ${count(printed, 'seat')}.`;
  }));
}
