// A candidate's page: their examinations by day, the next one first, and how close together these are.
import { ask, readUser } from './asking.js';
import { calendarText } from './calendar.js';
import { overlapsOf, pointsInWords } from './conflicts.js';
import { day, endTime, time } from './dates.js';
import { byId, cell, columnHead, download, element, row, rowHead } from './elements.js';
import { applyLabels, differencesForCandidate, linkTo, readLabels, readOwnName } from './labels.js';
import { showProgress } from './messages.js';
import { count, numeral } from './numbers.js';

const STATES = { seated: 'Seat assigned', pending: 'No seat yet', withdrawn: 'Withdrawn' };

const NOTES = {
  undated: ['Not published yet',
    'Day, time, room and seat appear here once the timetable is published.'],
  pending: ['No seat yet', 'You enrolled in this exam after the timetable was published. '
    + 'You will get a seat when the timetable is next published.'],
  withdrawn: ['Withdrawn', 'You withdrew from this exam after the timetable was published. '
    + 'It will disappear from this page when the timetable is next published.'],
};

/** @type {[string, string, string][]} */
const PARTS = [
  ['row', 'Two exams in a row', 'one directly after the other on the same day'],
  ['day', 'Two exams on one day', 'with at least one period between them'],
  ['spread', 'Exams close together',
    'within a number of periods that the registry chose, overnight too'],
  ['night', 'Exams over night', 'the last of one day and the first of the next'],
];

const HEADS = ['Time', 'Exam', 'Room', 'Seat', 'Status'];

const byDate = (a, b) => (a.date ?? '9').localeCompare(b.date ?? '9')
  || (a.start ?? '').localeCompare(b.start ?? '') || a.exam - b.exam;

// ---- Their examinations

const noteOf = (exam) => (exam.date ? exam.state : 'undated');
const quiet = (words) => element('span', { class: 'quiet' }, words);
const below = (words) => element('span', { class: 'below' }, words);

// Exams have no time zone, so they are compared with the clock on the reader's wall.
function isPast({ exam, date, start }, names) {
  if (!date) return false;
  const now = new Date();
  const wall = new Date(now.getTime() - 60_000 * now.getTimezoneOffset());
  return Date.parse(`${date}T${start}Z`) + 60_000 * (names.minutes(exam) ?? 0) < wall.getTime();
}

function timeCell({ exam, start }, names) {
  if (!start) return element('td', { class: 'time' }, quiet('no time yet'));
  const minutes = names.minutes(exam);
  return element('td', { class: 'time' }, time(start),
    ...(minutes === null ? [] : [' – ', endTime(start, minutes), below(`${minutes} minutes`)]));
}

// On a phone the label is in front of a number.
function labelledCell(label, value) {
  return element('td', { 'data-label': label }, value ?? quiet('none yet'));
}

function roomCell(room, names) {
  if (room === null || !names.labels) return labelledCell('Room', room);
  return element('td', {}, names.room(room), names.building(room) && below(names.building(room)));
}

function examRow(exam, names) {
  const { exam: number, room, seat } = exam;
  const state = exam.date ? STATES[exam.state] : NOTES.undated[0];
  const title = names.examTitle(number);
  return element('tr', { class: exam.state },
    timeCell(exam, names),
    rowHead(names.exam(number), title && below(title)),
    roomCell(room, names),
    labelledCell('Seat', seat ?? (exam.date ? '' : null)),
    element('td', { class: 'state' }, state));
}

function dayTable(date, exams, names) {
  const heading = element('h3', {}, date ? day(date) : 'Day not known yet');
  return element('table', { class: 'exams' }, element('caption', {}, heading),
    element('thead', {}, row(HEADS.map((head) => columnHead(head)))),
    element('tbody', {}, exams.map((exam) => examRow(exam, names))));
}

function showDays(section, exams, names) {
  const days = [...new Set(exams.map((exam) => exam.date))];
  byId(section).querySelector('.days').replaceChildren(...days.map(
    (date) => dayTable(date, exams.filter((exam) => exam.date === date), names)));
  byId(section).hidden = exams.length === 0;
}

function showNotes(exams) {
  const notes = Object.keys(NOTES).filter((note) => exams.some((exam) => noteOf(exam) === note));
  byId('notes').replaceChildren(...notes.flatMap((note) => [
    element('dt', {}, NOTES[note][0]), element('dd', {}, NOTES[note][1])]));
}

// ---- Their calendar

// The uid of an exam stays the same when it moves; another session of this site has others.
function eventOf(candidate, { exam, date, start, room, seat }, names) {
  const session = names.labels?.periods[0].date ?? 'session';
  return {
    uid: `${session}-exam-${exam}-candidate-${candidate}@${location.hostname}`,
    date, start, minutes: names.minutes(exam),
    summary: [names.exam(exam), names.examTitle(exam)].filter(Boolean).join(' '),
    location: `${names.roomInBuilding(room)}${seat === null ? '' : `, seat ${seat}`}`,
  };
}

function showCalendar(candidate, exams, names) {
  const taken = exams.filter(({ date, state }) => date && state !== 'withdrawn');
  byId('calendar').hidden = !taken.length;
  byId('calendar').onclick = () => download('exams.ics', 'text/calendar', calendarText(
    taken.map((exam) => eventOf(candidate, exam, names)), new Date()));
}

// ---- How close together they are

/** The exams of a candidate that they have to sit, with times and lengths. */
const timedExams = (exams, names) => exams.filter(({ date, state }) => date && state !== 'withdrawn')
  .map((exam) => ({ ...exam, minutes: names.minutes(exam.exam) }));

/** Says which exams overlap, and whom to write to. */
function showOverlaps(exams, names) {
  const pairs = overlapsOf(exams);
  const contact = names.labels?.contact;
  byId('overlaps').hidden = !pairs.length;
  byId('overlaps').replaceChildren(...pairs.map(([one, other]) => element('p', {},
    'Two of your exams overlap: ', names.exam(one.exam), ' and ', names.exam(other.exam), ', ',
    day(one.date), ', ', time(one.start), one.start === other.start ? '' : [' and ', time(other.start)],
    '.')),
  element('p', {}, contact ? ['Please write to ', linkTo(contact), ' now.']
    : 'Please tell the registry now.'));
}

function partRow(cost, [part, name, reason]) {
  return row(rowHead(name, element('span', { class: 'reason' }, reason)), cell(numeral(cost[part])));
}

function showCost(cost, exams, names) {
  byId('cost-summary').textContent = pointsInWords(cost.penalty, timedExams(exams, names));
  byId('cost-parts').tBodies[0].replaceChildren(...PARTS.map((part) => partRow(cost, part)),
    element('tr', { class: 'total' }, rowHead('Total'), cell(numeral(cost.penalty))));
  byId('cost-parts').hidden = !cost.penalty;
  byId('cost').hidden = exams.every((exam) => exam.seat === null);
}

function examCount(exams, past) {
  if (!exams.length) return 'You are not enrolled in any exam.';
  return past.length ? `${count(exams.length, 'exam')}, ${past.length} of them past`
    : count(exams.length, 'exam');
}

async function load() {
  const view = await ask('/me');
  const cost = await ask('/me/penalty');
  await readUser();
  const labels = await readLabels();
  const exams = view.exams.sort(byDate);
  const names = applyLabels(labels, labels ? differencesForCandidate(labels, exams) : []);
  const past = exams.filter((exam) => isPast(exam, names));
  const own = await readOwnName(view.candidate, labels);
  byId('candidate').textContent = own ? [own.name, own.id].filter(Boolean).join(' · ')
    : `Candidate ${view.candidate}`;
  showOverlaps(timedExams(exams, names), names);
  showDays('timetable', exams.filter((exam) => !past.includes(exam)), names);
  showDays('past', past, names);
  showNotes(exams);
  showCalendar(view.candidate, exams, names);
  showCost(cost, exams, names);
  return examCount(exams, past);
}

const refresh = () => showProgress('Loading your examinations …', load);
byId('refresh').addEventListener('click', refresh);
byId('print').addEventListener('click', () => window.print());
refresh();
