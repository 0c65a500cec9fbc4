// The section of conflicts: a list of what is wrong with the open timetable, with search and as a file.
import { csvText } from './csv.js';
import { dayInShort, time } from './dates.js';
import { byId, cell, download, element, listTable, rowHead } from './elements.js';
import { countsOf, findingsIn, KINDS } from './findings.js';
import { placesIn } from './layout.js';
import { fold } from './names.js';
import { count } from './numbers.js';
import { ruleText } from './refusals.js';
import { peopleOf, withoutSeat } from './seats.js';
import { addressOf } from './sections.js';
import { office, openTimetable } from './state.js';

/** @typedef {import('./findings.js').Finding} Finding */

function found(timetable, session, seats) {
  return findingsIn(timetable, placesIn(timetable), session,
    (rule, exam, other) => ruleText(rule, exam, other, office.names),
    timetable.number ? [] : withoutSeat(seats ?? [], session));
}

// The findings of a timetable, with what they were found in.
const known = new WeakMap();

/**
 * What is wrong with a timetable.
 * @returns {Finding[]}
 */
export function findingsOf(timetable) {
  const { session, seats } = office;
  if (!session) return [];
  const last = known.get(timetable);
  if (last?.session === session && last.seats === seats) return last.findings;
  const findings = found(timetable, session, seats);
  known.set(timetable, { session, seats, findings });
  return findings;
}

/** Whether it is known which rules a timetable breaks. */
export const isJudged = (timetable) => Boolean(timetable.number) || timetable.isJudged;

/** What a registrar has to do something about in the publication, in words; an empty text if nothing. */
export function concernText() {
  const published = office.timetables.find(({ number }) => !number);
  if (!published) return '';
  const { seatless, overlap, small, rule } = countsOf(findingsOf(published));
  return [seatless && count(seatless, 'enrolment without a seat', 'enrolments without a seat'),
    overlap && count(overlap, 'overlap of two exams', 'overlaps of two exams'),
    small && count(small, 'room too small', 'rooms too small'),
    rule && count(rule, 'breach of another rule', 'breaches of other rules')].filter(Boolean).join(', ');
}

// ---- One finding

const roomText = (room) => (room === undefined ? '' : office.names.roomInBuilding(room));

function wordsOf({ kind, exams, student, room, text }, people) {
  const { names } = office;
  return fold([KINDS[kind], ...exams.flatMap((exam) => [names.exam(exam), names.examTitle(exam)]),
    ...(student === undefined ? [] : [people.id(student), people.name(student)]), roomText(room), text,
  ].filter(Boolean).join(' '));
}

const below = (words) => words && element('span', { class: 'below' }, words);

/** The codes of exams, each a link to the exam in the picture. */
const examLinks = (exams, timetable) => exams.flatMap((exam) => [element('a', {
  href: addressOf('timetable', timetable.name, exam) }, office.names.exam(exam)), ' ']);

function whenText(period) {
  const when = office.session?.periods[period];
  return when ? [dayInShort(when.date), ', ', time(when.start)] : [];
}

function rowOf(finding, timetable, people) {
  const { kind, exams, student, period, room, needed, seats, text } = finding;
  return [
    rowHead(KINDS[kind]),
    student === undefined ? cell('') : cell(people.name(student) || `Candidate ${student}`,
      people.name(student) && below(people.id(student))),
    cell(...examLinks(exams, timetable)),
    cell(...whenText(period)),
    cell(needed === undefined ? text ?? roomText(room)
      : `${roomText(room)}: ${count(needed, 'candidate')}, ${count(seats ?? 0, 'seat')}`),
  ];
}

const HEADS = ['conflict', 'student', 'id', 'name', 'exam', 'second exam', 'more exams', 'date', 'start',
  'room', 'building', 'candidates', 'seats', 'remark'];

function csvRow({ kind, exams, student, period, room, needed, seats, text }, people) {
  const { names, session } = office;
  const when = period === undefined ? undefined : session?.periods[period];
  const [one, other, ...more] = exams.map((exam) => names.exam(exam));
  return [KINDS[kind], student, ...(student === undefined ? ['', ''] : [people.id(student),
    people.name(student)]), one, other, more.join(' '), when?.date, when?.start.slice(0, 5),
  room === undefined ? '' : names.room(room), room === undefined ? '' : names.building(room), needed, seats,
  text];
}

// ---- The section

/** The findings that are asked for: of a kind, and with these words. */
function chosen(findings, people) {
  const kind = byId('conflict-kind').value;
  const words = fold(byId('conflict-words').value).split(/\s+/).filter(Boolean);
  return findings.filter((one) => (!kind || one.kind === kind) && (!words.length
    || words.every((word) => wordsOf(one, people).includes(word))));
}

function showKinds(findings) {
  const { value } = byId('conflict-kind');
  const counts = countsOf(findings);
  byId('conflict-kind').replaceChildren(element('option', { value: '' }, `All (${findings.length})`),
    ...Object.entries(KINDS).map(([kind, words]) => (
      element('option', { value: kind }, `${words} (${counts[kind]})`))));
  byId('conflict-kind').value = value;
}

/**
 * Shows the conflicts of the open timetable; those of an exam, if one is given.
 * @param {number | null} exam
 */
export function showConflicts(exam = null) {
  const timetable = openTimetable();
  if (!timetable) return;
  const people = peopleOf(office);
  const findings = findingsOf(timetable);
  byId('conflicts-title').textContent = timetable.number ? `Conflicts of ${timetable.name}`
    : 'Conflicts of the published timetable with today\'s enrolments';
  byId('conflict-note').hidden = isJudged(timetable);
  showKinds(findings);
  if (exam !== null) {
    byId('conflict-kind').value = '';
    byId('conflict-words').value = office.names.exam(exam);
  }
  const show = () => {
    const those = chosen(findings, people);
    const no = isJudged(timetable) ? 'There is no conflict.' : 'No other conflict is known.';
    const none = findings.length ? 'No conflict has these words.' : no;
    byId('conflict-count').textContent = those.length ? `${count(those.length, 'conflict')}.` : none;
    byId('conflict-list').replaceChildren(...(those.length ? listTable('Conflicts',
      ['Conflict', 'Candidate', 'Exams', 'When', 'Room or remark'],
      those.map((one) => rowOf(one, timetable, people))) : []));
  };
  byId('conflict-words').oninput = show;
  byId('conflict-kind').onchange = show;
  byId('conflicts-csv').onclick = () => download('conflicts.csv', 'text/csv',
    csvText([HEADS, ...chosen(findings, people).map((one) => csvRow(one, people))]));
  show();
}
