// What late changes would do, as the registry's service says it: shown before they are sent.
import { dayInShort, time } from './dates.js';
import { byId, cell, element, listTable, rowHead } from './elements.js';
import { count, numeral } from './numbers.js';

/** The kinds of files, and what each is called. */
export const KINDS = { changes: 'Changes', list: 'The whole list' };
const VERBS = [['drops', 'adds', 'enters'], ['drop', 'add', 'enter']];

/**
 * What a plan changes, in words: as it does it, or as it is asked to.
 * @param {any} plan
 * @param {string[]} verbs
 */
function deeds({ counts }, [drops, adds, enters]) {
  return [counts.dropped && `${drops} ${count(counts.dropped, 'enrolment')} of ${
    count(counts.students_dropped, 'student')}`,
  counts.added && `${adds} ${count(counts.added, 'enrolment')}`,
  counts.new && `${enters} ${count(counts.new, 'new student')}`].filter(Boolean).join(', ');
}

/** What a plan does, and which kind of file it is of. */
export function effectText(plan) {
  const { already, kept } = plan.counts;
  return `${[`${KINDS[plan.kind]}: ${deeds(plan, VERBS[0]) || 'changes nothing'}`,
    already && `${numeral(already)} so already`, kept && `${numeral(kept)} kept as changed here`,
  ].filter(Boolean).join('; ')}.`;
}

const below = (words) => words && element('span', { class: 'below' }, words);
const head = ({ id, name }) => (name ? rowHead(name, below(id)) : rowHead(id));

function table(caption, heads, rows, total = rows.length) {
  return total ? [element('h3', {}, `${caption} (${numeral(total)})`),
    ...listTable(caption, heads, rows, total)] : [];
}

/** What has to be looked at before a plan is sent: a tick for each. */
const guardsOf = ({ guards }) => guards.map(({ name, words, first }) => element('p', { class: 'choice' },
  element('input', { type: 'checkbox', id: `guard-${name}` }),
  element('label', { for: `guard-${name}` }, `${words[0].toUpperCase()}${words.slice(1)}${
    first.length ? `: ${first.join(', ')}` : ''}. That is meant.`)));

/** What a plan does to the first timetable. */
function consequences({ timetable }, { names, session }, exam) {
  const period = (number) => {
    const { date, start } = session.periods[number];
    return cell(dayInShort(date), ', ', time(start));
  };
  if (!timetable) return [];
  // The page may not have read it yet.
  const name = timetable.draft ? `Draft ${timetable.draft}` : 'Published';
  return [
    ...table(`Two exams at one time, in ${name}`, ['Candidate', 'Exam', 'Exam'],
      timetable.overlaps.map((one) => [head(one), exam(one.exam), exam(one.other)])),
    ...table(`Rooms that are too small, in ${name}`, ['Room', 'Period', 'Candidates'],
      timetable.rooms.map((use) => [rowHead(names.roomInBuilding(use.room)), period(use.period),
        cell(`${count(use.needed, 'candidate')}, ${count(session.capacities[use.room], 'seat')}`)])),
    ...(timetable.seatless ? [element('p', {}, `${count(timetable.seatless, 'enrolment')} without a seat `
      + 'until the timetable is published again.')] : [])];
}

function madeText({ action, at, by }) {
  return [action === 'add' ? 'added' : 'dropped', ', changed here on ', dayInShort(at.slice(0, 10)),
    ` by ${by}`];
}

/** Shows whom a plan adds and drops, what that does to the first timetable, and what to look at. */
export function showPlan(plan, office) {
  const { names, timetables } = office;
  const { counts } = plan;
  const exam = (number) => cell(names.exam(number), below(names.examTitle(number)));
  const lines = (rows) => rows.map((one) => [head(one), exam(one.exam)]);
  byId('batch-effect').textContent = effectText(plan);
  byId('batch-note').hidden = plan.timetable !== null || !timetables.length;
  byId('batch-guards').replaceChildren(...guardsOf(plan));
  byId('batch-lists').replaceChildren(
    ...table('Dropped', ['Candidate', 'Exam'], lines(plan.dropped), counts.dropped),
    ...table('Added', ['Candidate', 'Exam'], lines(plan.added), counts.added),
    ...table('New students', ['Candidate'], plan.new.map((one) => [head(one)]), counts.new),
    ...consequences(plan, office, exam),
    ...table('Kept as they were changed here', ['Candidate', 'Exam', 'Why'], plan.kept.map((one) => [
      head(one), exam(one.exam), cell(...madeText(one))]), counts.kept),
    ...table('Nothing to do', ['Candidate', 'Exam', 'Why'], plan.already.map((one) => [
      head(one), exam(one.exam), cell(one.action === 'add' ? 'enrolled already' : 'not enrolled')]),
    counts.already),
    ...(plan.report.length ? [element('h3', {}, 'Besides'),
      element('ul', {}, plan.report.map((line) => element('li', {}, line)))] : []));
  const deed = deeds(plan, VERBS[1]);
  byId('batch-send').textContent = `Send ${KINDS[plan.kind].toLowerCase()}${deed && `: ${deed}`}`;
  byId('batch-preview').hidden = false;
}
