// Edits of a draft: the requests that make them, and how they are taken back and made again. A draft is
// read again just before each, so that nothing is edited unseen.
import { change, Refusal } from './asking.js';
import { changesBetween, readAgain } from './drafts.js';
import { count, numeral } from './numbers.js';

/**
 * @typedef {import('./drafts.js').Draft} Draft
 * @typedef {import('./steps.js').Place} Place
 * @typedef {import('./steps.js').Step} Step
 * @typedef {import('./steps.js').Steps} Steps
 *
 * What somebody wants to do: put an exam into a place, swap it with another one, or take it out.
 * @typedef {{ kind: string, exam: number, other?: number, period?: number, room?: number }} Edit
 */

const placeIn = ({ places }, exam) => ({ period: places[exam].period, room: places[exam].room });
const isSame = (one, other) => one.period === other.period && one.room === other.room;

/**
 * The request that makes an edit of a draft.
 * @param {Edit} edit
 * @param {{ number: number, places: Place[] }} draft
 */
export function requestOf({ kind, exam, other, period, room }, draft) {
  const path = `/drafts/${draft.number}`;
  if (kind === 'swap') return [`${path}/swap/${exam}/${other}`, 'POST'];
  if (kind === 'clear') return [`${path}/exams/${exam}`, 'DELETE'];
  const word = placeIn(draft, exam).period === null ? 'place' : 'move';
  return [`${path}/exams/${exam}/${word}`, 'POST', JSON.stringify({ period, room })];
}

/**
 * What an edit does in a draft.
 * @param {Edit} edit
 * @param {{ places: Place[] }} draft
 * @returns {Step}
 */
export function stepOf({ kind, exam, other = exam, period = 0, room = 0 }, draft) {
  const [from, there] = [placeIn(draft, exam), placeIn(draft, other)];
  if (kind === 'swap') return [{ exam, from, to: there }, { exam: other, from: there, to: from }];
  return [{ exam, from, to: kind === 'clear' ? { period: null, room: null } : { period, room } }];
}

/**
 * The edit that makes a step.
 * @param {Step} step
 * @returns {Edit}
 */
export function editOf([{ exam, to: { period, room } }, second]) {
  if (second) return { kind: 'swap', exam, other: second.exam };
  return period === null || room === null ? { kind: 'clear', exam } : { kind: 'put', exam, period, room };
}

/** The exam of a step that isn't where the step begins, as a place of the draft; undefined if all are. */
export const strayOf = (step, { places }) => step.map(({ exam, from }) => (
  isSame(places[exam], from) ? undefined : places[exam])).find((place) => place !== undefined);

// ---- Words

/** What undo or redo would do, in words. */
export function stepText(step, way, names) {
  const [{ exam, to }, second] = step;
  const back = way === 'undo' ? ' back' : '';
  if (second) return `swap ${names.exam(exam)} and ${names.exam(second.exam)}${back}`;
  return to.period === null ? `take ${names.exam(exam)} out${back && ' again'}`
    : `${names.exam(exam)}${back} to ${names.place(to)}`;
}

const resultText = (step, names) => step.map(({ exam, to }) => (
  `${names.exam(exam)}: ${names.place(to)}.`)).join(' ');

// ---- Making them

const NOT_MADE = 'Your change was not made.';

/**
 * Reads a draft again; refused if it is no longer as it was seen, which is shown with what has changed.
 * @param {Draft} seen
 * @param {{ names: any, show: (draft: Draft) => void }} page
 * @param {(found: Draft) => string} judge says what else speaks against the edit
 */
async function unchanged(seen, { names, show }, judge = () => '') {
  const found = await readAgain(seen.number);
  const changes = changesBetween(seen, found, names);
  const fault = judge(found) || (changes.length && 'Look at the draft, then try again.');
  if (!fault) return found;
  show(found);
  throw new Refusal(409, {}, `${NOT_MADE} ${fault}`, changes);
}

/**
 * Makes an edit, `note`s that it is made, and shows the draft. Returns what came of it, in words.
 * @param {Edit} edit
 * @param {Draft} found
 */
async function made(edit, found, { names, show }, note) {
  const step = stepOf(edit, found);
  const { penalty } = await change(NOT_MADE, ...requestOf(edit, found));
  note(step);
  show(await readAgain(found.number));
  return `${resultText(step, names)} ${count(penalty, 'point')} now, ${
    numeral(found.penalty.total)} before.`;
}

/**
 * Makes an edit of the draft that was seen.
 * @param {Edit} edit
 * @param {Draft} seen
 * @param {{ names: any, show: (draft: Draft) => void, steps: Steps }} page
 */
export async function makeEdit(edit, seen, page) {
  const found = await unchanged(seen, page);
  return made(edit, found, page, (step) => page.steps.made(seen.number, step));
}

/**
 * Takes the last edit back, or makes it again, if its exams are still where it put them.
 * @param {'undo' | 'redo'} way
 * @param {Draft} seen
 * @param {{ names: any, show: (draft: Draft) => void, steps: Steps }} page
 */
export async function makeAgain(way, seen, page) {
  const { names, steps } = page;
  const step = steps.next(seen.number, way);
  if (!step) return 'There is nothing to take back.';
  const found = await unchanged(seen, page, (draft) => {
    const stray = strayOf(step, draft);
    if (!stray) return '';
    steps.took(seen.number, way, false);
    return `${names.exam(stray.exam)} isn't where your edit left it: ${names.place(stray)}.`;
  });
  return made(editOf(step), found, page, () => steps.took(seen.number, way));
}
