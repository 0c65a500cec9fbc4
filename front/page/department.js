// A department's page: its exams in a draft, and changes of their places.
import { readUser, Refusal } from './asking.js';
import { moment } from './dates.js';
import { readAgain, readDrafts, verdict } from './drafts.js';
import { makeAgain, makeEdit, stepText } from './edits.js';
import { byId, cell, element, row } from './elements.js';
import { applyLabels, differencesForDepartment, readLabels } from './labels.js';
import { showProgress } from './messages.js';
import { fold } from './names.js';
import { count, numeral } from './numbers.js';
import { focusPlaceList, showPlaceList } from './placelist.js';
import { forbidText, periodsOf, readOptions, seatsLeft } from './places.js';
import { PUBLISHED, readPublished, readSizes } from './published.js';
import { ruleText } from './refusals.js';
import { office } from './state.js';

/** @typedef {import('./drafts.js').Draft & { at?: Date }} Timetable */

// What was last read and shown: the department's number, all drafts and the published timetable, the open
// one of them, and how large exams are.
const page = {
  department: 0,
  /** @type {Timetable[]} */
  drafts: [],
  /** @type {Timetable | null} */
  draft: null,
  /** @type {number[]} */
  sizes: [],
};

/** The open timetable; the page shows nothing that needs one while there is none. */
function openDraft() {
  if (!page.draft) throw new Error('no draft is open');
  return page.draft;
}

// ---- Reading

async function load() {
  const caller = await readUser();
  if (caller === 'office') throw new Refusal(403, { error: 'forbidden', rule: 'department' });
  const drafts = await readDrafts();
  const published = await readPublished();
  const isOfThem = published && (!drafts.length || drafts[0].places.length === published.places.length);
  page.drafts = isOfThem ? [...drafts, published] : drafts;
  page.department = Number(caller.replace('dept:', ''));
  const labels = await readLabels();
  const [first] = page.drafts;
  applyLabels(labels, labels && first ? differencesForDepartment(labels, first) : []);
  byId('department').textContent = office.names.labels?.departments[page.department]
    ?? `Department ${page.department}`;
  await showSizes();
  const open = page.drafts.find(({ number }) => number === page.draft?.number) ?? first;
  page.draft = open ?? null;
  byId('own').hidden = !open;
  byId('change').hidden = true;
  if (!open) return 'There is no draft yet. The examination office makes drafts.';
  showDraft();
  if (ownExams().length) fillForm();
  return ownExams().length ? count(ownExams().length, 'exam')
    : 'No exam is listed for your department. Please tell the registry.';
}

/** Reads how large exams are, if the names are those of the same ledger. */
async function showSizes() {
  const found = await readSizes(office.names.labels);
  page.sizes = found?.sizes ?? [];
  byId('sizes-at').replaceChildren(...(found ? ['Candidates were counted on ', moment(found.at), '.'] : []));
}

/** The department's exams as the labels have them; without labels all exams. */
function ownExams() {
  return openDraft().places.map(({ exam }) => exam).filter((exam) => (
    !office.names.labels || office.names.labels.exams[exam].department === page.department));
}

// ---- One draft

/** Whether the published timetable is open, which is only shown. */
const isPublished = () => openDraft().number === PUBLISHED;

const numeralOrNone = (number) => (number === undefined ? '' : numeral(number));

const below = (words) => element('span', { class: 'below' }, words);

/** A cell with its column's head, which a phone shows before it. */
const headedCell = (label, ...words) => element('td', { 'data-label': label }, ...words);

const { compare } = new Intl.Collator();
/** @type {Record<string, (one: any, other: any) => number>} */
const ORDERS = {
  exam: (one, other) => one.exam - other.exam,
  size: (one, other) => (page.sizes[other.exam] ?? 0) - (page.sizes[one.exam] ?? 0) || one.exam - other.exam,
  code: (one, other) => compare(office.names.exam(one.exam), office.names.exam(other.exam)),
  period: (one, other) => (one.period ?? -1) - (other.period ?? -1) || one.room - other.room,
  room: (one, other) => (one.room ?? -1) - (other.room ?? -1) || one.period - other.period,
};

/** The places of the department's exams that have the words looked for, in the order that is chosen. */
function placesShown() {
  const { names } = office;
  const words = fold(byId('own-words').value).split(/\s+/).filter(Boolean);
  const own = new Set(ownExams());
  return openDraft().places.filter(({ exam }) => own.has(exam)).filter((place) => {
    const text = fold([names.exam(place.exam), names.examTitle(place.exam), names.place(place)].join(' '));
    return words.every((word) => text.includes(word));
  }).sort(ORDERS[byId('own-order').value]);
}

function placeRow({ exam, period, room }) {
  const { names } = office;
  const title = `exam-${exam}`;
  const seats = names.labels?.rooms[room]?.capacity;
  const choose = element('button', { type: 'button', 'aria-describedby': title }, 'Change …');
  choose.addEventListener('click', () => {
    byId('edit-exam').value = exam;
    byId('edit-kind').value = 'put';
    chooseExam();
    look();
  });
  return row(element('th', { scope: 'row', id: title }, names.exam(exam),
    names.examTitle(exam) && below(names.examTitle(exam))),
  headedCell('Minutes', names.minutes(exam) ?? ''),
  headedCell('Period', period === null ? 'not placed' : names.period(period)),
  headedCell('Room', room === null ? '' : names.roomInBuilding(room),
    room !== null && seats !== undefined && below(count(seats, 'seat'))),
  headedCell('Candidates', numeralOrNone(page.sizes[exam])),
  cell(isPublished() ? '' : choose));
}

function showPlaces() {
  const places = placesShown();
  const own = ownExams().length;
  byId('own-count').textContent = places.length < own ? `${numeral(places.length)} of ${count(own, 'exam')}.`
    : '';
  byId('places').replaceChildren(...places.map(placeRow));
}

function showDraft() {
  const draft = openDraft();
  const own = new Set(ownExams());
  byId('draft-title').textContent = draft.name;
  byId('draft-points').replaceChildren(`${count(draft.penalty.total, 'point')}. `,
    ...(draft.at ? ['Published on ', moment(draft.at), '.'] : [`${verdict(draft)}.`]));
  byId('change').hidden = isPublished() || !own.size;
  byId('violations').replaceChildren(...draft.breaches
    .filter(({ exam, other }) => own.has(exam) || own.has(other))
    .map(({ rule, exam, other }) => element('li', {}, element('b', {}, rule), ' ',
      ruleText(rule, exam, other, office.names))));
  showPlaces();
  showSteps();
}

/** Shows which edits can be taken back or made again. */
function showSteps() {
  for (const way of /** @type {('undo' | 'redo')[]} */ (['undo', 'redo'])) {
    const step = office.steps.next(openDraft().number, way);
    const word = way === 'undo' ? 'Undo' : 'Redo';
    byId(way).hidden = !step;
    byId(way).textContent = step ? `${word}: ${stepText(step, way, office.names)}` : word;
  }
}

// ---- The form

const option = (value, words) => element('option', { value }, words);

// The most periods and the most rooms of a session.
const MOST_NUMBERS = 200;

/** A list to choose from; without labels all numbers that a session may have. */
const choices = (labelled, words) => Array.from(
  { length: labelled?.length ?? MOST_NUMBERS }, (_, number) => option(number, words(number)));

/** A room in words, with its seats if the labels have them. */
function roomText(room) {
  const { names } = office;
  return names.labels ? `${names.roomInBuilding(room)} (${count(names.labels.rooms[room].capacity, 'seat')})`
    : names.room(room);
}

function fillForm() {
  const { names } = office;
  const { drafts } = page;
  const { labels } = names;
  const exams = ownExams().map((exam) => (
    [exam, [names.exam(exam), names.examTitle(exam)].filter(Boolean).join(' ')]));
  byId('draft-number').replaceChildren(...drafts.map(({ number, name }) => option(number, name)));
  byId('draft-number').value = openDraft().number;
  for (const list of ['edit-exam', 'edit-other']) {
    byId(list).replaceChildren(...exams.map((exam) => option(...exam)));
  }
  byId('edit-period').replaceChildren(
    ...choices(labels?.periods, (number) => names.period(number)));
  byId('edit-room').replaceChildren(...choices(labels?.rooms, roomText));
  chooseExam();
}

/** Shows the fields that a change needs, with the exam's place; another exam to swap with. */
function chooseExam() {
  const kind = byId('edit-kind').value;
  /** @type {NodeListOf<HTMLElement>} */
  const fields = document.querySelectorAll('#edit [data-for]');
  for (const field of fields) {
    field.hidden = field.dataset.for !== kind;
  }
  byId('edit-places').replaceChildren();
  const exam = Number(byId('edit-exam').value);
  const place = openDraft().places[exam];
  if (place.period !== null) {
    byId('edit-period').value = place.period;
    byId('edit-room').value = place.room;
  }
  byId('edit-other').required = kind === 'swap';
  const others = [...byId('edit-other').options];
  for (const other of others) other.disabled = Number(other.value) === exam;
  if (byId('edit-other').selectedOptions[0]?.disabled !== false) {
    byId('edit-other').value = others.find(({ disabled }) => !disabled)?.value ?? '';
  }
  const names = { put: place.period === null ? 'Place' : 'Move', swap: 'Swap', clear: 'Take out' };
  byId('edit-submit').textContent = `${names[kind]} ${office.names.exam(exam)}`;
}

/** The change that the form describes. */
function formChange() {
  const value = (field) => Number(byId(`edit-${field}`).value);
  const kind = byId('edit-kind').value;
  const exam = value('exam');
  if (kind === 'swap') return { kind, exam, other: value('other') };
  if (kind === 'clear') return { kind, exam };
  return { kind, exam, period: value('period'), room: value('room') };
}

// ---- Where an exam can go

/** Asks where the exam of the form can go, and lists it. */
function look() {
  const exam = Number(byId('edit-exam').value);
  const draft = openDraft();
  const name = office.names.exam(exam);
  showProgress(`Looking where ${name} can go …`, async () => {
    const options = await readOptions(draft.number, exam);
    showOptions(exam, draft, options);
    return `${count(options.filter(({ points }) => points !== null).length, 'place')} of ${
      numeral(options.length)} are free for ${name}. Choosing one makes the change.`;
  }, byId('edit-look'));
}

function showOptions(exam, draft, options) {
  const { names } = office;
  const capacities = (names.labels?.rooms ?? []).map(({ capacity }) => capacity);
  showPlaceList(byId('edit-places'), { label: `Where ${names.exam(exam)} can go`, order: 'points',
    periods: periodsOf(options, draft.places[exam], seatsLeft(draft.places, page.sizes, capacities)),
    points: draft.penalty.total,
    dates: names.labels?.periods ?? [], period: (period) => names.period(period),
    room: (room) => names.room(room), roomInFull: roomText,
    why: (one) => forbidText(one, exam, (other) => names.exam(other)), show: () => {},
    act: ({ period, room }) => made(() => makeEdit({ kind: 'put', exam, period, room }, draft, pageOf()),
      byId('edit-look')) });
  focusPlaceList('edit-places');
}

// ---- Changes

const pageOf = () => ({ names: office.names, steps: office.steps, show: (draft) => {
  page.draft = draft;
  showDraft();
  chooseExam();
} });

/** Makes a change, and says what came of it. */
const made = (work, at) => showProgress('Changing the draft …', async () => {
  const words = await work().finally(showSteps);
  byId('status').focus();
  return words;
}, at);

byId('edit').addEventListener('submit', (event) => {
  event.preventDefault();
  made(() => makeEdit(formChange(), openDraft(), pageOf()), byId('edit-submit'));
});
byId('edit-look').addEventListener('click', look);
for (const way of /** @type {('undo' | 'redo')[]} */ (['undo', 'redo'])) {
  byId(way).addEventListener('click', () => made(() => makeAgain(way, openDraft(), pageOf()), byId(way)));
}
for (const field of ['edit-exam', 'edit-kind']) byId(field).addEventListener('change', chooseExam);
byId('own-words').addEventListener('input', showPlaces);
byId('own-order').addEventListener('change', showPlaces);
byId('draft-number').addEventListener('change', () => showProgress('Opening the timetable …', async () => {
  const number = Number(byId('draft-number').value);
  const chosen = number === PUBLISHED ? await readPublished() : await readAgain(number);
  if (!chosen) throw new Refusal(404, { error: 'publication' });
  page.draft = chosen;
  showDraft();
  chooseExam();
  return `${chosen.name} is shown.`;
}, byId('draft-number')));

const refresh = () => showProgress('Loading your exams …', load);
byId('refresh').addEventListener('click', refresh);
byId('print').addEventListener('click', () => window.print());
refresh();
