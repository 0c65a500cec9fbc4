// What happened to the session: publications, edits and batches, with who made them and when; the
// difference of two publications; and the way back. The registry's service keeps all of it.
import { ask, change } from './asking.js';
import { confirmFirst } from './confirm.js';
import { csvText } from './csv.js';
import { moment } from './dates.js';
import { byId, cell, download, element, listTable } from './elements.js';
import { showProgress } from './messages.js';
import { numberOf } from './names.js';
import { count, numeral } from './numbers.js';
import { changedRows, People, WHOSE, whose } from './seats.js';
import { showSignIns } from './signins.js';
import { office } from './state.js';

const PATH = '/-/registry';
const DRAFTS = [1, 2, 3, 4, 5, 6, 7, 8];
const DIGITS_SHOWN = 12;

/**
 * @typedef {{ number: number, at: string, by: string, draft: number | null, points: number,
 *   seats: number, changed: number }} Publication
 * @typedef {{ at: string, by: string, what: string, draft: number | null, exam: number | null,
 *   other: number | null, body: string }} Edit
 * @typedef {{ number: number, at: string, by: string, source: string, added: number | null,
 *   dropped: number | null, unchanged: number | null, points: Record<string, number[]>,
 *   digest: string | null, has_opposite: boolean,
 *   lines?: { student: number, exam: number, action: string }[] }} Batch
 * @typedef {{ exam: number, period: number, room: number, seat: number, first: number,
 *   last: number | null }} Kept
 * @typedef {{ publications: Publication[], edits: Edit[], batches: Batch[], trouble: string,
 *   seats?: Kept[], places?: { publication: number, period: number, room: number }[] }} Found
 * @typedef {{ at: string, by: string, words: string, publication?: Publication, batch?: Batch }} Event
 */

// ---- Words

const SOURCES = { list: 'the student system\'s list', hand: 'lines of a file', page: 'this page' };

/** The points of a batch that changed, in words. */
function pointsText(points) {
  return Object.entries(points).filter(([, [before, after]]) => before !== after)
    .map(([name, [before, after]]) => `${name === 'published' ? 'the publication' : `draft ${name}`}: ${
      numeral(before)} to ${numeral(after)} points`).join('; ');
}

function batchText(batch, names, people) {
  const { added, dropped, unchanged, lines, number, source, points } = batch;
  const counts = added === null ? '' : [`${numeral(added)} added`, `${numeral(dropped)} dropped`,
    ...(unchanged ? [`${numeral(unchanged)} unchanged`] : [])].join(', ');
  const which = source === 'other' || number < 0 ? 'Changes that came another way'
    : `Batch ${number}, from ${SOURCES[source]}`;
  const named = (lines ?? []).slice(0, 5).map(({ student, exam, action }) => (
    `${names.exam(exam)} of ${people.name(student) || people.id(student)} ${
      action === 'add' ? 'added' : 'dropped'}`)).join(', ');
  return [[which, counts].filter(Boolean).join(': '), named, pointsText(points)].filter(Boolean).join('. ');
}

/** A place of an edit's body, such as {"period":3,"room":1}. */
function placeIn(body, names) {
  try {
    const { period, room } = JSON.parse(body);
    return ` to ${names.place({ period, room })}`;
  } catch {
    return '';
  }
}

/** The department of an owner's body, such as {"dept":3}. */
function ownerIn(body, names) {
  try {
    const { dept } = JSON.parse(body);
    return dept ? names.labels?.departments[dept] ?? `department ${dept}` : 'no department';
  } catch {
    return 'another owner';
  }
}

/** The edits, with one line for all owners that somebody set one after another. */
function inLines(edits) {
  const lines = [];
  for (const edit of edits) {
    const last = lines.at(-1);
    const isMore = edit.what === 'owner' && /^owners?$/.test(last?.what) && last.by === edit.by;
    if (isMore) last.what = 'owners';
    else lines.push({ ...edit });
  }
  return lines;
}

function editText({ what, draft, exam, other, body }, names) {
  const named = exam === null ? '' : names.exam(exam);
  return {
    placed: `${named} placed${placeIn(body, names)}, in draft ${draft}`,
    moved: `${named} moved${placeIn(body, names)}, in draft ${draft}`,
    cleared: `${named} taken out of draft ${draft}`,
    swapped: `${named} and ${other === null ? '' : names.exam(other)} swapped in draft ${draft}`,
    made: `Draft ${draft} made`, dropped: `Draft ${draft} dropped`,
    owner: `${named} given to ${ownerIn(body, names)}`,
    owners: `Exams given to their owners, ${named} the last one`,
  }[what] ?? what;
}

function publicationText({ number, draft, points, changed }) {
  const from = draft === null ? 'A timetable was published' : `Draft ${draft} published`;
  return `${from}: publication ${number}, ${count(points, 'point')}, ${count(changed, 'seat')} changed`;
}

/** What the publications did to the seats of a student. */
function seatEvents(seats, publications, names) {
  const byNumber = new Map(publications.map((one) => [one.number, one]));
  const since = new Set(seats.map(({ exam, first }) => `${exam} ${first}`));
  const given = seats.filter(({ first }) => byNumber.has(first))
    .map(({ exam, period, room, seat, first }) => ({ ...byNumber.get(first),
      words: `${names.exam(exam)}: seat ${seat}, ${names.place({ period, room })} (publication ${first})` }));
  const taken = seats.filter(({ exam, last }) => (
    last !== null && byNumber.has(last + 1) && !since.has(`${exam} ${last + 1}`)))
    .map(({ exam, last }) => ({ ...byNumber.get((last ?? 0) + 1),
      words: `${names.exam(exam)}: no seat any more (publication ${(last ?? 0) + 1})` }));
  return [...given, ...taken];
}

/** Where the publications put an exam: only those that moved it. */
function placeEvents(places, publications, names) {
  const byNumber = new Map(publications.map((one) => [one.number, one]));
  return places.filter(({ period, room }, i) => (
    i === 0 || period !== places[i - 1].period || room !== places[i - 1].room))
    .map(({ publication, period, room }) => ({ ...byNumber.get(publication),
      words: `${names.place({ period, room })} (publication ${publication})` }));
}

/**
 * All that was found, as lines, the last one first.
 * @param {Found} found
 * @returns {Event[]}
 */
export function eventsOf(found, names, people) {
  const { publications, edits, batches, seats, places } = found;
  let published = publications.map((one) => (
    { at: one.at, by: one.by, words: publicationText(one), publication: one }));
  if (seats) published = seatEvents(seats, publications, names);
  else if (places) published = placeEvents(places, publications, names);
  return [...published,
    ...inLines(edits.filter(({ what }) => what !== 'published')).map((one) => (
      { at: one.at, by: one.by, words: editText(one, names) })),
    ...batches.map((one) => ({ at: one.at, by: one.by, words: batchText(one, names, people), batch: one })),
  ].sort((a, b) => Date.parse(b.at) - Date.parse(a.at));
}

/** The batches whose digest begins with these digits: as many as are shown, or more. */
export function batchesWith(batches, words) {
  const digits = words.toLowerCase();
  return digits.length >= DIGITS_SHOWN ? batches.filter(({ digest }) => digest?.startsWith(digits)) : [];
}

/** The rows of a batch's lines with names, and whether each changed something. */
export const batchRows = (changes, names, people) => [[...WHOSE, 'action', 'changed'],
  ...changes.map((line) => [...whose(line, { names }, people), line.action, line.acted ? 'yes' : 'no'])];

/** The difference of two publications in the form of changed seats. */
export function changesIn({ seats }) {
  const seatOf = (place) => place && { period: place[0], room: place[1], seat: place[2] };
  return seats.map(({ student, exam, from, to }) => ({ student, exam, was: seatOf(from), is: seatOf(to) }));
}

// ---- What is shown

const peopleOf = () => new People(office.names.students);

function button(words, act) {
  const made = element('button', { type: 'button' }, words);
  made.addEventListener('click', act);
  return made;
}

/** The buttons of a line: the way back, and a batch's lines. */
function buttonsOf({ publication, batch }) {
  if (publication) return [button('Make a draft of it …', () => askForDraft(publication))];
  if (!batch) return [];
  const lines = button('Lines as CSV', () => downloadLines(batch));
  return batch.has_opposite ? [button('Reverse …', () => reverse(batch)), ' ', lines] : [lines];
}

/** The first digits of the digest of a batch's bytes, below its line; all are in its title. */
const digestBelow = ({ batch }) => batch?.digest && element('span', {
  class: 'below', title: batch.digest }, `SHA-256 ${batch.digest.slice(0, DIGITS_SHOWN)}`);

function showEvents(events) {
  const rows = events.map((event) => [cell(moment(new Date(event.at))), cell(event.by || 'unknown'),
    cell(event.words, digestBelow(event)), cell(...buttonsOf(event))]);
  byId('history-found').replaceChildren(...(rows.length
    ? listTable('What happened, the last one first', ['When', 'By', 'What', 'More'], rows)
    : [element('p', {}, 'Nothing is noted.')]));
}

function showPublications(publications) {
  byId('history-compare').hidden = publications.length < 2;
  for (const [place, id] of ['history-to', 'history-from'].entries()) {
    const chosen = byId(id).value;
    byId(id).replaceChildren(...publications.map(({ number, at }) => element('option', { value: number },
      `Publication ${number}, ${moment(new Date(at)).textContent}`)));
    const number = Number(chosen) || publications[place]?.number;
    if (publications.some((one) => one.number === number)) byId(id).value = number;
  }
}

/** Reads and shows all, or what an exam or a candidate has to do with. */
async function find(query) {
  const found = /** @type {Found} */ (await ask(`${PATH}/history${query}`));
  byId('history-trouble').hidden = !found.trouble;
  byId('history-trouble').textContent = found.trouble
    && `The last publication isn't kept yet, or edits aren't noted: ${found.trouble}.`;
  if (!query) showPublications(found.publications);
  const events = eventsOf(found, office.names, peopleOf());
  showEvents(events);
  return events.length;
}

/** Shows the section, with all that happened. */
export async function showHistory() {
  byId('history-differences').replaceChildren();
  await Promise.all([find(''), showSignIns()]);
}

// ---- Looking for an exam, a candidate or a batch

/** Shows the batches with this digest, and returns how many there are. */
async function findBatches(words) {
  const { batches } = await ask(`${PATH}/batches`);
  const found = { publications: [], edits: [], batches: batchesWith(batches, words), trouble: '' };
  if (found.batches.length) showEvents(eventsOf(found, office.names, peopleOf()));
  return found.batches.length;
}

async function search() {
  const words = byId('history-words').value.trim();
  if (!words) {
    await find('');
    return 'All that happened is shown.';
  }
  const exams = office.names.labels?.exams ?? [];
  const exam = numberOf(exams.map(({ code }, number) => ({ text: code, number })), words);
  if (exam !== null) {
    return `${count(await find(`?exam=${exam}`), 'entry', 'entries')} about ${office.names.exam(exam)}.`;
  }
  const people = peopleOf();
  const [student, ...others] = people.found(words);
  if (student === undefined) {
    const batches = await findBatches(words);
    return batches ? `${count(batches, 'batch', 'batches')} with this digest.`
      : 'No exam, candidate or batch has this code, ID, name or digest.';
  }
  if (others.length) {
    const named = [student, ...others].slice(0, 5).map((one) => `${people.name(one)} (${people.id(one)})`);
    return `${count(others.length + 1, 'candidate')} found: ${named.join(', ')}${
      others.length > 4 ? ' and more' : ''}. Enter the ID of one.`;
  }
  return `${count(await find(`?student=${student}`), 'entry', 'entries')} about ${
    people.name(student) || people.id(student)}.`;
}

// ---- Two publications

async function compare() {
  const [from, to] = ['history-from', 'history-to'].map((id) => byId(id).value);
  const found = await ask(`${PATH}/differences?from=${from}&to=${to}`);
  const { names } = office;
  const people = peopleOf();
  const placeText = (place) => (place ? names.place({ period: place[0], room: place[1] }) : 'none');
  const seatText = (place) => (place ? `seat ${place[2]}, ${placeText(place)}` : 'no seat');
  const csv = button('Changed seats as CSV', () => download(`publication-${from}-to-${to}.csv`, 'text/csv',
    csvText(changedRows(changesIn(found), office, people))));
  byId('history-differences').replaceChildren(
    ...listTable('Exams that moved', ['Exam', 'Before', 'After'], found.exams.map((one) => [
      cell(names.exam(one.exam)), cell(placeText(one.from)), cell(placeText(one.to))])),
    ...listTable('Seats that changed', ['Candidate', 'Exam', 'Before', 'After'], found.seats.map((one) => [
      cell(people.name(one.student) || people.id(one.student)), cell(names.exam(one.exam)),
      cell(seatText(one.from)), cell(seatText(one.to))])),
    ...(found.seats.length ? [element('p', { class: 'buttons' }, csv)] : []));
  return `${count(found.exams.length, 'exam')} and ${count(found.seats.length, 'seat')} differ.`;
}

// ---- A batch's lines

function downloadLines({ number }) {
  showProgress('Reading the batch …', async () => {
    const { changes } = await ask(`${PATH}/batches/${number}`);
    download(`batch-${number}.csv`, 'text/csv', csvText(batchRows(changes, office.names, peopleOf())));
    return `${count(changes.length, 'line is', 'lines are')} in the file.`;
  }, byId('history-found'));
}

// ---- The way back

/** Asks which draft is made of a kept publication. */
function askForDraft({ number }) {
  const taken = office.timetables.map((one) => one.number);
  const free = DRAFTS.find((draft) => !taken.includes(draft));
  const at = byId('history-found');
  if (!free) {
    showProgress('', () => 'There are eight drafts already. Drop one first.', at);
    return;
  }
  confirmFirst(`Make draft ${free} of publication ${number}?`, [element('p', {}, 'Nobody else sees it until '
    + 'it is published.')], `Make draft ${free}`, () => showProgress('Making the draft …', async () => {
    const solution = await ask(`${PATH}/publications/${number}`);
    await change(`Draft ${free} was not made.`, `/drafts/${free}`, 'PUT', solution);
    await again();
    return `Draft ${free} is made of publication ${number}.`;
  }, at));
}

const quoted = (field) => (/[",;\r\n]/.test(field) ? `"${field.replaceAll('"', '""')}"` : field);

/** The lines that take changes back, the last one first, by IDs and codes. */
export function inverseText(changes, { labels, students }) {
  const ids = new Map(students.map(({ number, id }) => [number, id]));
  return ['student,exam,action', ...[...changes].reverse().map(({ student, exam, action }) => [
    ids.get(student) ?? '', labels?.exams[exam].code ?? '', action === 'add' ? 'drop' : 'add',
  ].map(quoted).join(','))].map((line) => `${line}\n`).join('');
}

/** Puts the lines that take batches back into the form for late changes. */
export async function fillInverse(batches) {
  const changes = [];
  for (const number of batches) changes.push(...(await ask(`${PATH}/batches/${number}`)).changes);
  byId('batch').reset();
  byId('batch-changes').checked = true;
  byId('batch-lines').value = inverseText(changes.filter(({ acted }) => acted), office.names);
  byId('batch').dispatchEvent(new Event('input', { bubbles: true }));
  byId('batch-takes-back').hidden = false;
  byId('batch-takes-back').textContent = `These lines take back ${batches.length > 1 ? 'batches' : 'batch'} ${
    batches.join(', ')}. Press Check.`;
}

function reverse({ number }) {
  showProgress('Reading the batch …', async () => {
    await fillInverse([number]);
    location.hash = '#late-changes';
    return `The lines that take batch ${number} back are in the form. Check them, then send them.`;
  }, byId('history-found'));
}

/** Reads everything again. */
let again = async () => {};

/** Sets up the section; `load` reads everything again. */
export function setUpHistory(load) {
  again = load;
  for (const name of ['input', 'reset']) {
    byId('batch').addEventListener(name, () => { byId('batch-takes-back').hidden = true; });
  }
  byId('history-find').addEventListener('submit', (event) => {
    event.preventDefault();
    showProgress('Searching …', search, byId('history-find'));
  });
  byId('history-compare').addEventListener('submit', (event) => {
    event.preventDefault();
    showProgress('Comparing …', compare, byId('history-compare'));
  });
}
