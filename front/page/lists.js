// Lists to print that the registry's service makes as PDF files: what is asked for, what is being made,
// and the files.
import { ask, change } from './asking.js';
import { dayInShort, moment, time } from './dates.js';
import { byId, cell, element, fill, listTable } from './elements.js';
import { showProgress } from './messages.js';
import { count, numeral } from './numbers.js';
import { office } from './state.js';

const PATH = '/-/registry/lists';
const PAUSE = 1000;
// What each kind is called.
const KINDS = {
  door: 'Door lists', attendance: 'Attendance sheets', 'labels-3x7': 'Seat labels, 3 x 7',
  'labels-3x8': 'Seat labels, 3 x 8', exams: 'Timetable by exam', days: 'Timetable by day',
};
const MOST_WARNINGS = 5;

/**
 * @typedef {{ name: string, pages: number, bytes: number }} File
 * @typedef {{ number: number, by: string, at: string, kinds: string[], day: string | null,
 *   start?: string | null, building: string | null, room?: string | null, state: string, words?: string,
 *   publication?: string, warnings?: string[], files?: File[] }} Job
 */

/** The size of a file in words. */
export function sizeText(bytes) {
  return bytes < 1e6 ? `${numeral(Math.ceil(bytes / 1e3))} kB`
    : `${numeral(Math.round(bytes / 1e5) / 10)} MB`;
}

export const isUnfinished = ({ state }) => state === 'waiting' || state === 'working';

/** What lists a job makes, in words. */
export function kindsText(kinds) {
  return kinds.length === Object.keys(KINDS).length ? 'All lists'
    : kinds.map((kind) => KINDS[kind]).join(', ');
}

/** What the form asks for: all kinds or one, of a part of the session (as JSON) or all, on which paper. */
export const wantedIn = (kind, of, paper) => ({
  kinds: kind === 'all' ? Object.keys(KINDS) : [kind], ...JSON.parse(of || '{}'), paper });

// ---- What is shown

function ofCell({ day, start, building, room }) {
  const place = [room, building].filter(Boolean).join(', ');
  return cell(day && dayInShort(day), start && [', ', time(`${start}:00`)], place,
    !day && !place && 'The whole session');
}

function fileLine({ number }, { name, pages, bytes }) {
  return element('li', {}, element('a', { href: `${PATH}/${number}/${name}`, download: name }, name),
    ` ${count(pages, 'page')}, ${sizeText(bytes)}`);
}

const below = (words) => element('span', { class: 'below' }, words);

function warningLines(warnings) {
  const more = warnings.length - MOST_WARNINGS;
  return [...warnings.slice(0, MOST_WARNINGS), ...(more > 0 ? [`and ${numeral(more)} more`] : [])].map(below);
}

/** The files of a job, or how far it is. */
function filesCell(job) {
  if (job.state === 'waiting') return cell('Waiting for other lists');
  if (job.state === 'working') return cell('Being made …');
  if (job.state === 'failed') return cell(`Not made: ${job.words}.`);
  return cell(element('ul', { class: 'files' }, job.files.map((file) => fileLine(job, file))),
    ...warningLines(job.warnings));
}

function publicationCell({ publication }, current) {
  return cell(publication ?? '', publication && current && publication !== current
    ? below('Another timetable was published since.') : null);
}

/** Shows all jobs; returns them. */
function show({ lists, publication }) {
  const rows = lists.map((job) => [cell(kindsText(job.kinds)), ofCell(job),
    publicationCell(job, publication), filesCell(job),
    cell(moment(new Date(job.at)), job.by && below(job.by))]);
  byId('lists-made').replaceChildren(...(rows.length
    ? listTable('Lists as PDF files', ['Lists', 'Of', 'Publication', 'Files', 'Asked for'], rows) : []));
  return lists;
}

// ---- Waiting

let timer = 0;

/** Reads what the service has, and reads it again as long as lists are being made. */
async function follow() {
  clearTimeout(timer);
  try {
    const lists = show(await ask(PATH));
    if (lists.some(isUnfinished)) timer = setTimeout(follow, PAUSE);
    return lists;
  } catch (fault) {
    timer = setTimeout(follow, 5 * PAUSE);
    throw fault;
  }
}

/** Waits until a job has ended; returns how, in words. */
async function ended(number) {
  for (;;) {
    const job = (await follow()).find((one) => one.number === number);
    if (!job) return 'The lists were removed meanwhile.';
    if (job.state === 'failed') return `The lists are not made: ${job.words}.`;
    if (job.state === 'done') {
      const pages = job.files.reduce((sum, file) => sum + file.pages, 0);
      return `${count(job.files.length, 'file is', 'files are')} made, with ${count(pages, 'page')}.`;
    }
    await new Promise((resolve) => { setTimeout(resolve, PAUSE); });
  }
}

// ---- The form

const choice = (value, words) => element('option', { value: JSON.stringify(value) }, words);

/** The days, periods, buildings and rooms that can be chosen; rooms only by their names. */
function choicesOf({ session, names }) {
  const rooms = names.labels?.rooms ?? [];
  return {
    'A day': [...new Set(session.periods.map(({ date }) => date))].sort()
      .map((day) => choice({ day }, dayInShort(day).textContent)),
    'A period': session.periods.map(({ date, start }) => choice({ day: date, start: start.slice(0, 5) },
      `${dayInShort(date).textContent}, ${time(start).textContent}`)),
    'A building': [...new Set(rooms.map(({ building }) => building))].filter(Boolean)
      .map((building) => choice({ building }, building)),
    'A room': rooms.map(({ name, building }, room) => choice(
      { ...(building && { building }), room: name }, names.roomInBuilding(room))),
  };
}

function showChoices() {
  const chosen = byId('list-of').value;
  fill(byId('list-of'), element('option', { value: '' }, 'The whole session'),
    Object.entries(choicesOf(office)).map(([label, choices]) => (
      choices.length > 0 && element('optgroup', { label }, choices))));
  byId('list-of').value = chosen;
  if (byId('list-of').selectedIndex < 0) byId('list-of').value = '';
}

/** Shows the form and what was made, if there is a service and a published timetable. */
export function showLists() {
  clearTimeout(timer);
  const isThere = Boolean(office.service?.ledger && office.seats);
  byId('lists').hidden = !isThere;
  byId('lists-made').hidden = !isThere;
  if (!isThere) return;
  showChoices();
  follow().catch(() => byId('lists-made').replaceChildren());
}

export function setUpLists() {
  byId('lists').addEventListener('submit', (event) => {
    event.preventDefault();
    const wanted = wantedIn(...['kind', 'of', 'paper'].map((name) => byId(`list-${name}`).value));
    showProgress('The lists are being made. This may take a minute …', async () => {
      const { number } = await change('No lists are made.', PATH, 'POST', JSON.stringify(wanted));
      return ended(number);
    }, event.submitter);
  });
}
