// A session from five CSV files: the registry's service checks them as the tools do and says what is in
// them; then they are loaded, and each exam is given to its department. A further export brings names.
import { FILES } from './columns.js';
import { confirmFirst } from './confirm.js';
import { csvText } from './csv.js';
import { byId, download, element, faultList } from './elements.js';
import { atField, FormFault, showProgress } from './messages.js';
import { count } from './numbers.js';
import { setOwnersOfNames } from './owners.js';
import { packed, workedOn } from './service.js';
import { office } from './state.js';

const PATH = '/-/registry/session';
const MOST_BYTES = 4_000_000;
const KINDS = Object.keys(FILES);

// What the form says while there is no session, and of a further export of one.
const NEW = {
  title: 'New session from CSV files',
  about: 'Choose all five files, or drop them here. Nothing is loaded before you have read what is in them.',
  checked: 'Nothing is loaded yet. Read what is in the files, then load them.',
  refused: 'Nothing can be loaded',
  act: 'Load this session …',
  doing: 'Loading the session …',
  failed: 'The session was not loaded.',
};
const FURTHER = {
  title: 'Further export of the CSV files',
  about: 'Titles, names and buildings are brought up to date, and new students get their numbers. Enrolments '
    + 'are sent as late changes. Exams, rooms, periods and rules stay as they are.',
  checked: 'Nothing is changed yet. Read what is in the files.',
  refused: 'Nothing can be brought up to date',
  act: 'Bring names up to date',
  doing: 'Bringing names up to date …',
  failed: 'Nothing was brought up to date.',
};
const wording = () => (office.session ? FURTHER : NEW);

/**
 * The file of each kind by its name, such as exams.csv or Exams-2027.csv.gz, the kinds that are missing or
 * there twice, and the names of other files.
 * @template {{ name: string }} F
 * @param {F[]} files
 */
export function filesByKind(files) {
  const kindOf = ({ name }) => KINDS.find((kind) => name.toLowerCase().startsWith(kind));
  const ofKind = KINDS.map((kind) => files.filter((file) => kindOf(file) === kind));
  return {
    found: Object.fromEntries(KINDS.map((kind, place) => [kind, ofKind[place][0]])),
    missing: KINDS.filter((_, place) => !ofKind[place].length),
    twice: KINDS.filter((_, place) => ofKind[place].length > 1),
    others: files.filter((file) => !kindOf(file)).map(({ name }) => name),
  };
}

/** What is wrong with the choice of files, in words; nothing if all five are there once. */
export function faultOfChoice({ missing, twice, others }) {
  const csv = (kinds) => kinds.map((kind) => `${kind}.csv`).join(', ');
  return [missing.length && `These files are missing: ${csv(missing)}.`,
    twice.length && `There is more than one file for ${csv(twice)}.`,
    others.length && `These are none of the five: ${others.join(', ')}.`].filter(Boolean).join(' ');
}

/** The five files as the body of a request; with the digest of what was checked. */
async function bodyOf(found, checked = null) {
  const body = new FormData();
  let bytes = 0;
  for (const kind of KINDS) {
    const blob = await packed(found[kind]);
    bytes += blob.size;
    body.append(kind, blob, `${kind}.csv.gz`);
  }
  if (bytes > MOST_BYTES) throw new FormFault('These files are too large.', 'csv-files');
  if (checked) body.append('checked', checked);
  return body;
}

// The files that were checked, and their digest.
let last = null;

function showFound({ summary, warnings, digest }, found) {
  last = { digest, found };
  byId('csv-summary').replaceChildren(...summary.map((line) => element('p', {}, line)),
    ...(warnings.length ? [element('h4', {}, 'Warnings'), ...faultList(warnings)] : []));
  byId('csv-preview').hidden = false;
  return wording().checked;
}

async function check() {
  const { found, ...choice } = filesByKind([...byId('csv-files').files]);
  const fault = faultOfChoice(choice);
  if (fault) throw new FormFault(fault, 'csv-files');
  const said = await workedOn('Nothing was checked.', PATH, await bodyOf(found));
  if (!said.faults.length) return showFound(said, found);
  throw new FormFault(`${wording().refused}: ${count(said.faults.length, 'fault')}.`, 'csv-files',
    faultList(said.faults));
}

function hidePreview() {
  byId('csv-preview').hidden = true;
  last = null;
}

/** Loads what was checked, shows it, and gives each exam to its department; or brings names up to date. */
async function loadChecked(load) {
  const { loaded, summary } = await workedOn(wording().failed, PATH, await bodyOf(last.found, last.digest));
  hidePreview();
  byId('csv-session').reset();
  await load();
  if (!loaded) return `${summary.slice(1).join('. ')}.`;
  const owners = office.names.labels?.exams.some(({ department }) => department)
    ? ` ${await setOwnersOfNames()}` : '';
  return `The session is loaded: ${count(loaded.exams, 'exam')}, ${count(loaded.pairs, 'enrolment')}, ${
    count(loaded.periods, 'period')}, ${count(loaded.rooms, 'room')}.${owners}`;
}

/** Shows the form if the registry's service is there; with a session, if it has its ledger. */
export function showSetUp() {
  hidePreview();
  byId('csv-session').hidden = !(office.session ? office.service?.ledger : office.service);
  byId('csv-title').textContent = wording().title;
  byId('csv-about').textContent = wording().about;
  byId('csv-load').textContent = wording().act;
}

/** A button for each kind of file, which gives one that has its columns and no line. */
const emptyFiles = () => KINDS.map((kind) => {
  const made = element('button', { type: 'button' }, `${kind}.csv`);
  made.addEventListener('click', () => download(`${kind}.csv`, 'text/csv', csvText([FILES[kind]])));
  return made;
});

/** Sets up the form; `load` reads everything again. */
export function setUpSetUp(load) {
  byId('csv-empty').append(...emptyFiles());
  byId('csv-session').addEventListener('submit', (event) => {
    event.preventDefault();
    hidePreview();
    showProgress('Checking the files …', () => atField('csv-files', check), event.submitter);
  });
  byId('csv-files').addEventListener('change', hidePreview);
  const loading = () => showProgress(wording().doing, () => loadChecked(load), byId('csv-session'));
  byId('csv-load').addEventListener('click', () => (office.session ? loading() : confirmFirst(
    'Load this session?', [element('p', {},
      'It can be loaded only once: exams, rooms and periods stay as they are.')], 'Load', loading)));
}
