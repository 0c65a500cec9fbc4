// The form for late changes: a file of the university's own. The registry's service says what it would do,
// and sends it after somebody has looked. Without a ledger the office gets the file as it is.
import { change } from './asking.js';
import { ACTIONS, COLUMNS } from './columns.js';
import { moment } from './dates.js';
import { byId, element } from './elements.js';
import { fillInverse } from './history.js';
import { atField, FormFault, showProgress } from './messages.js';
import { count, numeral } from './numbers.js';
import { effectText, KINDS, showPlan } from './preview.js';
import { faultsOf, packed, workedOn } from './service.js';
import { office } from './state.js';

const PATH = '/-/registry/changes';
const MOST_BYTES = 4_000_000;

/** Proposes a number of nine digits: year, month, day, hour and minute; always above the last one. */
function proposedNumber(last) {
  const now = new Date();
  const two = (number) => `${number}`.padStart(2, '0');
  const proposed = Number(`${now.getFullYear() % 10}${[now.getMonth() + 1, now.getDate(),
    now.getHours(), now.getMinutes()].map(two).join('')}`);
  return Math.max(proposed, last + 1);
}

/** The field that has the lines: the file if one is chosen, else the text. */
const fieldOfLines = () => (byId('batch-file').files[0] ? 'batch-file' : 'batch-lines');

function forget() {
  office.batch.checked = null;
  byId('batch-preview').hidden = true;
}

function reset() {
  byId('batch-number').defaultValue = proposedNumber(office.batch.last);
  byId('batch').reset();
  forget();
}

/** The file that is chosen, or the lines that are pasted, as one. */
function givenFile() {
  const file = byId('batch-file').files[0];
  const pasted = byId('batch-lines').value;
  if (Boolean(file) === Boolean(pasted)) {
    throw new FormFault(file ? 'Choose a file or paste lines, not both.'
      : 'Choose a file, or paste lines.', 'batch-lines');
  }
  return file ?? new Blob([`${pasted.trimEnd()}\n`]);
}

function chosenKind() {
  const kind = Object.keys(KINDS).find((one) => byId(`batch-${one}`).checked);
  if (!kind) throw new FormFault('Say first which it is: changes, or the whole list.', 'batch-changes');
  return kind;
}

// ---- Checking

/** The reply of the service on a file. */
async function replyOn(words, kind, file, more = {}) {
  const body = new FormData();
  const content = await packed(file);
  if (content.size > MOST_BYTES) throw new FormFault('This file is too large.', fieldOfLines());
  body.append('kind', kind);
  for (const [name, values] of Object.entries(more)) {
    for (const value of [values].flat()) body.append(name, value);
  }
  body.append('file', content, 'late.csv');
  return workedOn(words, PATH, body);
}

async function check() {
  forget();
  const kind = chosenKind();
  const file = givenFile();
  const draft = office.timetables[0]?.number;
  const plan = await replyOn('Nothing was checked.', kind, file, draft ? { draft } : {}).catch(throwFault);
  if (plan.faults) {
    throw new FormFault(`Nothing was sent: ${count(plan.count, 'fault')}.`, fieldOfLines(), faultsOf(plan));
  }
  office.batch.checked = { kind, file, plan };
  showPlan(plan, office);
  byId('batch-send').focus();
  return `Checked. Nothing is sent yet. ${effectText(plan)}`;
}

// ---- Sending

/** Which guards somebody has looked at: all, or a fault at the first one that isn't ticked. */
function agreedTo({ guards }) {
  const open = guards.find(({ name }) => !byId(`guard-${name}`).checked);
  if (open) throw new FormFault('Look at this first, and tick it.', `guard-${open.name}`);
  return guards.map(({ name }) => name);
}

/** What others sent since a plan was made, and a button that plans again. */
function otherPlan({ since }) {
  const again = element('button', { type: 'button' }, 'Check again');
  again.addEventListener('click', () => byId('batch-check').click());
  return new FormFault('Nothing was sent: it would do something else by now.', fieldOfLines(), [
    ...since.map(({ number, by, at, added, dropped }) => element('p', {}, `${by} sent batch ${number} on `,
      moment(new Date(at)), `: ${numeral(added ?? 0)} added, ${numeral(dropped ?? 0)} dropped.`)),
    element('p', {}, again)]);
}

/** Throws a refusal as a fault of the field that it is about. */
function throwFault(refusal) {
  if (refusal.error === 'plan-differs') throw otherPlan(refusal.answer);
  const field = refusal.error === 'batch-differs' ? 'batch-number' : fieldOfLines();
  return atField(field, () => { throw refusal; });
}

const acceptedText = (batches, { added, dropped, unchanged }) => `${batches.length > 1
  ? `${batches.length} batches from ${batches[0]} on are` : `Batch ${batches[0]} is`} accepted: ${
  numeral(added)} added, ${numeral(dropped)} dropped, ${numeral(unchanged)} unchanged.`;

function offerInverse(batches) {
  byId('batch-inverse').hidden = !batches.length;
  byId('batch-inverse').textContent = `Reverse batch ${batches[0]} …`;
  byId('batch-inverse').onclick = () => showProgress('Reading the batch …', async () => {
    reset();
    await fillInverse(batches);
    byId('batch-lines').focus();
    return 'The lines that take it back are in the form. Check them, then send them.';
  }, byId('batch-check'));
}

async function send(load) {
  const { kind, file, plan } = office.batch.checked;
  const { digest, turn } = plan;
  const more = { digest, turn, number: byId('batch-number').value, agreed: agreedTo(plan) };
  const { sent, said } = await replyOn('Nothing was sent.', kind, file, more).catch(throwFault);
  office.batch.last = Math.max(office.batch.last, ...sent.batches);
  reset();
  await load();
  offerInverse(sent.batches);
  byId('status').focus();
  return [...said.map((line) => `Left from before: ${line}.`),
    sent.new && `${count(sent.new, 'new student')}.`,
    sent.batches.length && acceptedText(sent.batches, sent)].filter(Boolean).join(' ')
    || 'There was nothing to send.';
}

/** Sends a file in the office's own form. */
async function sendAsItIs(load) {
  const number = Number(byId('batch-number').value);
  const file = givenFile();
  const done = await change(`Batch ${number} was refused.`, `/batches/${number}`, 'PUT', file)
    .catch(throwFault);
  office.batch.last = Math.max(office.batch.last, number);
  reset();
  await load();
  byId('status').focus();
  return acceptedText([number], done);
}

// ---- The form

/** Shows the form for a session with a ledger or without. */
export function showLateForm() {
  const hasLedger = Boolean(office.service?.ledger);
  for (const id of ['batch-kinds', 'batch-format', 'batch-columns']) byId(id).hidden = !hasLedger;
  byId('batch-plain').hidden = hasLedger;
  byId('batch-check').textContent = hasLedger ? 'Check' : 'Send as it is';
  if (!hasLedger) byId('batch-inverse').hidden = true;
}

const listed = (names) => Object.entries(names).flatMap(([name, others]) => [
  element('dt', {}, name), element('dd', {}, others.filter((one) => one !== name).join(', '))]);

/** Sets up the form; `load` reads everything again. */
export function setUpLateChanges(load) {
  byId('batch-columns').querySelector('dl').replaceChildren(...listed(COLUMNS), ...listed(ACTIONS));
  byId('batch').addEventListener('input', forget);
  byId('batch').addEventListener('submit', (event) => {
    event.preventDefault();
    if (office.service?.ledger) showProgress('Reading the file …', check, byId('batch-check'));
    else showProgress('Sending the file …', () => sendAsItIs(load), byId('batch-check'));
  });
  byId('batch-send').addEventListener('click', () => showProgress(
    `Sending batch ${byId('batch-number').value} …`, () => send(load), byId('batch-check')));
  reset();
}
