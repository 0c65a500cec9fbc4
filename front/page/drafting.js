// The form that makes a draft, from a solution file or empty.
import { change } from './asking.js';
import { byId, element } from './elements.js';
import { atField, showProgress } from './messages.js';
import { office } from './state.js';

const NUMBERS = [1, 2, 3, 4, 5, 6, 7, 8];

async function makeDraft(load) {
  const number = byId('draft-number').value;
  await change(`Draft ${number} was not made.`, `/drafts/${number}`, 'PUT',
    byId('draft-file').files[0] ?? '');
  byId('draft').reset();
  await load();
  byId('status').focus();
  return `Draft ${number} is made.`;
}

/** Sets up the form; `load` reads everything again. */
export function setUpDraftForm(load) {
  byId('draft').addEventListener('submit', (event) => {
    event.preventDefault();
    showProgress('Making the draft …', () => atField('draft-file', () => makeDraft(load)), byId('draft'));
  });
}

/** Shows the form while there is a session and a free number. */
export function showDraftForm() {
  const taken = office.timetables.map(({ number }) => number);
  const free = NUMBERS.filter((number) => !taken.includes(number));
  byId('draft').hidden = !office.session || !free.length;
  byId('draft-number').replaceChildren(
    ...free.map((number) => element('option', { value: number }, `Draft ${number}`)));
}
