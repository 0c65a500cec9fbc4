// The form that gives exams to departments: by a CSV file, which the registry's service reads, or as the
// names have them.
import { change } from './asking.js';
import { byId } from './elements.js';
import { atField, FormFault, showProgress } from './messages.js';
import { count } from './numbers.js';
import { faultsOf, packed } from './service.js';
import { office } from './state.js';

async function setOwners(owners) {
  for (const [done, { exam, dept }] of owners.entries()) {
    if (done % 50 === 0) byId('status').textContent = `Setting owners: ${done} of ${owners.length} …`;
    await change(`${done} of ${owners.length} owners were set.`, `/exams/${exam}/owner`, 'PUT',
      JSON.stringify({ dept }));
  }
  byId('owners').reset();
  byId('status').focus();
  return `${count(owners.length, 'exam has its owner', 'exams have their owners')}.`;
}

async function setOwnersOfFile() {
  const body = new FormData();
  body.append('file', await packed(byId('owners-file').files[0]), 'owners.csv');
  const found = await change('No owner was set.', '/-/registry/owners', 'POST', body);
  if (found.owners) return setOwners(found.owners);
  throw new FormFault(`No owner was set: ${count(found.count, 'fault')}.`, 'owners-file', faultsOf(found));
}

export const setOwnersOfNames = () => setOwners((office.names.labels?.exams ?? []).map(
  ({ department }, exam) => ({ exam, dept: department ?? 0 })));

export function setUpOwnersForm() {
  byId('owners').addEventListener('submit', (event) => {
    event.preventDefault();
    showProgress('Setting owners …', () => atField('owners-file', setOwnersOfFile), event.submitter);
  });
  byId('owners-labels').addEventListener('click', () => showProgress('Setting owners …', setOwnersOfNames,
    byId('owners-labels')));
}

/** Shows the form while there is a session. */
export function showOwnersForm() {
  byId('owners').hidden = !office.session;
  byId('owners-of-file').hidden = !office.service?.ledger;
  byId('owners-labels').hidden = !office.names.labels;
}
