// The form that loads a session.
import { change } from './asking.js';
import { byId } from './elements.js';
import { atField, showProgress } from './messages.js';
import { count } from './numbers.js';

/** Sets up the form; `load` reads everything again. */
export function setUpSessionForm(load) {
  byId('session').addEventListener('submit', (event) => {
    event.preventDefault();
    showProgress('Loading the session …', () => atField('session-file', async () => {
      const made = await change('The session was not loaded.', '/instance', 'PUT',
        byId('session-file').files[0]);
      byId('session').reset();
      await load();
      return `The session is loaded: ${count(made.exams, 'exam')}, ${count(made.pairs, 'enrolment')}, ${
        count(made.periods, 'period')}, ${count(made.rooms, 'room')}.`;
    }), byId('session'));
  });
}
