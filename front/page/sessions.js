// The page that lists the sessions of this front.
import { ask, readUser } from './asking.js';
import { byId, element } from './elements.js';
import { showProgress } from './messages.js';
import { count } from './numbers.js';

showProgress('Loading the sessions …', async () => {
  await readUser();
  const sessions = (await ask('/labels/sessions.json'))?.sessions ?? [];
  byId('sessions').replaceChildren(...sessions.map(({ title, address }) => element('li', {},
    element('a', { href: address }, title))));
  return sessions.length ? count(sessions.length, 'session') : 'No session is listed.';
});
