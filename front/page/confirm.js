// The dialog that asks before what can't be undone.
import { byId } from './elements.js';

/** Asks with this title and these elements; acts on a yes. */
export function confirmFirst(title, text, yes, act) {
  byId('confirm-title').textContent = title;
  byId('confirm-text').replaceChildren(...text);
  byId('confirm-yes').textContent = yes;
  const dialog = byId('confirm');
  dialog.returnValue = 'no';
  dialog.onclose = () => dialog.returnValue === 'yes' && act();
  dialog.showModal();
}
