// Whose accounts others tried to sign in to. The agent keeps that, and only the registry reads it here.
import { ask } from './asking.js';
import { byId, element } from './elements.js';

/** Shows the accounts with the most wrong passwords of the last days; nothing if nobody keeps them. */
export async function showSignIns() {
  const found = /** @type {{ sign_ins: string[] } | null} */ (await ask('/-/sign-ins'));
  byId('sign-ins').hidden = !found?.sign_ins.length;
  byId('sign-ins-found').replaceChildren(...(found?.sign_ins ?? []).map((line) => element('li', {}, line)));
}
