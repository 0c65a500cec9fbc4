// Asking the office.
import { byId } from './elements.js';

/**
 * @typedef {{ error?: string, rule?: string, exam?: number, other?: number, line?: number,
 *   fault?: number }} Answer
 */

/**
 * A refusal, or no answer at all (status 0). Words in place of the answer, words before and after it, and
 * details, which are elements, are for the reader.
 */
export class Refusal extends Error {
  /**
   * @param {number} status
   * @param {Answer} answer
   * @param {string} words
   * @param {Node[]} details
   */
  constructor(status, answer, words = '', details = []) {
    super(words || answer.error || `${status}`);
    this.status = status;
    this.answer = answer;
    this.error = answer.error;
    this.rule = answer.rule;
    this.words = words;
    this.before = '';
    this.after = '';
    this.details = details;
  }
}

/** Returns the office's answer: an object or a text. */
export async function ask(path, method = 'GET', body = undefined) {
  let reply, text;
  try {
    reply = await fetch(new URL(path, location.origin), { method, body, cache: 'no-store' });
    text = await reply.text();
  } catch {
    throw new Refusal(0, {});
  }
  const isJson = reply.headers.get('Content-Type')?.startsWith('application/json');
  const answer = isJson ? JSON.parse(text) : text;
  if (!reply.ok) throw new Refusal(reply.status, isJson ? answer : {});
  return answer;
}

/** Like `ask`, but returns null on a refusal with this error. */
export async function askOrNull(error, path) {
  try {
    return await ask(path);
  } catch (refusal) {
    if (refusal.error === error) return null;
    throw refusal;
  }
}

/** Like `ask`, for a change; puts these words before a refusal's. */
export async function change(words, ...question) {
  try {
    return await ask(...question);
  } catch (refusal) {
    if (refusal.error === 'unavailable') refusal.after = 'First look whether your change is there.';
    else if (refusal.status) refusal.before = words;
    throw refusal;
  }
}

/** Signs the reader out by a request that only a page of the front can send. */
async function signOut(path) {
  await fetch(path, { method: 'POST', redirect: 'manual' });
  window.location.replace('/signed-out.html');
}

/** Shows who is signed in, and the button that signs out, if the front has one; returns who the reader is to
 * the office. */
export async function readUser() {
  const user = await ask('/-/user');
  byId('user').textContent = user.user ? `Signed in as ${user.user}` : '';
  byId('sign-out').hidden = !user.sign_out;
  byId('sign-out').onclick = () => signOut(user.sign_out);
  return user.caller;
}
