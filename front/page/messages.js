// What a page says of its work: while it does it, when it is done, and what went wrong.
import { Refusal } from './asking.js';
import { moment } from './dates.js';
import { byId, element } from './elements.js';
import { refusalText } from './refusals.js';
import { office } from './state.js';

/** A fault in a form: what is wrong, with which of its fields, and details as elements. */
export class FormFault extends Error {
  /**
   * @param {string} message
   * @param {string} field the field's id
   * @param {Node[]} details
   */
  constructor(message, field, details = []) {
    super(message);
    this.field = field;
    this.details = details;
  }
}

/** Does the work; a refusal of the office becomes a fault of this field. */
export async function atField(field, work) {
  try {
    return await work();
  } catch (fault) {
    throw fault instanceof Refusal
      ? new FormFault(refusalText(fault, office.names), field, fault.details) : fault;
  }
}

/** Puts the page's messages after the control that causes them; without one, at the top of the page. */
function placeMessages(at) {
  const messages = byId('messages');
  if (!at) byId('main').prepend(messages);
  else (at.closest('.buttons') ?? at.closest('.fields > p') ?? at).after(messages);
}

/** Marks a field as wrong, with words below it, and puts the focus there. */
function showFieldError(id, message) {
  const field = byId(id);
  const words = element('p', { id: `${id}-error`, class: 'field-error' }, message);
  field.after(words);
  field.setAttribute('aria-invalid', 'true');
  field.dataset.describedby = field.getAttribute('aria-describedby') ?? '';
  field.setAttribute('aria-describedby', `${field.dataset.describedby} ${words.id}`.trim());
  field.focus();
}

function clearFieldErrors() {
  for (const words of document.querySelectorAll('.field-error')) {
    const field = byId(words.id.replace(/-error$/, ''));
    field.removeAttribute('aria-invalid');
    if (field.dataset.describedby) field.setAttribute('aria-describedby', field.dataset.describedby);
    else field.removeAttribute('aria-describedby');
    words.remove();
  }
}

// Whoever opens a page that isn't for them gets a link to their own.
function linkToOwnPage({ rule }) {
  return ['P1', 'P2', 'P4', 'department'].includes(rule)
    ? [element('p', {}, element('a', { href: '/' }, 'Go to your own page'))] : [];
}

/** A fault in words; one that nobody expected goes to the console too. */
function wordsOf(fault) {
  if (fault instanceof Refusal) return refusalText(fault, office.names);
  if (fault instanceof FormFault) return fault.message;
  console.error(fault);
  return 'Something went wrong on this page. Please reload it.';
}

function showFault(fault) {
  const message = wordsOf(fault);
  byId('error').replaceChildren(element('p', {}, message), ...(fault.details ?? []), ...linkToOwnPage(fault));
  if (fault.field) showFieldError(fault.field, message);
  else byId('error').scrollIntoView({ block: 'nearest' });
}

/**
 * Says what is done, and after a second for how long. A screen reader doesn't read the seconds.
 * @param {string} words
 */
function progressLine(words) {
  const began = Date.now();
  const seconds = element('span', { 'aria-hidden': 'true' });
  /** @param {string} next */
  const say = (next) => byId('status').replaceChildren(`${next} `, seconds);
  say(words);
  const timer = setInterval(() => {
    seconds.textContent = `${Math.floor((Date.now() - began) / 1000)} s`;
  }, 1000);
  return { say, stop: () => clearInterval(timer) };
}

/**
 * Does the work, and shows what it returns, or why it failed, after the control that caused it.
 * @param {string} words what is said meanwhile
 * @param {(say: (words: string) => void) => Promise<string> | string} work it may say which step it is at
 * @param {Element | null} at
 */
export async function showProgress(words, work, at = null) {
  placeMessages(at);
  const line = progressLine(words);
  byId('error').replaceChildren();
  clearFieldErrors();
  document.body.setAttribute('aria-busy', 'true');
  try {
    byId('status').textContent = await work(line.say);
    byId('as-of').replaceChildren('As of ', moment(new Date()));
  } catch (fault) {
    byId('status').textContent = '';
    showFault(fault);
  }
  line.stop();
  document.body.removeAttribute('aria-busy');
}
