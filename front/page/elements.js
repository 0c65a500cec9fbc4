// Elements of pages.
import { numeral } from './numbers.js';

const isPresent = (it) => it !== null && it !== undefined && it !== false;

// On a phone the rows of a table are shown as blocks. Some screen readers then no longer take it for a
// table, so its roles are written out.
const ROLES = { table: 'table', thead: 'rowgroup', tbody: 'rowgroup', tr: 'row', td: 'cell' };
/** @type {(name: string, attributes: {scope?: string}) => string|undefined} */
const roleOf = (name, { scope }) => (
  name === 'th' ? `${scope?.startsWith('col') ? 'column' : 'row'}header` : ROLES[name]);

/** Returns a new element, without the attributes and children that are null or false. */
export function element(name, attributes = {}, ...children) {
  const made = document.createElement(name);
  for (const [key, value] of Object.entries({ role: roleOf(name, attributes), ...attributes })) {
    if (isPresent(value)) made.setAttribute(key, value);
  }
  made.append(...children.flat().filter(isPresent));
  return made;
}

/** Replaces what is in an element by these children, without those that are null or false. */
export const fill = (parent, ...children) => parent.replaceChildren(...children.flat().filter(isPresent));

export const row = (...cells) => element('tr', {}, ...cells);
export const cell = (...children) => element('td', {}, ...children);
export const rowHead = (...children) => element('th', { scope: 'row' }, ...children);
export const columnHead = (...children) => element('th', { scope: 'col' }, ...children);
export const small = (...children) => element('span', {}, ...children);
export const unseen = (name, text) => element(name, { class: 'unseen' }, text);

/**
 * An element of the page, which has it; of which kind it is, is said there.
 * @type {(id: string) => any}
 */
export const byId = (id) => document.getElementById(id);

const MOST_ROWS = 200;

/**
 * A table with a caption for screen readers, and how many rows more there would be. On a phone each cell
 * is a line with its column's head.
 * @param {string} caption
 * @param {string[]} heads
 * @param {HTMLElement[][]} rows
 * @param {number} total if these are only the first rows
 */
export function listTable(caption, heads, rows, total = rows.length) {
  const more = total - Math.min(rows.length, MOST_ROWS);
  const lines = rows.slice(0, MOST_ROWS).map((cells) => {
    for (const [place, made] of cells.entries()) made.dataset.label = heads[place];
    return row(cells);
  });
  const table = element('table', { class: 'places' }, unseen('caption', caption),
    element('thead', {}, row(heads.map((head) => columnHead(head)))), element('tbody', {}, lines));
  return [table, ...(more > 0 ? [element('p', { class: 'quiet' }, `and ${numeral(more)} more.`)] : [])];
}

const MOST_FAULTS_SHOWN = 20;

/** Returns a list of the first faults, and how many more there are. */
export function faultList(faults, total = faults.length) {
  const more = total - Math.min(faults.length, MOST_FAULTS_SHOWN);
  return [
    element('ul', {}, faults.slice(0, MOST_FAULTS_SHOWN).map((fault) => element('li', {}, fault))),
    ...(more > 0 ? [element('p', {}, `and ${more} more.`)] : [])];
}

/** Offers a text to the reader as a file. */
export function download(name, type, text) {
  const href = URL.createObjectURL(new Blob([text], { type }));
  element('a', { href, download: name }).click();
  setTimeout(() => URL.revokeObjectURL(href), 60_000);
}
