// Swapping the exam that is being moved with another one: with the points, but the office says only then
// whether a rule forbids it.
import { stepOf } from './edits.js';
import { byId, element } from './elements.js';
import { placesIn } from './layout.js';
import { count } from './numbers.js';
import { pointsText } from './places.js';
import { pointsAfter } from './points.js';
import { office } from './state.js';
import { examsWith } from './tables.js';

/**
 * @typedef {import('./moving.js').Move} Move
 * @typedef {import('./edits.js').Edit} Edit
 */

const MOST_SHOWN = 8;

/**
 * What an edit of the open draft would cost, in words; an empty text if the page can't say.
 * @param {Edit} wanted
 * @param {Move} move
 */
export function costText(wanted, { draft }) {
  const points = office.session
    && pointsAfter(stepOf(wanted, draft), draft, placesIn(draft), office.session);
  return points === null ? '' : pointsText(points, draft.penalty.total);
}

const below = (words) => element('span', { class: 'below' }, words);

/** Lists exams to swap with, which these places are of. */
function showOthers(places, move, act) {
  const { names } = office;
  const there = places.filter(({ exam, period }) => period !== null && exam !== move.exam);
  byId('swap-others').replaceChildren(...there.slice(0, MOST_SHOWN).map((place) => {
    const wanted = { kind: 'swap', exam: move.exam, other: place.exam };
    const button = element('button', { type: 'button', class: 'place' },
      element('b', {}, `Swap with ${names.exam(place.exam)}`), below(names.place(place)),
      below(costText(wanted, move)));
    button.addEventListener('click', ({ detail }) => detail < 2 && act(wanted));
    return element('li', {}, button);
  }));
  const more = there.length - MOST_SHOWN;
  byId('swap-count').textContent = more > 0 ? `and ${count(more, 'more exam')}.`
    : there.length ? '' : 'No other exam with a place is there.';
}

/** Lists the exams in a place of the picture, to swap with. */
export const showSwapsIn = (period, room, move, act) => showOthers(
  move.draft.places.filter((place) => place.period === period && place.room === room), move, act);

/**
 * Shows a search for the other exam in an element.
 * @param {Element} parent
 * @param {Move} move
 * @param {(wanted: Edit) => void} act
 */
export function showSwap(parent, move, act) {
  const field = element('input', { id: 'swap-words', type: 'search', autocomplete: 'off',
    spellcheck: 'false' });
  field.addEventListener('input', () => {
    if (field.value.trim()) showOthers(examsWith(field.value, move.draft.places, office.names), move, act);
  });
  parent.replaceChildren(
    element('div', { class: 'fields' },
      element('p', {}, element('label', { for: 'swap-words' }, 'Swap with'), field)),
    element('p', { class: 'quiet' }, 'Find the other exam here, or choose its cell. The points are shown '
      + 'before, but not whether a rule forbids it.'),
    element('ul', { id: 'swap-others', class: 'place-list' }),
    element('p', { id: 'swap-count', class: 'quiet' }));
  field.focus();
}
