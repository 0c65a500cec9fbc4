// All timetables at a glance: a card for each, which opens it, and their penalties by part.
import { concernText, isJudged } from './conflictlist.js';
import { verdict } from './drafts.js';
import { byId, cell, element, listTable, rowHead } from './elements.js';
import { count, numeral } from './numbers.js';
import { addressOf } from './sections.js';
import { office } from './state.js';

/** The published timetable among these, or undefined. */
const publishedOf = (timetables) => timetables.find(({ number }) => number === undefined);

/** How the points of a draft differ from those of the publication, in words. */
export function differenceText(points, published) {
  if (published === undefined) return '';
  if (points === published) return 'as many as published';
  return `${numeral(Math.abs(points - published))} ${points < published ? 'fewer' : 'more'} than published`;
}

function card(timetable) {
  const { name, number, penalty, breaches } = timetable;
  const published = publishedOf(office.timetables)?.penalty.total;
  const concerns = number ? '' : concernText();
  const difference = number ? differenceText(penalty.total, published) : '';
  const link = element('a', { href: addressOf(office.section, name), 'data-of': name },
    element('b', {}, name), ' ', element('span', { class: 'points' }, count(penalty.total, 'point')),
    difference && element('span', { class: 'below' }, difference),
    element('span', { class: number && breaches.length ? 'verdict broken' : 'verdict' },
      number ? verdict(timetable) : 'Candidates see this timetable'),
    concerns && element('span', { class: 'verdict broken' }, concerns),
    !isJudged(timetable) && element('span', { class: 'below' },
      'Rules not checked with today\'s enrolments'));
  return element('li', { class: 'card' }, link);
}

/** Shows the cards, and which timetable is open. */
export function showOverview() {
  byId('cards').replaceChildren(...office.timetables.map(card));
  for (const link of byId('cards').querySelectorAll('a')) {
    if (link.dataset.of === office.open) link.setAttribute('aria-current', 'true');
  }
  showParts();
}

function bar(points, most) {
  const filled = element('span');
  filled.style.inlineSize = `${most ? (100 * points) / most : 0}%`;
  return element('span', { class: 'bar', 'aria-hidden': 'true' }, filled);
}

/** Shows the penalties by part, a column for each timetable. */
function showParts() {
  const { timetables } = office;
  const published = publishedOf(timetables);
  const most = Math.max(0, ...timetables.flatMap(({ penalty }) => penalty.parts.map(([, points]) => points)));
  const less = (points, place, { number = 0 }) => number > 0 && published
    && points !== published.penalty.parts[place][1]
    && element('span', { class: 'below' }, differenceText(points, published.penalty.parts[place][1]));
  const parts = timetables[0]?.penalty.parts ?? [];
  byId('parts').replaceChildren(...listTable('Penalty points by part', ['Part', ...timetables.map(
    ({ name }) => name)], parts.map(([part], place) => [rowHead(part), ...timetables.map((timetable) => {
    const [, points] = timetable.penalty.parts[place];
    return cell(numeral(points), bar(points, most), less(points, place, timetable));
  })])));
}
