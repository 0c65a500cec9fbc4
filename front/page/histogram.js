// The gaps between a candidate's exams, as a table that is a histogram: a row for each gap.
import { cell, element, listTable, rowHead } from './elements.js';
import { gapsOf, MOST_GAP, placesIn, seatedIn } from './layout.js';
import { numeral } from './numbers.js';
import { office } from './state.js';

/** The gaps of a timetable: of those who have a seat in the publication, of those enrolled in a draft. */
function gapsIn(timetable) {
  const enrolled = office.session?.candidates ?? [];
  const candidates = timetable.number ? enrolled : seatedIn(office.seats ?? [], enrolled.length);
  return gapsOf(placesIn(timetable), candidates);
}

function bar(times, most) {
  const filled = element('span');
  filled.style.inlineSize = `${most ? (100 * times) / most : 0}%`;
  return element('span', { class: 'bar', 'aria-hidden': 'true' }, filled);
}

/** The histogram of these timetables beside each other, as elements. */
export function histogramOf(timetables) {
  const gaps = timetables.map(gapsIn);
  const most = Math.max(1, ...gaps.flat());
  const spread = office.session?.spread ?? 0;
  const rows = gaps[0].map((_, gap) => [
    rowHead(gap === MOST_GAP ? `${gap} or more` : `${gap}`),
    ...gaps.map((those) => cell(numeral(those[gap]), bar(those[gap], most)))]);
  const [table] = listTable('How many periods after an exam a candidate has the next one',
    ['Periods', ...timetables.map(({ name }) => name)], rows);
  table.classList.add('gaps');
  table.querySelectorAll('tbody tr')[spread]?.classList.add('limit');
  return [table, element('p', { class: 'quiet' }, spread
    ? `The line is the limit of the period spread: a gap of 1 to ${spread} costs points.`
    : 'This session has no limit for the period spread.')];
}
