// The list of where an exam can go: a line for each period, which opens its rooms. One line is a tab stop;
// arrows go between them, and the digits of a day, then of a period of that day, lead there.
import { byId, element } from './elements.js';
import { count } from './numbers.js';
import { periodsInOrder, periodTyped, pointsText } from './places.js';

/**
 * @typedef {import('./places.js').Option} Option
 * @typedef {import('./places.js').Period} Period
 *
 * What the list is of: an exam's periods, and the draft's points now; words; what is done with a place that
 * is chosen, and with one that is looked at.
 * @typedef {{ label: string, periods: Period[], points: number, order: string,
 *   dates: { date: string }[], period: (period: number) => string, room: (room: number) => string,
 *   roomInFull: (room: number) => string, why: (option: Option) => string, act: (option: Option) => void,
 *   show: (place: { period: number, room: number }) => void }} List
 */

const below = (...words) => element('span', { class: 'below' }, ...words);

/** A button that puts the exam into a place; one that can be looked at only, if there is none. */
function placeButton(option, { act, show }, place, ...words) {
  const made = element('button', { type: 'button', class: 'place', tabindex: -1,
    'aria-disabled': option ? null : 'true' }, ...words);
  // The second click of a double click was meant for what was there before.
  made.addEventListener('click', ({ detail }) => option && detail < 2 && act(option));
  for (const name of ['focus', 'mouseenter']) made.addEventListener(name, () => show(place));
  return made;
}

function roomItem(option, list) {
  const isFree = option.points !== null;
  return element('li', {}, placeButton(isFree ? option : null, list, option,
    element('b', {}, list.roomInFull(option.room)),
    below(isFree ? pointsText(option.points, list.points) : list.why(option))));
}

const roomItems = ({ rooms }, list) => rooms.map((option) => roomItem(option, list));

/** The button that shows the rooms of a period. */
function roomsButton(period, list) {
  const words = count(period.free, 'room');
  const button = element('button', { type: 'button', class: 'rooms', tabindex: -1, 'aria-expanded': 'false',
    'aria-label': `${words} free, ${list.period(period.period)}` }, words);
  button.addEventListener('click', () => {
    const isOpen = button.getAttribute('aria-expanded') === 'true';
    button.setAttribute('aria-expanded', `${!isOpen}`);
    if (isOpen) button.nextElementSibling?.remove();
    else button.after(element('ul', {}, roomItems(period, list)));
  });
  return button;
}

function textOf({ best, fault }, list) {
  if (!best) return fault ? list.why(fault) : 'no other room';
  return `${pointsText(best.points, list.points)}, ${list.room(best.room)}`;
}

function periodItem(period, list) {
  const { best, rooms, isHere } = period;
  const place = best ?? { period: period.period, room: -1 };
  return element('li', { 'data-period': period.period }, placeButton(best, list, place,
    element('b', {}, list.period(period.period), isHere && ' (now)'), below(textOf(period, list))),
  rooms.length > 0 && roomsButton(period, list));
}

// ---- Keys

/** Makes a button of the list its tab stop; the button of the rooms beside it is one too. */
function stopAt(made, button) {
  for (const old of made.querySelectorAll('[tabindex="0"]')) old.setAttribute('tabindex', '-1');
  button.setAttribute('tabindex', '0');
  const beside = button.nextElementSibling;
  if (beside?.matches('.rooms')) beside.setAttribute('tabindex', '0');
}

// Digits that come later than this begin again, in milliseconds.
const TYPING = 3_000;

function listen(made, { dates }) {
  let [typed, last] = ['', 0];
  made.addEventListener('focusin', (event) => {
    if (event.target.matches('.place')) stopAt(made, event.target);
  });
  made.addEventListener('keydown', (event) => {
    const buttons = [...made.querySelectorAll('.place')];
    const item = event.target.closest('li[data-period]');
    const line = item.querySelector('.place');
    const rooms = item.querySelector('.rooms');
    const at = buttons.indexOf(event.target.matches('.place') ? event.target : line);
    const isOpen = rooms?.matches('[aria-expanded="true"]');
    if (!/^\d$/.test(event.key)) typed = '';
    else typed = (event.timeStamp < last + TYPING ? typed : '') + event.key;
    last = event.timeStamp;
    const period = typed && periodTyped(typed, dates);
    const to = {
      ArrowDown: () => buttons[at + 1], ArrowUp: () => buttons[at - 1],
      Home: () => buttons[0], End: () => buttons.at(-1),
      ArrowRight: () => {
        if (rooms && !isOpen) rooms.click();
        return item.querySelector(':scope ul .place');
      },
      ArrowLeft: () => {
        if (isOpen) rooms.click();
        return line;
      },
    }[event.key]?.() ?? (typed && made.querySelector(`[data-period="${period}"] > .place`));
    if (to) to.focus();
    else if (!typed) return;
    event.preventDefault();
  });
}

/**
 * Shows the list in an element, with the order that is chosen; returns it.
 * @param {Element} parent
 * @param {List} list
 */
export function showPlaceList(parent, list) {
  const made = element('ul', { class: 'place-list', 'aria-label': list.label },
    periodsInOrder(list.periods, list.order).map((period) => periodItem(period, list)));
  const [first] = made.querySelectorAll('.place');
  if (first) stopAt(made, first);
  listen(made, list);
  parent.replaceChildren(made);
  return made;
}

/** Puts the focus on the line of the list that is its tab stop. */
export const focusPlaceList = (id) => byId(id).querySelector('.place[tabindex="0"]')?.focus();
