// The sections of the registry's page: each has an address, such as #conflicts/draft-2, and a line in
// the menu.
import { byId } from './elements.js';
import { office } from './state.js';

// The sections that are about one timetable, whose address names it.
const OF_TIMETABLES = ['timetable', 'conflicts'];

/** @returns {HTMLElement[]} */
const sections = () => [...document.querySelectorAll('section[data-section]')].map(
  (found) => /** @type {HTMLElement} */ (found));

const wordOf = (name) => name.toLowerCase().replace(' ', '-');

/** The address of a timetable, or of an exam of it, in a section; of the section, if it isn't about them. */
export const addressOf = (section, name, exam = null) => (
  name && OF_TIMETABLES.includes(section)
    ? `#${section}/${wordOf(name)}${exam === null ? '' : `/${exam}`}` : `#${section}`);

/**
 * The section, the timetable and the exam that an address names, null if it names none that is there.
 * Without a section it is that of timetables, as in addresses of older versions (#draft-2).
 * @param {string} hash
 * @param {string[]} sectionNames
 * @param {string[]} timetables their names
 */
export function addressed(hash, sectionNames, timetables) {
  const [first, second, third] = hash.replace(/^#/, '').split('/');
  const named = (word) => timetables.find((name) => wordOf(name) === word) ?? null;
  const exam = /^\d{1,4}$/.test(third ?? '') ? Number(third) : null;
  if (!sectionNames.includes(first)) {
    return { section: named(first) && 'timetable', timetable: named(first), exam: null };
  }
  return { section: first, timetable: named(second), exam };
}

/** Which sections the office's state allows, the first of them when an address names none. */
function allowed() {
  const { session, timetables, seats, service } = office;
  if (!session) return ['set-up'];
  return [...(timetables.length ? ['timetable', 'conflicts'] : ['set-up']), ...(seats ? ['seats'] : []),
    'late-changes', ...(service?.ledger ? ['history'] : []), ...(timetables.length ? ['set-up'] : [])];
}

/** The section, the timetable and the exam that are to be shown. */
export function wanted() {
  const names = office.timetables.map(({ name }) => name);
  const there = addressed(location.hash, allowed(), names);
  const open = names.find((name) => name === office.open) ?? names[0] ?? null;
  // An address that names nothing, such as the one of the link that skips the menu, changes nothing.
  const section = there.section ?? allowed().find((name) => name === office.section) ?? allowed()[0];
  const isExam = there.exam !== null && there.exam < (office.session?.candidates.length ?? 0);
  return { section, timetable: there.timetable ?? open, exam: isExam ? there.exam : null };
}

/** Shows a section, and the menu of all that there are. */
export function showSection(section) {
  office.section = section;
  const order = allowed();
  for (const one of sections()) one.hidden = one.dataset.section !== section;
  byId('overview').hidden = !OF_TIMETABLES.includes(section);
  byId('menu').hidden = false;
  for (const line of byId('menu').querySelectorAll('li')) {
    const name = line.dataset.to;
    line.hidden = !order.includes(name);
    line.firstElementChild.setAttribute('href', addressOf(name, office.open));
    if (name === section) line.firstElementChild.setAttribute('aria-current', 'page');
    else line.firstElementChild.removeAttribute('aria-current');
  }
  const heading = byId(`${section}-title`);
  document.title = `${heading.textContent} - examination office`;
  return heading;
}
