// Publishing and dropping the draft that is open; both ask first.
import { ask, change, Refusal } from './asking.js';
import { confirmFirst } from './confirm.js';
import { changesBetween, verdict } from './drafts.js';
import { byId, element } from './elements.js';
import { obstaclesOf } from './findings.js';
import { placesIn } from './layout.js';
import { showProgress } from './messages.js';
import { count } from './numbers.js';
import { offerChanges, readSeats } from './seats.js';
import { addressOf } from './sections.js';
import { office, openTimetable } from './state.js';

const FIRST = 'All candidates get seats, and see the timetable at once.';
const REPLACES = 'It replaces the published timetable, and all candidates see it at once. '
  + 'Candidates whose room and period stay the same keep their seats.';

/** Whether the office would publish a draft. */
export const isPublishable = ({ breaches, unplaced }) => !breaches.length && !unplaced.length;

/** Shows whether the open draft can be published, or what stops it, with a way there. */
export function showPublishing(timetable) {
  const { number, name } = timetable;
  const isStopped = Boolean(number) && !isPublishable(timetable);
  byId('publish').hidden = !number;
  byId('drop').hidden = !number;
  byId('publish').disabled = isStopped;
  byId('publish-stops').hidden = !isStopped;
  if (!isStopped || !office.session) return;
  const obstacles = obstaclesOf(timetable, placesIn(timetable), office.session);
  byId('publish-stops').replaceChildren(`This draft can't be published: ${obstacles.join(', ')}. `,
    element('a', { href: addressOf('conflicts', name) }, 'Show the conflicts'));
}

/**
 * Sets up the buttons; `reread` reads one draft again, and `load` everything.
 * @param {(number: number) => Promise<import('./drafts.js').Draft>} reread
 * @param {() => Promise<string>} load
 */
export function setUpPublishing(reread, load) {
  /** Reads the draft again before it asks, so that nothing is published unseen. */
  async function askToPublish(seen) {
    const found = await reread(seen.number);
    const changes = changesBetween(seen, found, office.names);
    const { number, name } = found;
    if (!isPublishable(found)) {
      throw new Refusal(409, {}, `${name} has changed since you looked. It can't be published now: ${
        verdict(found).toLowerCase()}.`);
    }
    const isFirst = (await ask('/-/publication/penalty')).publication === null;
    confirmFirst(`Publish draft ${number}?`, [changes,
      element('p', {}, `${isFirst ? FIRST : REPLACES} This can't be undone.`),
      isFirst ? [] : element('p', {}, element('a', { href: '/publication', download: 'publication.sol' },
        'Download the published timetable'), ' first, to keep a copy.'),
    ].flat(), `Publish draft ${number}`, () => showProgress(`Publishing ${name} …`,
      (say) => publish(found, (step) => say(`Publishing ${name}, ${step} …`)), byId('publish')));
    return `${name} has ${count(found.penalty.total, 'point')}.`;
  }

  async function publish(confirmed, say) {
    const { number } = confirmed;
    say('1 of 4: reading it again');
    if (changesBetween(confirmed, await reread(number), office.names).length) {
      return askToPublish(confirmed);
    }
    say('2 of 4: reading the seats before');
    const before = await readSeats();
    say('3 of 4: giving seats');
    const answer = await change(`Draft ${number} was not published.`,
      `/drafts/${number}/publish`, 'POST');
    say('4 of 4: reading what changed');
    await load();
    await offerChanges(confirmed.name, before, office);
    byId('status').focus();
    const candidates = count(answer.changed, 'candidate');
    return `Draft ${answer.draft} is published; the seats of ${candidates} have changed.`;
  }

  function askToDrop() {
    const { name, number } = openTimetable() ?? {};
    confirmFirst(`Drop draft ${number}?`, [element('p', {}, 'Its places are lost. This can\'t be undone: '
      + 'download its solution first, to keep a copy.')], `Drop draft ${number}`, () => showProgress(
      `Dropping ${name} …`, async () => {
        await ask(`/drafts/${number}`, 'DELETE');
        office.steps.forget(Number(number));
        await load();
        byId('status').focus();
        return `${name} is dropped.`;
      }, byId('drop')));
  }

  byId('publish').addEventListener('click', () => {
    const seen = openTimetable();
    showProgress(`Reading ${seen?.name} again …`, () => askToPublish(seen), byId('publish'));
  });
  byId('drop').addEventListener('click', askToDrop);
}
