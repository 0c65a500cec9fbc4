// What the registry's page reads of the office, into its state.
import { ask, askOrNull } from './asking.js';
import { penaltyIn, readAgain } from './drafts.js';
import { readSeats } from './seats.js';
import { readBreaches } from './service.js';
import { sessionIn, usesIn } from './session.js';
import { office } from './state.js';

/** Reads the session with today's enrolments; returns its text, or null. */
export async function readSession() {
  const text = await askOrNull('not-loaded', '/instance');
  office.session = text ? sessionIn(text) : null;
  return text;
}

/**
 * Reads the published timetable and its seats, while the service has it judged; returns the timetable, or
 * null.
 * @returns {Promise<import('./state.js').Published | null>}
 */
export async function readPublished() {
  const report = await ask('/-/publication/penalty');
  const isThere = report.publication !== null;
  const judging = isThere ? readBreaches(office.service) : null;
  const uses = isThere ? usesIn(await ask('/publication/rooms')) : [];
  office.seats = isThere ? await readSeats() : null;
  const breaches = await judging;
  return isThere ? { name: 'Published', penalty: penaltyIn(report), breaches: breaches ?? [],
    isJudged: breaches !== null, uses, unplaced: [] } : null;
}

/** Keeps a draft as it was read last. */
export function keepDraft(found) {
  office.timetables = office.timetables.map((old) => (old.number === found.number ? found : old));
}

/**
 * Reads a draft and the enrolments again.
 * @returns {Promise<import('./drafts.js').Draft>}
 */
export async function rereadDraft(number) {
  const found = await readAgain(number);
  await readSession();
  keepDraft(found);
  return found;
}

/** Reads the publication and the enrolments again; returns the publication. */
export async function rereadPublished() {
  const found = await readPublished();
  await readSession();
  office.timetables = office.timetables.map((old) => (old.number || !found ? old : found));
  return office.timetables.find(({ number }) => !number);
}
