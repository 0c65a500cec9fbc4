// The registry's service, which runs beside the office: it keeps the session's ledger, and has the program
// judge what the office doesn't.
import { ask, change, Refusal } from './asking.js';
import { byId, faultList } from './elements.js';

/**
 * The service, whether it has a ledger of this session, and what is wrong between that and the office.
 * @typedef {{ ledger: boolean, standing: string[] }} Service
 *
 * A rule, and the two exams that break it.
 * @typedef {{ rule: string, exam: number, other: number }} Breach
 */

/**
 * What the service says of itself; null if it doesn't run.
 * @returns {Promise<Service | null>}
 */
export const readService = () => ask('/-/registry/about');

/**
 * Shows what is wrong between the ledger and the office.
 * @param {Service | null} service
 */
export function showStanding(service) {
  const note = byId('ledger-note');
  note.textContent = (service?.standing ?? []).join('\n');
  note.hidden = !note.textContent;
}

/**
 * Which rules the publication breaks with today's enrolments; null if the service doesn't run, or fails.
 * @param {Service | null} service
 * @returns {Promise<Breach[] | null>}
 */
export async function readBreaches(service) {
  if (!service) return null;
  try {
    return (await ask('/-/registry/breaches')).breaches;
  } catch (refusal) {
    if (refusal instanceof Refusal) return null;
    throw refusal;
  }
}

// Browsers have it since 2023.
const Packing = /** @type {any} */ (globalThis).CompressionStream;

/** A file, compressed, because the front takes only 4 MB. */
export function packed(file) {
  if (!Packing || file.name?.endsWith('.gz')) return file;
  return new Response(file.stream().pipeThrough(new Packing('gzip'))).blob();
}

/** Returns the service's reply on files; asks again as long as it works on them. */
export async function workedOn(words, path, body) {
  let said = await change(words, path, 'POST', body);
  while (said.working) said = await change(words, `${path}/${said.working}`);
  return said;
}

function faultText({ line, column, words }) {
  const place = [line && `line ${line}`, column].filter(Boolean).join(', ');
  const text = `${place}${place && ': '}${words}`;
  return `${text[0].toUpperCase()}${text.slice(1)}`;
}

/** A list of the faults that the service found in a file. */
export const faultsOf = ({ faults, count }) => faultList(faults.map(faultText), count);
