// What departments see beside drafts, without people: files that the registry's tools write, with their time.
import { readSealed } from './labels.js';

// In place of a draft's number.
export const PUBLISHED = 0;

/**
 * How many candidates each exam has, and when they were counted; null if that isn't known for these labels.
 * @returns {Promise<{ at: Date, sizes: number[] } | null>}
 */
export async function readSizes(labels) {
  const found = await readSealed('/labels/sizes.json');
  return found && found.isSealed !== false && found.ledger === labels?.ledger
    ? { at: new Date(found.at), sizes: found.sizes } : null;
}

/**
 * The published timetable in the form of a draft, and when it was published; null if there is none.
 * @returns {Promise<import('./drafts.js').Draft & { at: Date } | null>}
 */
export async function readPublished() {
  const found = await readSealed('/labels/published.json');
  return found && { number: PUBLISHED, name: 'Published timetable', at: new Date(found.at),
    penalty: { parts: [], total: found.points }, breaches: [], unplaced: [],
    places: found.places.map(([period, room], exam) => ({ exam, period, room })) };
}
