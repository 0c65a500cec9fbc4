// Dates and times in the reader's language.
import { element } from './elements.js';
import { language } from './numbers.js';

function dateFormat(options) {
  const format = new Intl.DateTimeFormat(language, options);
  const { locale } = format.resolvedOptions();
  return Object.assign((moment) => format.format(moment), { language: locale });
}

// The office's days and times have no time zone, so they are shown unchanged.
const longDay = dateFormat({ dateStyle: 'full', timeZone: 'UTC' });
const shortDay = dateFormat({ weekday: 'short', day: 'numeric', month: 'short', timeZone: 'UTC' });
const weekday = dateFormat({ weekday: 'short', timeZone: 'UTC' });
const shortTime = dateFormat({ timeStyle: 'short', timeZone: 'UTC' });
const now = dateFormat({ dateStyle: 'long', timeStyle: 'short' });

function timeElement(format, value, moment) {
  return element('time', { datetime: value, lang: format.language }, format(moment));
}

export const day = (date) => timeElement(longDay, date, new Date(`${date}T00:00:00Z`));
export const dayInShort = (date) => timeElement(shortDay, date, new Date(`${date}T00:00:00Z`));
export const shortWeekday = (date) => weekday(new Date(`${date}T00:00:00Z`));
export const time = (start) => timeElement(shortTime, start, new Date(`2000-01-01T${start}Z`));

/** The time n minutes after a start. */
export function endTime(start, minutes) {
  const end = new Date(Date.parse(`2000-01-01T${start}Z`) + 60_000 * minutes);
  return time(end.toISOString().slice(11, 19));
}

export const moment = (date) => timeElement(now, date.toISOString(), date);
