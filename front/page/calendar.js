// Calendar files (iCalendar, RFC 5545) of a candidate's exams.

const MOST_BYTES = 75;

const escaped = (text) => text.replace(/[\\;,]/g, '\\$&').replace(/\r\n|\r|\n/g, '\\n');

/** A line in pieces of at most 75 bytes; each later piece begins with a space. */
function folded(line) {
  const encoder = new TextEncoder();
  const pieces = [''];
  for (const letter of line) {
    if (encoder.encode(pieces.at(-1) + letter).length > MOST_BYTES) pieces.push(' ');
    pieces[pieces.length - 1] += letter;
  }
  return pieces.join('\r\n');
}

const compact = (date) => date.toISOString().replace(/[-:]|\.\d+/g, '');

// The office's times have no zone, so they are written without one: a calendar shows them unchanged.
const localTime = (date, start, minutes = 0) => (
  compact(new Date(Date.parse(`${date}T${start}Z`) + 60_000 * minutes)).slice(0, -1));

/**
 * Returns a calendar with an event for each of these: uid, date, start, minutes (or null), summary,
 * location. An event with the same uid replaces an earlier one.
 */
export function calendarText(events, stamp) {
  const lines = events.flatMap(({ uid, date, start, minutes, summary, location }) => [
    'BEGIN:VEVENT', `UID:${uid}`, `DTSTAMP:${compact(stamp)}`, `DTSTART:${localTime(date, start)}`,
    ...(minutes ? [`DTEND:${localTime(date, start, minutes)}`] : []),
    `SUMMARY:${escaped(summary)}`, `LOCATION:${escaped(location)}`, 'END:VEVENT']);
  return ['BEGIN:VCALENDAR', 'VERSION:2.0', 'PRODID:-//examoffice//candidate//EN', ...lines,
    'END:VCALENDAR', ''].map(folded).join('\r\n');
}
