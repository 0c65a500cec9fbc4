// Texts of the office about a session and a timetable, as values.

/**
 * @typedef {import('./state.js').Session} Session
 * @typedef {import('./state.js').Use} Use
 */

const fieldsOf = (line) => line.split(',').map((field) => field.trim());

/**
 * A session's exams (minutes and candidates), periods, rooms, spread, penalties and weights, and its lines
 * without candidates.
 * @returns {Session}
 */
export function sessionIn(text) {
  const lines = (section) => section.split('\r\n').slice(0, -1).map(fieldsOf);
  const [exams, periods, rooms, , , weights] = text.split(/^\[.*\]\r\n/m).slice(1).map(lines);
  return {
    minutes: exams.map(([minutes]) => Number(minutes)),
    candidates: exams.map(([, ...students]) => students.map(Number)),
    periods: periods.map(([date, start, minutes]) => (
      { date: date.split(':').reverse().join('-'), start, minutes: Number(minutes) })),
    capacities: rooms.map(([capacity]) => Number(capacity)),
    spread: Number(weights.find(([word]) => word === 'PERIODSPREAD')?.[1] ?? 0),
    penalties: { periods: periods.map((fields) => Number(fields[3])),
      rooms: rooms.map((fields) => Number(fields[1])) },
    weights: Object.fromEntries(weights.map(([word, ...numbers]) => [word, numbers.map(Number)])),
    frame: text.split('\r\n').slice(0, -1).map((line, number) => (
      number > 0 && number <= exams.length ? line.split(',', 1)[0] : line)),
  };
}

/**
 * The rooms in use in a rooms report, with their exams and the number of seats taken.
 * @returns {Use[]}
 */
export function usesIn(report) {
  return report.trimEnd().split('\n').slice(1).map((line) => {
    const [period, room, used, capacity, ...exams] = line.trim().split(/\s+/).map(Number);
    return { period, room, used, capacity, exams };
  });
}

/**
 * The rooms in use in a draft, with their exams and the number of seats needed.
 * @returns {Use[]}
 */
export function usesOf(places, session) {
  const uses = new Map();
  for (const { exam, period, room } of places.filter((place) => place.period !== null)) {
    const use = uses.get(`${period} ${room}`)
      ?? { period, room, used: 0, capacity: session.capacities[room], exams: [] };
    use.exams.push(exam);
    use.used += session.candidates[exam].length;
    uses.set(`${period} ${room}`, use);
  }
  return [...uses.values()];
}
