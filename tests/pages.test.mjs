// The pages' functions that need no browser: `node --test tests/pages.test.mjs` runs these tables.
import assert from 'node:assert/strict';
import { webcrypto } from 'node:crypto';
import { readFileSync } from 'node:fs';
import test from 'node:test';

// Node has no navigator before its version 21, and no crypto as a global before 19.
globalThis.navigator ??= { languages: ['en-GB'] };
globalThis.crypto ??= webcrypto;
const { calendarText } = await import('../front/page/calendar.js');
const { csvText } = await import('../front/page/csv.js');
const { overlapsOf, pointsInWords } = await import('../front/page/conflicts.js');
const { countsOf, findingsIn, obstaclesOf } = await import('../front/page/findings.js');
const { addressed } = await import('../front/page/sections.js');
const {
  daysOfCandidate, daysOfPeriods, differingPlaces, gapsOf, loadOf, roomsInOrder, seatedIn, shadeOf, stepIn,
} = await import('../front/page/layout.js');
const { penaltyOf, pointsAfter } = await import('../front/page/points.js');
const { sessionIn } = await import('../front/page/session.js');
const {
  differences, differencesForCandidate, differencesForDepartment, faultsOfNames, isSealed,
} = await import('../front/page/labels.js');
const { fold, Names, numberOf } = await import('../front/page/names.js');
const { batchesWith, changesIn, eventsOf, inverseText } = await import('../front/page/history.js');
const { kindsText, sizeText, wantedIn } = await import('../front/page/lists.js');
const { People } = await import('../front/page/seats.js');
const { faultOfChoice, filesByKind } = await import('../front/page/setup.js');
const { examsWith } = await import('../front/page/tables.js');
const { effectText } = await import('../front/page/preview.js');
const {
  editOf, requestOf, stepOf, stepText, strayOf,
} = await import('../front/page/edits.js');
const { reversed, Steps } = await import('../front/page/steps.js');
const {
  differenceMark, differenceText, forbidText, optionsIn, periodsInOrder, periodsOf, periodTyped, seatsLeft,
  sharedByPeriod,
} = await import('../front/page/places.js');

const LABELS = {
  departments: { 1: 'Mathematics' },
  exams: [{ code: 'MATH101', title: 'Calculus', minutes: 120, department: 1 },
    { code: 'PHYS102', title: '', minutes: 60, department: null }],
  rooms: [{ name: 'Hall', building: 'Main', capacity: 3 }, { name: 'Lab', building: '', capacity: 2 }],
  periods: [{ date: '2005-04-15', start: '09:30:00' }, { date: '2005-04-18', start: '14:00:00' }],
};
const SESSION = { candidates: [[1, 2], [1]], minutes: [120, 60], capacities: [3, 2],
  periods: LABELS.periods };
const STUDENTS = [{ number: 12, id: 's12', name: "D'Angelo, Chloë" },
  { number: 3, id: 's3', name: 'Bo Łukasz' }, { number: 2, id: '0000002', name: '' }];

/** A copy of the labels with one field of one row changed. */
const changed = (table, row, field, value) => ({ ...LABELS,
  [table]: LABELS[table].map((it, i) => (i === row ? { ...it, [field]: value } : it)) });

/** A test for each case: its name, what is expected, and what there is. */
function cases(about, table) {
  for (const [name, expected, found] of table) {
    test(`${about}: ${name}`, () => assert.deepEqual(found(), expected));
  }
}

/** The names of a session, with students and with what was changed here. */
const namesOf = (students, here = []) => Object.assign(new Names(LABELS), { students, here });
const KNOWN = namesOf(STUDENTS);
const HEADER = 'student,exam,action\n';

const MARKS = [['García', 'garcia'], ['OBrien', 'obrien'], ["O'Neill", 'oneill'], ['O’Neill', 'oneill'],
  ['Łukasiewicz', 'lukasiewicz'], ['Großmann', 'grossmann'], ['Nguye\u0302\u0303n', 'nguyen'],
  ['李', '李']];

cases('who is who', [
  ...MARKS.map(([name, words]) => [`${name} without marks`, words, () => fold(name)]),
  ['one ID that lost its zeros, two that are alike, and capital letters', [2, 7, null, null, 12],
    () => ['2', '07', '7', '5', ' S12'].map((text) => numberOf([
      { number: 2, text: '0000002' }, { number: 7, text: '07' }, { number: 8, text: '007' },
      { number: 12, text: 's12' }], text))],
]);

const breachOf = (rule, exam, other) => ({ rule, exam, other });
const TOGETHER = [breachOf('Clash', 0, 1)];

const ALIKE = new Names({ ...LABELS, exams: ['ENG 101.2 of MA 101', 'Élan', 'MA 101']
  .map((code) => ({ code, title: "O’Neill's", minutes: 60, department: null })) });
const examsFound = (words) => examsWith(words, [0, 1, 2].map((exam) => ({ exam, room: null })), ALIKE)
  .map(({ exam }) => exam);

cases('exams that are looked for', [
  ['the one with this code first', [2, 0], () => examsFound('ma 101')],
  ['without accents', [1], () => examsFound('elan')],
  ['with another apostrophe', [0, 1, 2], () => examsFound("O'Neills")],
]);

const read = (text) => text.split(' ').map((line) => line.split(','))
  .map(([student, exam, action]) => ({ student: Number(student), exam: Number(exam), action }));
const planOf = (kind, counts) => effectText({ kind, counts: {
  added: 0, dropped: 0, students_dropped: 0, new: 0, already: 0, kept: 0, ...counts } });

cases('what changes do', [
  ['the opposite, the last one first', `${HEADER}0000002,PHYS102,add\ns3,PHYS102,drop\ns12,MATH101,drop\n`,
    () => inverseText(read('12,0,add 3,1,add 2,1,drop'), KNOWN)],
  ['a list that drops', 'The whole list: drops 8,661 enrolments of 2,140 students, adds 1 enrolment.',
    () => planOf('list', { added: 1, dropped: 8661, students_dropped: 2140 })],
  ['lines with all that there is', 'Changes: drops 1 enrolment of 1 student, adds 2 enrolments, enters 1 new '
    + 'student; 3 so already; 4 kept as changed here.',
  () => planOf('changes', { added: 2, dropped: 1, students_dropped: 1, new: 1, already: 3, kept: 4 })],
  ['nothing', 'The whole list: changes nothing.', () => planOf('list', {})],
]);

cases('CSV', [
  ['a text for spreadsheets', '\ufeffa,"b;c"\r\n1,"say ""x"""\r\n,2\r\n',
    () => csvText([['a', 'b;c'], [1, 'say "x"'], [null, 2]])],
  // Each of these would run as a formula without the apostrophe in front.
  ...[['=1+1', "'=1+1"], ["+1+cmd|' /C calc'!A0", "'+1+cmd|' /C calc'!A0"], ['@SUM(1)', "'@SUM(1)"],
    ['-2+3', "'-2+3"], ['\t=1', "'\t=1"], ['＝1', "'＝1"], ['="a,b"', '"\'=""a,b"""'],
  ].map(([field, text]) => [`the formula ${field}`, `\ufeff${text}\r\n`, () => csvText([[field]])]),
  ['what is no formula', '\ufeff"O\'Neill, Al",-5,7,a=b,,-3,\r\n',
    () => csvText([["O'Neill, Al", -5, 7, 'a=b', null, '-3', '']])],
]);

/** An exam from a start on, on the first day or on another. */
const timed = (start, minutes, date = '2027-05-18') => ({ date, start: `${start}:00`, minutes });
const [MORNING, SAME, LATER] = [timed('09:00', 120), timed('09:00', 60), timed('14:00', 120)];
const POINTLESS = 'No points for the exams in which you have a seat.';

cases('exams at one time', [
  ['the same start', 1, () => overlapsOf([MORNING, SAME, LATER]).length],
  ['one begins before the other ends', 1, () => overlapsOf([MORNING, timed('10:59', 60)]).length],
  ['one begins when the other ends', 0, () => overlapsOf([MORNING, timed('11:00', 60)]).length],
  ['another day', 0, () => overlapsOf([MORNING, timed('09:00', 120, '2027-05-19')]).length],
  ['no lengths', 1, () => overlapsOf([timed('09:00', null), timed('09:00', null), LATER]).length],
  ['points', '1 point for the exams in which you have a seat. Fewer is better.',
    () => pointsInWords(1, [MORNING, SAME])],
  ['no points, and an overlap',
    'Two of your exams overlap. Points count only exams in which you have a seat.',
    () => pointsInWords(0, [MORNING, SAME])],
  ['no points, and two exams on one day', POINTLESS, () => pointsInWords(0, [MORNING, LATER])],
  ['no points at all', 'No points: no two of your exams are on one day.',
    () => pointsInWords(0, [MORNING, timed('09:00', 120, '2027-05-19')])],
]);

// Periods 0 and 1 overlap, 2 is later on that day, 3 on another one. Exams 0 and 1 are in period 0, exam 2
// in period 1, exam 3 in 2, all in a room of 3 seats but for exam 2; exam 4 has no place.
const WHERE = new Map([[0, 0], [1, 0], [2, 1], [3, 2]].map(([exam, period]) => (
  [exam, { period, room: exam === 2 ? 1 : 0 }])));
const BUSY = { candidates: [[1, 2], [1, 5], [1, 2, 4], [1, 3], [1]], capacities: [3, 9],
  periods: [MORNING, timed('10:00', 120), LATER, timed('09:00', 120, '2027-05-19')] };
const WITHOUT = [{ student: 5, exam: 1 }];
const DAY_OF_1 = [['three', [0, 1, 2, 3], 1]];
const inShort = (findings) => findings.map(({ kind, exams, student, needed }) => (
  [kind, exams, ...(student === undefined ? [] : [student]), ...(needed === undefined ? [] : [needed])]));
const draftOf = (...breaches) => ({ breaches, unplaced: [4] });
const FOUND = [...TOGETHER, breachOf('Capacity', 0, 0), breachOf('Capacity', 1, 1)];
const ofPublication = (breaches) => findingsIn({ breaches, unplaced: [] }, WHERE, BUSY, () => '', WITHOUT);
const ACROSS = [['overlap', [0, 2], 1], ['overlap', [1, 2], 1], ['overlap', [0, 2], 2]];

cases('conflicts', [
  ['of the publication, with today\'s enrolments', [
    ['overlap', [0, 1], 1], ...ACROSS, ['seatless', [1], 5], ['small', [0, 1], 4], ...DAY_OF_1],
  () => inShort(ofPublication(FOUND))],
  ['of a publication of which no breach is found', [...ACROSS, ['seatless', [1], 5], ...DAY_OF_1],
    () => inShort(ofPublication([]))],
  ['of a draft: what the office finds', [['overlap', [0, 1], 1], ...ACROSS, ['small', [0, 1], 4],
    ['unplaced', [4]], ['rule', [3, 0]], ['rule', [2]], ...DAY_OF_1],
  () => inShort(findingsIn(draftOf(breachOf('Clash', 0, 1), breachOf('Capacity', 0, 0),
    breachOf('After', 3, 0), breachOf('Duration', 2, 2)), WHERE, BUSY, () => ''))],
  ['of a draft of which the office finds nothing', [...ACROSS, ['unplaced', [4]], ...DAY_OF_1],
    () => inShort(findingsIn(draftOf(), WHERE, BUSY, () => ''))],
  ['a clash of which nobody is left', [['overlap', [1, 4]]], () => inShort(findingsIn(
    { breaches: [breachOf('Clash', 1, 4)], unplaced: [] }, new Map(),
    { ...BUSY, candidates: [[], [5], [], [], [1]] }, () => ''))],
  ['what stops a publication', [
    ['1 candidate has two exams at one time', '1 room is too small', '2 other rules are broken',
      '1 exam is not placed'], ['1 rule is broken']],
  () => [obstaclesOf(draftOf(breachOf('Clash', 0, 1), breachOf('Capacity', 0, 0), breachOf('After', 3, 0),
    breachOf('Duration', 2, 2)), WHERE, BUSY),
  obstaclesOf({ ...draftOf(breachOf('After', 3, 0)), unplaced: [] }, WHERE, BUSY)]],
  ['how many of a kind', { overlap: 4, seatless: 1, small: 1, unplaced: 0, rule: 0, three: 1 },
    () => countsOf(ofPublication(FOUND))],
]);

const SMALL = readFileSync(new URL('../examples/small.exam', import.meta.url), 'utf8')
  .replace(/\r?\n/g, '\r\n');

cases('a session of the office', [
  ['its numbers', { minutes: [120, 90, 120, 60], candidates: [[1, 2], [2, 3], [3], [1]],
    capacities: [3, 2], spread: 3, periods: [['2005-04-15', '09:30:00', 120],
      ['2005-04-15', '14:00:00', 120], ['2005-04-15', '17:00:00', 90], ['2005-04-18', '09:30:00', 120]] },
  () => {
    const { minutes, candidates, capacities, spread, periods } = sessionIn(SMALL);
    return { minutes, candidates, capacities, spread,
      periods: periods.map(({ date, start, minutes: length }) => [date, start, length]) };
  }],
]);

const use = (period, room, used, ...exams) => ({ period, room, used, capacity: 9, exams });
const [ONE, OTHER] = [[use(0, 0, 2, 1, 0), use(1, 1, 3, 2)], [use(0, 0, 2, 0, 1), use(1, 0, 3, 2)]];

cases('pictures', [
  ['days of periods, as they are numbered', [['2027-05-18', 0, 3], ['2027-05-19', 3, 1]],
    () => daysOfPeriods(BUSY.periods).map(({ date, first, count }) => [date, first, count])],
  ['rooms', [[0, 1, 2, 3], [1, 2, 3, 0], [0, 1, 3, 2]], () => ['list', 'size', 'building'].map((by) => (
    roomsInOrder(by, [1, 9, 5, 5], (room) => ['A', 'B', null, 'B'][room] ?? 'C')))],
  ['shades', [0, 1, 1, 2, 4, 8, 8, 8], () => [[0, 8], [1, 80], [1, 8], [11, 80], [4, 8], [8, 8], [9, 8],
    [1, 0]].map(([used, capacity]) => shadeOf(used, capacity))],
  ['places with other exams', ['1 1', '1 0'], () => [...differingPlaces(ONE, OTHER)]],
  ['candidates of a period', [2, 3, 0], () => loadOf(ONE, 3)],
  ['who has a seat', [[], [7, 8]], () => seatedIn([{ student: 7, exam: 1 }, { student: 8, exam: 1 }], 2)],
  // Student 1 has exams in periods 0, 0, 1 and 2; student 2 in 0 and 1.
  ['gaps', [[0, 1], [1, 3]], () => [...gapsOf(WHERE, BUSY.candidates).entries()].filter(([, n]) => n)],
  ['a long gap', [[16, 1]], () => [...gapsOf(new Map([[0, { period: 1, room: 0 }],
    [1, { period: 99, room: 0 }]]), [[1], [1]]).entries()].filter(([, times]) => times)],
  ['days of a candidate', [['2027-05-18', 2], ['2027-05-19', 0]],
    () => daysOfCandidate([0, 2], BUSY.periods).map(({ date, exams }) => [date, exams])],
  ['keys', [[0, 1], [2, 1], [1, 0], [1, 2], [1, 0], [1, 3], null], () => ['ArrowUp', 'ArrowDown',
    'ArrowLeft', 'ArrowRight', 'Home', 'End', 'a'].map((key) => stepIn(key, [1, 1], 3, 4))],
  ['keys at the edge', [[0, 0], [2, 3]], () => [stepIn('ArrowUp', [0, 0], 3, 4),
    stepIn('ArrowRight', [2, 3], 3, 4)]],
]);

const SECTIONS = ['timetable', 'conflicts', 'seats'];
const TIMETABLES = ['Published', 'Draft 2'];

cases('addresses', [
  ['#conflicts/draft-2/17', ['conflicts', 'Draft 2', 17]], ['#conflicts', ['conflicts', null, null]],
  ['#timetable/published', ['timetable', 'Published', null]], ['#draft-2', ['timetable', 'Draft 2', null]],
  ['#timetable/draft-3/x', ['timetable', null, null]], ['#late', [null, null, null]],
  ['', [null, null, null]], ['#main', [null, null, null]],
].map(([hash, expected]) => [hash, expected, () => {
  const { section, timetable, exam } = addressed(hash, SECTIONS, TIMETABLES);
  return [section, timetable, exam];
}]));

const EVENT = { uid: 'u', date: '2005-12-31', start: '23:30:00', location: '', minutes: 60,
  summary: `${'é'.repeat(40)},;\\\n` };
const ends = (name) => ['BEGIN', 'END'].map((word) => `${word}:${name}`);

cases('calendars', [
  // The first line of the summary has 8 bytes and 33 letters of two bytes; one more would make 76.
  ['over midnight, a long name, signs that have a meaning', [
    ends('VCALENDAR')[0], 'VERSION:2.0', 'PRODID:-//examoffice//candidate//EN', ends('VEVENT')[0],
    'UID:u', 'DTSTAMP:19700101T000000Z', 'DTSTART:20051231T233000', 'DTEND:20060101T003000',
    `SUMMARY:${'é'.repeat(33)}`, ` ${'é'.repeat(7)}\\,\\;\\\\\\n`, 'LOCATION:', ends('VEVENT')[1],
    ends('VCALENDAR')[1], ''], () => calendarText([EVENT], new Date(0)).split('\r\n')],
  ['lines of 75 bytes, and of one more', [`SUMMARY:${'a'.repeat(67)}`, `SUMMARY:${'a'.repeat(67)}`, ' b'],
    () => ['', 'b'].flatMap((more) => calendarText(
      [{ ...EVENT, summary: 'a'.repeat(67) + more }], new Date(0)).split('\r\n').filter(
      (line) => /^SUMMARY|^ /.test(line)))],
  ['ends of lines of all kinds', ['SUMMARY:a\\nb\\nc\\nd'], () => calendarText(
    [{ ...EVENT, summary: 'a\rb\nc\r\nd' }], new Date(0)).split(/[\r\n]+/).filter(
    (line) => line.startsWith('SUMMARY') || !line.includes(':') && line)],
  ['no minutes, no end', false,
    () => calendarText([{ ...EVENT, minutes: null }], new Date(0)).includes('DTEND')],
]);

const ROW = { exam: 1, room: 1, period: 1, date: '2005-04-18', start: '14:00:00' };
const UNDATED = { exam: 1, room: null, period: null, date: null, start: null };
const DRAFT = { places: [{ period: 0, room: 1 }, { period: null, room: null }] };
const few = { ...LABELS, exams: LABELS.exams.slice(1), rooms: [], periods: [] };

cases('names of another session', [
  // Labels, and what differs for the office, for a candidate and for a department.
  ['the same', LABELS, [], [], []],
  ['other rooms', changed('rooms', 1, 'capacity', 1), ['rooms'], [], []],
  ['other minutes', changed('exams', 1, 'minutes', 61), ['exams'], [], []],
  ['another date', changed('periods', 1, 'date', '2005-04-19'), ['periods'], ['periods'], []],
  ['another start', changed('periods', 1, 'start', '14:30:00'), ['periods'], ['periods'], []],
  ['fewer', few, ['exams', 'rooms', 'periods'], ['exams', 'rooms', 'periods'],
    ['exams', 'rooms', 'periods']],
].map(([name, labels, ...expected]) => [name, expected, () => [differences(labels, SESSION),
  differencesForCandidate(labels, [ROW, UNDATED]), differencesForDepartment(labels, DRAFT)]]));

// Two exams of six candidates, of which the first has 1 to 6 and the second 7 to 12, and one of 300.
const numbersFrom = (first, count) => [...Array(count).keys()].map((number) => first + number);
const TAKING = [numbersFrom(1, 6), numbersFrom(7, 6), numbersFrom(100, 300)];
const FRAME = ['[Exams:3]', '60', '60', '60'];
const fileOf = (taking) => ({ ledger: 'a', session: FRAME, students: numbersFrom(1, 400).map((number) => (
  { number, exams: [...taking.keys()].filter((exam) => taking[exam].includes(number)) })) });
const HELD = { frame: FRAME, candidates: TAKING };
const CODES = { ledger: 'a', exams: [{ code: 'A' }, { code: 'B' }, { code: 'C' }] };
const without = (exam, count) => TAKING.map((taking, i) => (i === exam ? taking.slice(count) : taking));

cases('what ties names to a session', [
  ['the same', [], CODES, fileOf(TAKING), HELD],
  ['labels that were changed', ['labels.json was changed by hand'], { ...CODES, isSealed: false },
    fileOf(TAKING), HELD],
  ['students that were changed', ['students.json was changed by hand'], CODES,
    { ...fileOf(TAKING), isSealed: false }, HELD],
  ['another state', ['labels.json and students.json were not made together'], CODES,
    { ...fileOf(TAKING), ledger: 'b' }, HELD],
  ['another rule',
    ['the exams, periods, rooms or rules of these names are those of another session'], CODES,
    fileOf(TAKING), { ...HELD, frame: [...FRAME, '0, AFTER, 1'] }],
  // Of 312 enrolments 5 % are 15.6.
  ['15 that are gone', [], CODES, fileOf(TAKING), { ...HELD, candidates: without(2, 15) }],
  ['16 that are gone', ['only 296 of 312 enrolments of these names are in the office, so they are of '
    + 'another session'], CODES, fileOf(TAKING), { ...HELD, candidates: without(2, 16) }],
  ['any number that came', [], CODES, fileOf(without(2, 200)), HELD],
  ['two exams exchanged', ['the office has other candidates in A, B than these names say'], CODES,
    fileOf([TAKING[1], TAKING[0], TAKING[2]]), { ...HELD, candidates: TAKING }],
  ['no students', [], CODES, null, HELD],
  ['no ledger', [], { exams: [] }, { students: [] }, HELD],
].map(([name, expected, ...given]) => [name, expected, () => faultsOfNames(...given)]));

test('the digest of a file is that of its lines', async () => {
  const text = readFileSync(new URL('../front/labels/students.json', import.meta.url), 'utf8');
  const found = [text, text.replace('Ada Archer', 'Ada Adams'), text.replace(/"digest".*/, '"a": 1}'),
    text.replace(/("digest": "[^"]*)[0-9a-f]"/, '$1"'), '{"digest": ""}'].map(isSealed);
  assert.deepEqual(await Promise.all(found), [true, false, false, false, null]);
});

const named = new Names(LABELS);
const numbered = new Names();

cases('names and numbers', [
  ['an exam', ['MATH101', 'Calculus', 'Mathematics', 120],
    () => [named.exam(0), named.examTitle(0), named.department(0), named.minutes(0)]],
  ['an exam without a title or a department', ['PHYS102', null, null],
    () => [named.exam(1), named.examTitle(1), named.department(1)]],
  ['rooms', ['Hall, Main', 'Lab'], () => [0, 1].map((room) => named.roomInBuilding(room))],
  ['numbers', ['Exam 0', null, null, 'Room 1', 'Period 1', 'period 1, room 0', 'not placed'],
    () => [numbered.exam(0), numbered.examTitle(0), numbered.minutes(0), numbered.room(1),
      numbered.period(1), numbered.place({ period: 1, room: 0 }),
      named.place({ period: null, room: null })]],
]);

// Publication 1 gave Chloë a seat, which publication 2 took away; in between the exam was moved.
const AT = (hour) => `2027-05-14T${hour}:00:00Z`;
const HAPPENED = {
  publications: [{ number: 2, at: AT('12'), by: 'ben', draft: 1, points: 44, seats: 5, changed: 2 },
    { number: 1, at: AT('08'), by: 'ada', draft: null, points: 1, seats: 6, changed: 6 }],
  edits: [{ at: AT('10'), by: 'ada', what: 'moved', draft: 3, exam: 0, other: null,
    body: '{"period":9,"room":1' }, { at: AT('11'), by: 'ada', what: 'published', draft: 1 }],
  batches: [{ number: 5, at: AT('09'), by: 'cleo', source: 'page', added: 1, dropped: 0, unchanged: 2,
    points: { published: [3, 3], 1: [37, 38] }, has_opposite: true,
    lines: [{ student: 12, exam: 1, action: 'add' }] }],
};
const told = (more, names = new Names()) => eventsOf({ ...HAPPENED, ...more }, names, new People(STUDENTS))
  .map(({ by, words }) => `${by}: ${words}`);
// The SHA-256 of no bytes.
const DIGEST = 'e3b0c44298fc1c149afbf4c8996fb92427ae41e4649b934ca495991b7852b855';
const ONE_SEAT = { exam: 0, period: 0, room: 0, seat: 3 };

cases('what happened', [
  ['all, the last one first', ['ben: Draft 1 published: publication 2, 44 points, 2 seats changed',
    'ada: MATH101 moved, in draft 3', 'cleo: Batch 5, from this page: 1 added, 0 dropped, 2 unchanged. '
    + 'PHYS102 of D\'Angelo, Chloë added. draft 1: 37 to 38 points',
    'ada: A timetable was published: publication 1, 1 point, 6 seats changed'], () => told({}, KNOWN)],
  ['owners', ['ada: MATH101 given to no department',
    'ben: Exams given to their owners, PHYS102 the last one', 'ada: PHYS102 given to Mathematics'],
  () => told({ publications: [], batches: [], edits: [
    ['ada', 0, 0], ['ben', 1, 1], ['ben', 0, 1], ['ben', 0, 0], ['ada', 1, 1]].map(([by, exam, dept]) => ({
    at: AT('10'), by, what: 'owner', draft: null, exam, other: null, body: `{"dept":${dept}}` })) }, KNOWN)],
  ['to a candidate', ['ben: Exam 0: no seat any more (publication 2)',
    'ada: Exam 0: seat 3, period 0, room 0 (publication 1)'],
  () => told({ edits: [], batches: [], seats: [{ ...ONE_SEAT, first: 1, last: 1 }] })],
  ['a seat that became another', 2, () => told({ edits: [], batches: [], seats: [
    { ...ONE_SEAT, first: 1, last: 1 }, { ...ONE_SEAT, seat: 4, first: 2, last: null }] }).length],
  ['to an exam that stayed', ['ada: period 1, room 1 (publication 1)'],
    () => told({ edits: [], batches: [], places: [1, 2].map((publication) => (
      { publication, period: 1, room: 1 })) })],
  ['changed seats', [{ student: 1, exam: 3, was: { period: 2, room: 0, seat: 1 }, is: null }],
    () => changesIn({ seats: [{ student: 1, exam: 3, from: [2, 0, 1], to: null }] })],
  ['batches by the first digits of their digest', [[2], [2], [], []], () => [
    DIGEST, 'E3B0C44298FC', 'e3b0c44298f', '3b0c44298fc1'].map((words) => batchesWith(
    [{ number: 1, digest: null }, { number: 2, digest: DIGEST }], words).map(({ number }) => number))],
]);

const ALL_KINDS = ['door', 'attendance', 'labels-3x7', 'labels-3x8', 'exams', 'days'];

cases('lists to print', [
  ['what the form asks for', [{ kinds: ['door'], paper: 'a4' },
    { kinds: ALL_KINDS, day: '2027-05-14', start: '09:30', paper: 'letter' },
    { kinds: ['days'], building: 'Main building', paper: 'a4' }],
  () => [['door', '', 'a4'], ['all', '{"day":"2027-05-14","start":"09:30"}', 'letter'],
    ['days', '{"building":"Main building"}', 'a4']].map((form) => wantedIn(...form))],
  ['what is made', ['All lists', 'Door lists, Timetable by exam'],
    () => [ALL_KINDS, ['door', 'exams']].map(kindsText)],
  ['sizes', ['1 kB', '1,000 kB', '1 MB', '14.3 MB'], () => [1, 999_001, 1e6, 14_260_000].map(sizeText)],
]);

const FIVE = ['exams.csv', 'Rooms 2027.csv', 'periods.csv', 'Enrolments-spring.CSV', 'rules.csv.gz'];
const choiceOf = (...names) => faultOfChoice(filesByKind(names.map((name) => ({ name }))));

cases('the files of a new session', [
  ['by what their names begin with', FIVE,
    () => Object.values(filesByKind(FIVE.map((name) => ({ name }))).found).map(({ name }) => name)],
  ['what is wrong with a choice', ['', 'These files are missing: rooms.csv, rules.csv.',
    'There is more than one file for exams.csv. These are none of the five: notes.csv.'],
  () => [choiceOf(...FIVE), choiceOf('exams.csv', 'periods.csv', 'enrolments.csv'),
    choiceOf(...FIVE, 'exams-old.csv', 'notes.csv')]],
]);

// Where exam 3 of the small example can go; it is in period 2, room 0.
const PLACES = ['period,room,penalty,rule,exam,other', '0,0,,Clash,0,3', '0,1,,Clash,0,3', '1,0,39,,,',
  '1,1,36,,,', '2,0,37,,,', '2,1,44,,,', '3,0,27,,,', '3,1,44,,,', ''].join('\n');
const AT_2_0 = { period: 2, room: 0 };
// Rooms of 650, 40 and 30 seats; in period 1 the room of 40 has an exam of 15.
const LEFT = seatsLeft([{ exam: 0, period: 1, room: 1 }, { exam: 1, period: null, room: null }], [15, 9],
  [650, 40, 30]);
const SAME_POINTS = ['', ...[0, 1].flatMap((period) => [0, 1, 2].map((room) => `${period},${room},7,,,`)),
  '2,0,7,,,', '2,1,8,,,', '2,2,8,,,', ''].join('\n');
const noSeats = () => 0;
const shownOf = (text, here, left = noSeats) => periodsOf(optionsIn(text), here, left).map(
  ({ period, best, free, isHere, fault, rooms }) => (
    [period, best && [best.room, best.points], free, isHere, fault?.rule ?? '', rooms.length]));
const full = (...lines) => ['', ...lines].join('\n');
const THREE_DAYS = ['2027-05-09', '2027-05-09', '2027-05-18', '2027-05-18', '2027-05-18', '2027-06-01']
  .map((date) => ({ date }));
const EXAM = ['A', 'B', 'C', 'D', 'E', 'F'];
const why = (rule, exams, exam, shared) => forbidText({ period: 0, room: 0, points: null, rule, exams }, exam,
  (one) => EXAM[one], shared);

cases('where an exam can go', [
  ['a free place, and one that a rule forbids', [
    { period: 0, room: 0, points: null, rule: 'Clash', exams: [0, 3] },
    { period: 3, room: 0, points: 27, rule: '', exams: [] }],
  () => [0, 6].map((at) => optionsIn(PLACES)[at])],
  ['by period', [[0, null, 0, false, 'Clash', 0], [1, [1, 36], 2, false, '', 2],
    [2, [1, 44], 1, true, '', 2], [3, [0, 27], 2, false, '', 2]], () => shownOf(PLACES, AT_2_0)],
  ['by points, by time, and without points', [[3, 1, 2, 0], [0, 1, 2, 3], [0, 1]],
    () => [[PLACES, 'points'], [PLACES, 'time'], [full('0,0,,Clash,0,1', '1,0,,Clash,0,1'), 'points']]
      .map(([text, by]) => periodsInOrder(periodsOf(optionsIn(text), AT_2_0, noSeats), by)
        .map(({ period }) => period))],
  ['what forbids a period: a rule that no room keeps, before one that another room keeps',
    [[0, null, 0, false, 'After', 0], [1, null, 0, false, 'Capacity', 2]],
    () => shownOf(full('0,0,,Capacity,1,1', '0,1,,After,1,0', '1,0,,Capacity,1,1', '1,1,,Capacity,1,1'),
      { period: null, room: null })],
  ['of places with equal points the one with the fewest seats left', [[2, 1, 0], [1, 2, 0], [0, 2, 1]],
    () => periodsOf(optionsIn(SAME_POINTS), { period: null, room: null }, LEFT).map(({ best, rooms }) => {
      assert.equal(best, rooms[0]);
      return rooms.map(({ room }) => room);
    })],
  ['the only place is where it is', [[0, null, 0, true, '', 0]],
    () => shownOf(full('0,0,0,,,'), { period: 0, room: 0 })],
  ['typed days and periods', [0, 1, null, 2, 2, 4, null, 5, null, null],
    () => ['9', '92', '93', '18', '181', '183', '184', '1', '7', '187'].map((typed) => (
      periodTyped(typed, THREE_DAYS)))],
  ['how points differ', ['no change', '10 fewer', '1,007 more'],
    () => [37, 27, 1044].map((points) => differenceText(points, 37))],
  ['in four letters', ['0', '−10', '+999', '+1k', '−99k'],
    () => [37, 27, 1036, 1037, -200_000].map((points) => differenceMark(points, 37))],
  ['what forbids a place', ['the period is too short', 'overlaps with B', 'overlaps with A', 'too few seats',
    'must be after B', 'must be before A', 'must be in the period of B', 'must not be in the period of A',
    'needs the room for itself, and B is there', 'A needs the room for itself', 'Newer'],
  () => [['Duration', [0, 0], 0], ['Clash', [0, 1], 0], ['Clash', [0, 1], 1], ['Capacity', [0, 0], 0],
    ['After', [0, 1], 0], ['After', [0, 1], 1], ['Coincidence', [0, 1], 0], ['Exclusion', [0, 1], 1],
    ['RoomExclusive', [0, 1], 0], ['RoomExclusive', [0, 1], 1], ['Newer', [0, 1], 0]].map(
    ([rule, exams, exam]) => why(rule, exams, exam))],
  ['with whom it overlaps', ['overlaps with C (2 candidates), B (1 candidate)',
    'overlaps with B (5 candidates), C (4 candidates), D (3 candidates) and 2 more exams'],
  () => [why('Clash', [0, 1], 0, [[2, 2], [1, 1]]),
    why('Clash', [0, 1], 0, [[1, 5], [2, 4], [3, 3], [4, 2], [5, 1]])]],
  ['exams with the same candidates, by period', [[1, [[2, 2], [1, 1]]]],
    () => [...sharedByPeriod(0, new Map([[0, { period: 0 }], [1, { period: 1 }], [2, { period: 1 }],
      [3, { period: 2 }]]), [[1, 2], [2], [1, 2], [3], [1]])]],
]);

// A draft with exam 0 in period 0, room 1, exam 1 in period 2, room 0, and exam 2 nowhere.
const DRAFTED = { number: 4, places: [{ exam: 0, period: 0, room: 1 }, { exam: 1, ...AT_2_0 },
  { exam: 2, period: null, room: null }] };
const withMoved = (exam, period, room) => ({ number: 4, places: DRAFTED.places.map((place) => (
  place.exam === exam ? { exam, period, room } : place)) });
const [AT_0_1, AT_3_1, OUT] = [[0, 1], [3, 1], [null, null]].map(([period, room]) => ({ period, room }));
const MOVE = { kind: 'put', exam: 0, ...AT_3_1 };
const SWAP = { kind: 'swap', exam: 0, other: 1 };
const CLEAR = { kind: 'clear', exam: 0 };
const PUT = { kind: 'put', exam: 2, ...AT_3_1 };
const EDITS = [MOVE, SWAP, CLEAR, PUT];
const backOf = (edit) => reversed(stepOf(edit, DRAFTED));

/** What can be undone and redone after some acts: a step is made, undo, redo, or an undo that failed. */
function stepsAfter(...acts) {
  const steps = new Steps();
  for (const act of acts) {
    if (act === 'lost') steps.took(4, 'undo', false);
    else if (typeof act === 'string') steps.took(4, act);
    else steps.made(4, stepOf(act, DRAFTED));
  }
  return ['undo', 'redo'].map((way) => steps.next(4, way) && editOf(steps.next(4, way)));
}

cases('edits', [
  ['their requests', [['/drafts/4/exams/0/move', 'POST', '{"period":3,"room":1}'],
    ['/drafts/4/swap/0/1', 'POST'], ['/drafts/4/exams/0', 'DELETE'],
    ['/drafts/4/exams/2/place', 'POST', '{"period":3,"room":1}']],
  () => EDITS.map((edit) => requestOf(edit, DRAFTED))],
  ['what they move', [[{ exam: 0, from: AT_0_1, to: AT_3_1 }],
    [{ exam: 0, from: AT_0_1, to: AT_2_0 }, { exam: 1, from: AT_2_0, to: AT_0_1 }],
    [{ exam: 0, from: AT_0_1, to: OUT }], [{ exam: 2, from: OUT, to: AT_3_1 }]],
  () => EDITS.map((edit) => stepOf(edit, DRAFTED))],
  ['what takes them back', [{ kind: 'put', exam: 0, ...AT_0_1 }, SWAP, { kind: 'put', exam: 0, ...AT_0_1 },
    { kind: 'clear', exam: 2 }], () => EDITS.map((edit) => editOf(backOf(edit)))],
  ['an exam that is where an edit left it, and others', [undefined, { exam: 0, period: 3, room: 0 },
    { exam: 1, ...AT_2_0 }], () => [[backOf(MOVE), withMoved(0, 3, 1)], [backOf(MOVE), withMoved(0, 3, 0)],
    [backOf(SWAP), withMoved(0, 2, 0)]].map(([step, draft]) => strayOf(step, draft))],
  ['nothing was made', [null, null], () => stepsAfter()],
  ['one was made', [{ kind: 'put', exam: 0, ...AT_0_1 }, null], () => stepsAfter(MOVE)],
  ['one was undone', [{ kind: 'clear', exam: 2 }, MOVE], () => stepsAfter(PUT, MOVE, 'undo')],
  ['and made again', [{ kind: 'put', exam: 0, ...AT_0_1 }, null],
    () => stepsAfter(PUT, MOVE, 'undo', 'redo')],
  ['another one was made instead', [SWAP, null], () => stepsAfter(MOVE, 'undo', SWAP)],
  ['one that was lost', [{ kind: 'clear', exam: 2 }, null], () => stepsAfter(PUT, MOVE, 'lost')],
  ['another draft', null, () => {
    const steps = new Steps();
    steps.made(4, stepOf(MOVE, DRAFTED));
    return steps.next(5, 'undo');
  }],
  ['in words', ['MATH101 back to period 0, room 1', 'swap MATH101 and PHYS102 back',
    'take PHYS102 out again', 'MATH101 to period 3, room 1', 'take MATH101 out', 'swap MATH101 and PHYS102'],
  () => [['undo', MOVE], ['undo', SWAP], ['undo', { ...PUT, exam: 1 }], ['redo', MOVE], ['redo', CLEAR],
    ['redo', SWAP]].map(([way, edit]) => {
    const there = edit.exam === 1 ? { places: DRAFTED.places.map(() => OUT) } : DRAFTED;
    const step = stepOf(edit, there);
    return stepText(way === 'undo' ? reversed(step) : step, way, { exam: (one) => LABELS.exams[one].code,
      place: (place) => numbered.place(place) });
  })],
]);

// The small session, and one with a night between periods 2 and 3; solutions as docs/WORKED.md has them.
const [SMALL_SESSION, NIGHTLY_SESSION] = [SMALL, SMALL.replace('18:04:2005', '16:04:2005')
  .replace('FRONTLOAD', 'OVERNIGHT,6\r\nFRONTLOAD')].map(sessionIn);
const placed = (...places) => new Map(places.flatMap((place, exam) => (
  place ? [[exam, { period: place[0], room: place[1] }]] : [])));
const SOLVED = [[0, 0], [1, 0], [3, 1], [2, 0]];
const LATE = [[3, 0], [1, 0], [3, 1], [2, 0]];
const withOptics = (place) => penaltyOf(placed(...SOLVED.slice(0, 3), place), SMALL_SESSION);
const scoredDraft = (total, places) => ({ penalty: { total },
  places: places.map(([period, room], exam) => ({ exam, period, room })) });
const after = (edit, total) => pointsAfter(stepOf(edit, scoredDraft(total, SOLVED)),
  scoredDraft(total, SOLVED), placed(...SOLVED), SMALL_SESSION);

cases('the points of a timetable', [
  ['exam 3 in each place that is free, and in none', [39, 36, 37, 44, 27, 44, 21],
    () => [[1, 0], [1, 1], [2, 0], [2, 1], [3, 0], [3, 1], null].map(withOptics)],
  ['nothing is placed', 0, () => penaltyOf(new Map(), SMALL_SESSION)],
  ['the largest exam is late', 34, () => penaltyOf(placed(...LATE), SMALL_SESSION)],
  ['over night', 40, () => penaltyOf(placed(...LATE), NIGHTLY_SESSION)],
  ['two durations in one place', 39,
    () => penaltyOf(placed([0, 0], [0, 0], ...SOLVED.slice(2)), SMALL_SESSION)],
  ['after an exam is moved, taken out, or swapped', [27, 21, 39],
    () => [{ kind: 'put', exam: 3, period: 3, room: 0 }, { kind: 'clear', exam: 3 },
      { kind: 'swap', exam: 2, other: 3 }].map((edit) => after(edit, 37))],
  ['the office says other points', null, () => after({ kind: 'clear', exam: 3 }, 38)],
]);
