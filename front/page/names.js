// What a session's numbers are called, and how names are compared in searches.
import { dayInShort, time } from './dates.js';

// Letters that aren't put together of a plain letter and a mark.
const LETTERS = { ł: 'l', ø: 'o', đ: 'd', ð: 'd', þ: 'th', ß: 'ss', æ: 'ae', œ: 'oe', ı: 'i' };

/**
 * A text without capital letters, accents and apostrophes, for searches.
 * @param {string} text
 */
export function fold(text) {
  const plain = text.normalize('NFD').toLowerCase().replace(/[\p{M}'’‘ʼ`´"“”„]/gu, '');
  return plain.replace(/[łøđðþßæœı]/g, (letter) => LETTERS[letter]);
}

const plain = (text) => fold(text.trim()).replace(/^0+(?=\d+$)/, '');

/**
 * The number of what has this ID or code, or null. Capital and small letters, and zeros that a spreadsheet
 * took, don't matter if only one is alike.
 * @param {{text: string, number: number}[]} known
 * @param {string} text
 */
export function numberOf(known, text) {
  const alike = known.filter((one) => plain(one.text) === plain(text));
  const exact = alike.find((one) => one.text === text.trim());
  return (exact ?? (alike.length === 1 ? alike[0] : null))?.number ?? null;
}

/** Names of exams and rooms: those of the labels, or numbers if there are none. */
export class Names {
  constructor(labels = null) {
    this.labels = labels;
    /** @type {{number: number, id: string, name: string, exams?: number[]}[]} */
    this.students = [];
    /**
     * Enrolments that were changed here, and not by a list of the student system.
     * @type {{student: number, exam: number, action: string, at: string, by: string}[]}
     */
    this.here = [];
  }

  /** What the university calls an exam: its code, or "Exam 0". */
  exam(number) {
    return this.labels?.exams[number].code ?? `Exam ${number}`;
  }

  /** An exam's code, or its number. */
  code(number) {
    return this.labels?.exams[number]?.code ?? number;
  }

  examTitle(number) {
    return this.labels?.exams[number].title || null;
  }

  department(number) {
    const department = this.labels?.exams[number].department ?? null;
    return department === null ? null : this.labels.departments[department] ?? `${department}`;
  }

  minutes(number) {
    return this.labels?.exams[number].minutes ?? null;
  }

  room(number) {
    return this.labels?.rooms[number].name ?? `Room ${number}`;
  }

  building(number) {
    return this.labels?.rooms[number].building || null;
  }

  roomInBuilding(number) {
    return [this.room(number), this.building(number)].filter(Boolean).join(', ');
  }

  /** A period's day and start, or "Period 0". */
  period(number) {
    const period = this.labels?.periods[number];
    return period ? `${dayInShort(period.date).textContent}, ${time(period.start).textContent}`
      : `Period ${number}`;
  }

  /** A place in words, amid a sentence. */
  place({ period, room }) {
    if (period === null) return 'not placed';
    return this.labels ? `${this.period(period)}, ${this.roomInBuilding(room)}`
      : `period ${period}, room ${room}`;
  }
}
