// The edits of a page that can be taken back, and those that were.

/**
 * @typedef {{ period: number | null, room: number | null }} Place
 *
 * What an edit did: which exams it moved, from where to where.
 * @typedef {{ exam: number, from: Place, to: Place }[]} Step
 */

/**
 * The step that takes one back.
 * @param {Step} step
 * @returns {Step}
 */
export const reversed = (step) => step.map(({ exam, from, to }) => ({ exam, from: to, to: from }));

/** The steps of a page in each draft: those that can be taken back, and those that were. */
export class Steps {
  constructor() {
    /** @type {Map<number, { undo: Step[], redo: Step[] }>} */
    this.drafts = new Map();
  }

  of(draft) {
    const found = this.drafts.get(draft) ?? { undo: [], redo: [] };
    this.drafts.set(draft, found);
    return found;
  }

  /** Notes a step that was made. */
  made(draft, step) {
    const steps = this.of(draft);
    steps.undo.push(step);
    steps.redo = [];
  }

  /**
   * The step that undo or redo would make in a draft, or null.
   * @param {number} draft
   * @param {'undo' | 'redo'} way
   */
  next(draft, way) {
    const last = this.of(draft)[way].at(-1);
    return last ? (way === 'undo' ? reversed(last) : last) : null;
  }

  /** Notes that undo or redo was made; or, if an exam has moved meanwhile, that it can't be. */
  took(draft, way, isMade = true) {
    const steps = this.of(draft);
    const step = steps[way].pop();
    if (step && isMade) steps[way === 'undo' ? 'redo' : 'undo'].push(step);
  }

  forget(draft) {
    this.drafts.delete(draft);
  }
}
