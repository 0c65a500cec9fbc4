// Numbers in the reader's language.

/** The reader's languages. */
export const language = navigator.languages?.length ? [...navigator.languages] : undefined;

const numerals = new Intl.NumberFormat(language);

export const numeral = (number) => numerals.format(number);

export function count(number, one, many = `${one}s`) {
  return `${numeral(number)} ${number === 1 ? one : many}`;
}
