// CSV files for spreadsheets.

// A spreadsheet runs a field that begins so as a formula, whoever wrote it; with ' it is a text.
const isFormula = (field) => /^[=+\-@\t\r\uff1d\uff0b\uff0d\uff20]/.test(field) && !/^-?\d+$/.test(field);
const defused = (field) => (isFormula(field) ? `'${field}` : `${field}`);
const quoted = (field) => (/[",;\r\n]/.test(field) ? `"${field.replaceAll('"', '""')}"` : field);

/** Returns rows as a CSV text that spreadsheets read as UTF-8, and in which no field is a formula. */
export const csvText = (rows) => `\ufeff${rows.map((row) => `${
  row.map((field) => quoted(defused(field ?? ''))).join(',')}\r\n`).join('')}`;
