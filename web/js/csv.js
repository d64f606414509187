/**
 * Lists as CSV for spreadsheets.
 * @module
 */

/** A text that a spreadsheet would take for a formula gets an apostrophe. @param {string} text */
const harmless = (text) => (/^[=+\-@\t\r]/.test(text) ? `'${text}` : text);

/** @param {*} value */
function fieldText(value) {
  const text = harmless(value === null || value === undefined ? "" : String(value));
  return /[",\r\n]/.test(text) ? `"${text.replaceAll('"', '""')}"` : text;
}

/** The text of a CSV file (RFC 4180). @param {string[]} header @param {Array<Array<*>>} rows */
export const csvText = (header, rows) => [header, ...rows].map((row) => `${row.map(fieldText).join(",")}\r\n`).join("");

/** Hands a text to the browser as a file. @param {string} name @param {string} text */
export function saveFile(name, text) {
  const url = URL.createObjectURL(new Blob([text], { type: "text/csv;charset=utf-8" }));
  const link = document.createElement("a");
  Object.assign(link, { href: url, download: name });
  document.body.append(link);
  link.click();
  link.remove();
  setTimeout(() => URL.revokeObjectURL(url), 10_000);
}
