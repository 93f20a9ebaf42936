// finding.js: where a text or an expression is on a screen. A row whose last column has a character goes on in the next one.

const SPECIAL = /[.*+?^${}()|[\]\\/]/g;

/** Returns the expression that finds a text, or throws SyntaxError if an expression isn't well-formed. */
export function pattern(wanted, { matchCase = false, expression = false } = {}) {
  return new RegExp(expression ? wanted : wanted.replace(SPECIAL, "\\$&"), matchCase ? "gm" : "gim");
}

/** Lists where a pattern is in a text: pairs of an index and a length that isn't 0. */
export function* hits(pattern, text) {
  for (const match of text.matchAll(pattern)) if (match[0] !== "") yield [match.index, match[0].length];
}

/** Returns the text of rows of such a width. A row that is full has no end of line. Any other one has `end` there, which is a blank or "". */
export function joinedRows(rows, width, end) {
  return rows.map((row) => (row.length >= width ? row : `${row}${end}\n`)).join("");
}

/** Returns the row and the column, from 0, of an index in the joined text. */
export function placeOf(index, rows, width, end) {
  let row = 0;
  for (; row < rows.length - 1; row++) {
    const size = rows[row].length >= width ? rows[row].length : rows[row].length + end.length + 1;
    if (index < size) break;
    index -= size;
  }
  return { row, column: index };
}

/** Returns the columns, from 0, that a pattern covers in each row. */
export function covered(pattern, rows, width, end) {
  const columns = rows.map(() => new Set());
  for (const [at, length] of hits(pattern, joinedRows(rows, width, end))) {
    for (let i = at; i < at + length; i++) {
      const place = placeOf(i, rows, width, end);
      if (place.column < width) columns[place.row].add(place.column);
    }
  }
  return columns;
}
