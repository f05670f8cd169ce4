// The rows of a CSV that any program wrote: with a separator of its own, spaces before a field left out, and quotes
// that have to be closed.

import { NotUnderstood, stripped } from './values.js';

const MOST = 131072; // characters of a field
// So many rows with a text a file may have, and so many columns each of them.
const MOST_ROWS = 50_000;
const MOST_COLUMNS = 99;

// The lines of a text with their ends.
const linesIn = (text) => text.match(/[^\r\n]*(?:\r\n|\r|\n)|[^\r\n]+$/g) ?? [];

class Table {
    constructor(separator) {
        Object.assign(this, { separator, state: 'start', field: [], cells: [], rows: [], line: 0 });
    }

    fail(what) {
        throw new NotUnderstood(`line ${this.line}: ${what}`);
    }

    add(letter) {
        if (this.field.length >= MOST) this.fail(`field larger than field limit (${MOST})`);
        this.field.push(letter);
    }

    save() {
        this.cells.push(this.field.join(''));
        this.field = [];
    }

    // A letter in a field that is not quoted, or before one.
    plain(letter) {
        if (letter === this.separator) {
            this.save();
            this.state = 'before';
        } else if (letter === '\n' || letter === '\r' || letter === '') {
            this.save();
            this.state = letter === '' ? 'start' : 'end';
        } else if (this.state === 'before' && letter === '"') this.state = 'quoted';
        else if (this.state !== 'before' || letter !== ' ') {
            this.state = 'field';
            this.add(letter);
        }
    }

    quoted(letter) {
        if (letter === '"') this.state = 'quote';
        else if (letter !== '') this.add(letter);
    }

    // A quote within a quoted field: of two one is meant, else the field ends.
    quote(letter) {
        if (letter === '"') {
            this.add(letter);
            this.state = 'quoted';
        } else if ([this.separator, '\n', '\r', ''].includes(letter)) this.plain(letter);
        else this.fail(`'${this.separator}' expected after '"'`);
    }

    // A letter, or the end of a line, which is empty.
    take(letter) {
        if (this.state === 'start') {
            if (letter === '') return;
            this.state = letter === '\n' || letter === '\r' ? 'end' : 'before';
        }
        if (this.state === 'end') this.state = letter === '' ? 'start' : 'end';
        else if (this.state === 'quoted') this.quoted(letter);
        else if (this.state === 'quote') this.quote(letter);
        else this.plain(letter);
    }

    // A line without quotes is parted at once.
    plainLine(line) {
        const body = line.replace(/[\r\n]+$/, '');
        this.cells = body === '' ? [] : body.split(this.separator).map((cell) => cell.replace(/^ +/, ''));
        if (this.cells.some((cell) => cell.length > MOST)) this.fail(`field larger than field limit (${MOST})`);
    }

    takeLine(line) {
        this.line += 1;
        if (this.state === 'start' && !line.includes('"')) this.plainLine(line);
        else {
            for (const letter of line) this.take(letter);
            this.take('');
        }
        if (this.state !== 'start') return;
        if (this.cells.length > MOST_COLUMNS) this.fail(`it has more than ${MOST_COLUMNS} columns`);
        if (this.cells.some((cell) => stripped(cell))) this.rows.push({ number: this.line, cells: this.cells });
        if (this.rows.length > MOST_ROWS) this.fail(`the file has more than ${MOST_ROWS} rows`);
        this.cells = [];
    }
}

// The rows, each with the line of the file that it ends in. Rows without any text are passed over.
export function rowsOf(text, separator) {
    const table = new Table(separator);
    for (const line of linesIn(text)) table.takeLine(line);
    if (table.state === 'quoted' || table.field.length) table.fail('unexpected end of data');
    return table.rows;
}
