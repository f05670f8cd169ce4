// The bank's file, and what the cashier decided of its lines: a reference that was typed or chosen, the entries that a
// line was split over, or that it is left. All of it is kept in the browser until the file is imported or put away. The
// file itself is never changed: what is sent is the file with what was decided.

import { NAMES } from './bank/statement.js';
import { bytesOf, recordsOf, wordsOf } from './csv.js';
import { FILE, LEFT, PARTS, TYPED } from './shelf.js';

// A record of a statement: its number behind the header, its fields by their names where it has five, and all of it.
function lineOf(fields, number) {
    const values = fields.map(({ value }) => wordsOf(value));
    const named = values.length === NAMES.length ? NAMES.map((name, i) => [name, values[i]]) : [];
    return { number, isWhole: named.length > 0, whole: values.join(','), ...Object.fromEntries(named) };
}

const linesIn = (records) => records.map((fields, i) => lineOf(fields, i + 1));

// The lines of a statement, behind its header.
export const linesOf = (text) => linesIn(recordsOf(text).slice(1));

// What a line's reference may be here: `FIRM`, or that of an entry. Null where it is neither.
export function readReference(typed) {
    const text = typed.trim().toUpperCase();
    return /^(FIRM|M\d{6}-\d{4})$/.test(text) ? text : null;
}

export class BankFile {
    constructor(shelf, name, text) {
        this.shelf = shelf;
        this.name = name;
        this.text = text;
        this.records = recordsOf(text).slice(1);
        this.lines = linesIn(this.records);
        this.typed = new Map(shelf.read(TYPED));
        this.parts = new Map(shelf.read(PARTS));
        this.left = new Set(shelf.read(LEFT));
    }

    // The file that the browser keeps, or null.
    static kept(shelf) {
        const [file] = shelf.read(FILE);
        return file ? new BankFile(shelf, file.name, file.text) : null;
    }

    // A file's text is kept in the place of another one, which goes first: there may be no room for the new one. Taken
    // again, it still has what was decided of its lines.
    static taken(shelf, name, text) {
        if (shelf.read(FILE)[0]?.text !== text) forgetKept(shelf);
        shelf.write(FILE, [{ name, text }]);
        return new BankFile(shelf, name, text);
    }

    forget() {
        this.shelf.write(FILE, []);
        this.left.clear();
        this.unname();
    }

    // As it was typed, whether it is a reference yet or not; nothing where it is empty. One thing is decided of a line.
    type(number, typed) {
        this.parts.delete(number);
        this.left.delete(number);
        if (typed.trim()) this.typed.set(number, typed);
        else this.typed.delete(number);
        this.keep();
    }

    // Parts have a reference and an amount each, and together the line's amount.
    split(number, parts) {
        this.type(number, '');
        this.parts.set(number, parts);
        this.keep();
    }

    leave(number) {
        this.type(number, '');
        this.left.add(number);
        this.keep();
    }

    keep() {
        this.shelf.write(TYPED, [...this.typed]);
        this.shelf.write(PARTS, [...this.parts]);
        this.shelf.write(LEFT, [...this.left]);
    }

    // What was named has done its work. A line that was left stays so.
    unname() {
        this.typed.clear();
        this.parts.clear();
        this.keep();
    }

    // Whether a line was named here, by a reference or by its parts.
    isNamed(number) {
        return this.typed.has(number) || this.parts.has(number);
    }

    // A line's reference as it is sent; what is typed and no reference yet is not.
    referenceOf({ number, reference }) {
        return this.typed.has(number) ? readReference(this.typed.get(number)) ?? reference : reference;
    }

    // The lines in the order in which they are sent: a line that is split is sent as its parts, of its own number.
    sent() {
        return this.lines.flatMap((line) => this.parts.get(line.number)?.map((part) => ({ ...line, ...part }))
            ?? [{ ...line, reference: line.isWhole ? this.referenceOf(line) : line.reference }]);
    }

    closesBelowZero() {
        return this.lines.some(({ reference, amount }) => reference === 'CLOSE' && amount.startsWith('-'));
    }

    // How many lines would be exceptions, since they have no reference.
    countOpen() {
        return this.sent().filter((line) => line.isWhole && !line.reference).length;
    }

    // A record as its parts: each has the day, the bank's reference and the words as they stand in the file.
    partsText(number) {
        const [day, , bankRef, , words] = this.records[number - 1].map(({ from, to }) => this.text.slice(from, to));
        return this.parts.get(number).map((part) => [day, part.reference, bankRef, part.amount, words].join(','))
            .join('\n');
    }

    // Its bytes, with what was typed in the place of a record's second field, and the parts in that of a whole one.
    bytes() {
        const changed = [];
        let last = 0;
        for (const line of this.lines.filter(({ number }) => this.isNamed(number))) {
            const fields = this.records[line.number - 1];
            const isParted = this.parts.has(line.number);
            const { from, to } = isParted ? { from: fields[0].from, to: fields.at(-1).to } : fields[1];
            changed.push(this.text.slice(last, from), isParted ? this.partsText(line.number) : this.referenceOf(line));
            last = to;
        }
        return bytesOf(changed.join('') + this.text.slice(last));
    }
}

function forgetKept(shelf) {
    for (const name of [FILE, TYPED, PARTS, LEFT]) shelf.write(name, []);
}
