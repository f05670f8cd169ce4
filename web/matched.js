// What the desk tells of a bank's file: the statement that an import takes, and what is left of it.

import { NAMES } from './bank/statement.js';
import { linesOf } from './bank-file.js';
import { textOf } from './csv.js';

const MATCH = '/firm/statements/match';
const UNMATCHED = '/firm/statements/unmatched';

// Lines of equal fields are the same line twice, and told by their count alone.
const keyOf = (line, reference) => JSON.stringify([reference, line.isWhole
    ? [line.date, line.bank_ref, line.amount, line.text] : line.whole]);

// Counts things by their keys, and takes them out again.
class Tally {
    constructor(keys) {
        this.counts = new Map();
        for (const key of keys) this.counts.set(key, (this.counts.get(key) ?? 0) + 1);
    }

    take(key) {
        const count = this.counts.get(key) ?? 0;
        this.counts.set(key, count - 1);
        return count > 0;
    }
}

// The lines that are written, each with who named it: the file (`''`), the cashier (`typed`), or the desk (`filled`).
function readWritten(text, file, sent) {
    const keysOf = (lines) => lines.map((line) => keyOf(line, line.reference));
    const inFile = new Tally(keysOf(sent.filter(({ number }) => !file.isNamed(number))));
    const inBrowser = new Tally(keysOf(sent.filter(({ number }) => file.isNamed(number))));
    const by = (key) => {
        if (inFile.take(key)) return '';
        return inBrowser.take(key) ? 'typed' : 'filled';
    };
    return linesOf(text).map((line) => ({ ...line, by: by(keyOf(line, line.reference)) }));
}

// Of a record that is no line only its number is told.
const UNREADABLE = { name: 'Unreadable' };

// What is to be looked at, each with its reason. `line` is null where the file has none of the number; then nothing can
// be typed into it.
function readLeft({ booked, records, written }, sent) {
    const told = records.map(({ number, reason = UNREADABLE }) => ({ line: sent[number - 1] ?? null, reason }));
    return { written, inBook: booked, left: records.length, told };
}

async function askBoth(page, file) {
    const body = file.bytes();
    const statement = await page.desk.post(MATCH, body);
    return { statement, unmatched: statement.isDone ? await page.desk.post(UNMATCHED, body) : statement };
}

// Asks both, and again where somebody changed the book between the two. `refused` is the answer that is no list.
export async function matchFile(page, file) {
    for (let tries = 2; ; tries -= 1) {
        const { statement, unmatched } = await askBoth(page, file);
        if (!unmatched.isDone) return { refused: unmatched };
        const sent = file.sent();
        const lines = readWritten(textOf(statement.bytes), file, sent);
        const left = readLeft(unmatched.body, sent);
        if (left.written === lines.length || tries === 0) return { bytes: statement.bytes, lines, ...left };
    }
}

const quoted = (words) => `"${words.replaceAll('"', '""')}"`;

const recordOf = ({ date, reference, bank_ref: number, amount, text }) =>
    [date, reference, number, amount, text].map(quoted).join(',');

const bodyOf = (fields) => new TextEncoder().encode([NAMES.join(','), ...fields.map(recordOf)].join('\n'));

const lineKey = ({ date, bank_ref: number, amount }) => JSON.stringify([date, number, amount]);

// A file of these lines without their references, in which each stands once.
export function openFile(fields) {
    const once = new Map(fields.map((each) => [lineKey(each), { ...each, reference: '' }]));
    return bodyOf([...once.values()]);
}

// Whether the book has each of these lines, under whatever reference: without one it is then neither written nor told.
// False for all where the desk does not tell.
export async function areInBook(page, fields) {
    if (!fields.length) return [];
    const body = openFile(fields);
    const statement = await page.desk.post(MATCH, body);
    const unmatched = await page.desk.post(UNMATCHED, body);
    if (!statement.isDone || !unmatched.isDone) return fields.map(() => false);
    const told = readLeft(unmatched.body, linesOf(textOf(body))).told.map(({ line }) => line).filter(Boolean);
    const open = new Set([...linesOf(textOf(statement.bytes)), ...told].map(lineKey));
    return fields.map((each) => !open.has(lineKey(each)));
}

// Whether another answer has the same statement.
export const isSameAs = (one, other) => textOf(one.bytes) === textOf(other.bytes);
