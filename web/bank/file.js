// A bank's file: what it is, and the statement in it.

import { recordsOf, textOf } from '../csv.js';
import { checkClose, readCamt } from './camt.js';
import { readCsv } from './columns.js';
import { readOfx } from './ofx.js';
import { NAMES, closed } from './statement.js';
import { NotUnderstood } from './values.js';

const isStatement = (text) => {
    const [head] = recordsOf(text.slice(0, 4096));
    return head?.map(({ value }) => value).join() === NAMES.join();
};

// Formats of banks that are not read, and how a file of each begins.
const UNREAD = [
    ['QIF', /^!(?:Type|Account|Option|Clear)\b/i],
    ['BAI2', /^01,[^,\r\n]*,[^,\r\n]*,[0-9]{6},/],
    ['MT940', /^(?:\{1:|:20:)[^]*^:(?:25|28C?|60[FM]|61):/m],
];

// The name of the format of a file, if it is known and not read; else nothing.
export function unreadFormat(bytes) {
    const front = textOf(bytes.subarray(0, 4096)).replace(/^(?:\u00ef\u00bb\u00bf)?[ \t\r\n]*/, '');
    return UNREAD.find(([, form]) => form.test(front))?.[0];
}

function checkFormat(bytes) {
    const name = unreadFormat(bytes);
    if (!name) return;
    throw new NotUnderstood(`this is ${name}, which is not read: ask the bank for OFX (QFX, QBO), camt.053 or CSV`);
}

// What a file is: a `statement` of this program, `ofx`, `camt`, or else a `csv`.
export function kindOf(bytes) {
    const text = textOf(bytes);
    if (isStatement(text)) return 'statement';
    if (text.includes('BkToCstmrStmt')) return 'camt';
    return /<OFX>/i.test(text) ? 'ofx' : 'csv';
}

// The lines of a bank's file, what is noted of it, and what it tells of its balances. A CSV needs its columns.
export function readLines(bytes, columns = null) {
    checkFormat(bytes);
    if (columns) return readCsv(bytes, columns);
    const kind = kindOf(bytes);
    if (kind === 'camt') return readCamt(bytes);
    if (kind === 'ofx') return readOfx(bytes);
    throw new NotUnderstood('the file is neither OFX nor camt.053; a CSV needs its rules');
}

// The statement of a bank's file. It closes with a day, if one is given, by the balances of the file or by `balance`,
// the cents with which the day closed. camt.053 tells its days itself.
export function readBankFile(bytes, { close = null, balance = null, columns = null }) {
    const read = readLines(bytes, columns);
    if (!close) return read;
    if (read.closing && balance === null) {
        checkClose(read, close);
        return read;
    }
    if (read.closing) throw new NotUnderstood('the file tells its closing balance itself');
    if (balance === null && !columns && kindOf(bytes) === 'camt') checkClose(read, close);
    return closed(read, close, balance);
}
