// Reads any bank's CSV by what its columns are.
//
// `columns` has: `separator`; `skip`, the rows before the first line; `format`, how a day is written, empty for year,
// month and day; `mark`, the decimal mark; and places of columns, from 0: `date`, `amount` or `out` and `in`,
// `isTurned` where the amount's sign is the other way around, `sign`, which says whether it is a debit or a credit,
// `balance` behind the line, `descriptions` (several are joined), `number` of a check or slip, and `reference` of the
// bank. A place that there is not is null.

import { MANY, checked, knownOf } from './statement.js';
import { rowsOf } from './table.js';
import { NotUnderstood, SPACE, amountText, bankRefOf, centsOf, dayOf, decoded, inOneLine, quoted, stripped, sumText,
    withNumber, within, wordsOf } from './values.js';

export const NO_COLUMNS = { separator: ',', skip: 0, format: '', mark: '', date: null, amount: null, out: null,
    in: null, isTurned: false, sign: null, balance: null, descriptions: [], number: null, reference: null };

// What a bank calls a debit, and a credit, in a column of its own.
export const DEBIT = /^(?:dr|d|db|dbit|debit|withdrawal|-)$/i;
export const CREDIT = /^(?:cr|c|crdt|credit|deposit|[+])$/i;

// Cells of rows that are no lines of the account: its sums and balances.
const SUMMARY = new RegExp('^(?:(?:sub|grand )?totals?'
    + '(?: (?:credits|debits|deposits|withdrawals|payments|fees|checks))?'
    + '|(?:beginning|opening|starting|previous|ending|closing|final) (?:ledger )?balance'
    + '|balance (?:brought |carried )?forward)(?: (?:as of|on|for) .*)?:?$', 'iu');
// Of these the ones with which the file opens.
const OPENS = /^(?:beginning|opening|starting|previous|balance (?:brought )?forward)/iu;
const TOTALS = /^(?:sub|grand )?total/iu;
const AS_OF = / (?:as of|on|for) (.*?):?$/iu;

const DAY = /^([0-9]{4})[-/.]([0-9]{1,2})[-/.]([0-9]{1,2})$/;
// A sign in front or a minus behind, or parentheses in its place; dollars or no word for them; digits and their marks.
const AMOUNT = /^(?:(?:([-+]?)[$]?|[$]([-+]))([0-9.,]+)|[$]?([0-9.,]+)-|\([$]?([0-9.,]+)\))$/;

// The ways in which a day is written, by their names in the rules for the script.
export const FORMATS = ['%m/%d/%Y', '%m/%d/%y', '%d/%m/%Y', '%d/%m/%y', '%d.%m.%Y', '%d.%m.%y', '%m-%d-%Y', '%d-%m-%Y',
    '%Y%m%d', '%m%d%Y', '%d-%b-%Y', '%d-%b-%y', '%d %b %Y', '%b %d, %Y'];

const MONTHS = ['jan', 'feb', 'mar', 'apr', 'may', 'jun', 'jul', 'aug', 'sep', 'oct', 'nov', 'dec'];
const PARTS = {
    '%Y': '(?<Y>[0-9]{4})',
    '%y': '(?<y>[0-9]{2})',
    '%m': '(?<m>1[0-2]|0[1-9]|[1-9])',
    '%d': '(?<d>3[0-1]|[1-2][0-9]|0[1-9]|[1-9]| [1-9])',
    '%b': `(?<b>${MONTHS.join('|')})`,
    ' ': `${SPACE}+`,
    '.': '[.]',
};
const forms = new Map();
function formOf(format) {
    if (!forms.has(format)) {
        forms.set(format, new RegExp(format.replace(/%[A-Za-z]|[ .]/g, (part) => PARTS[part]), 'iuy'));
    }
    return forms.get(format);
}

// Two digits of a year are those of 1969 to 2068.
const wholeYear = (two) => (two < 69 ? 2000 + two : 1900 + two);

function cellOf({ cells }, place) {
    if (place >= cells.length) {
        throw new NotUnderstood(`it has ${cells.length} columns, and the rules ask for number ${place + 1}`);
    }
    return cells[place];
}

// The day of a cell.
export function dayOfCell(text, format) {
    if (!format) {
        const parts = DAY.exec(text);
        if (!parts) throw new NotUnderstood(`${quoted(text)} is no day, and the rules have no date-format`);
        return dayOf(Number(parts[1]), Number(parts[2]), Number(parts[3]));
    }
    const form = formOf(format);
    form.lastIndex = 0;
    const parts = form.exec(text);
    const none = () => new NotUnderstood(`${quoted(text)} is no day by the date-format ${quoted(format)}`);
    if (!parts || form.lastIndex !== text.length) throw none();
    const { Y, y, m, d, b } = parts.groups;
    const year = Y ? Number(Y) : wholeYear(Number(y));
    const month = m ? Number(m) : MONTHS.indexOf(b.toLowerCase()) + 1;
    const day = Number(d.trim());
    const last = new Date(Date.UTC(2000, 0, 1));
    last.setUTCFullYear(year, month, 0);
    if (day > last.getUTCDate() || year === 0) throw none();
    return dayOf(year, month, day);
}

// Digits without the marks that part thousands. These are taken where it is sure which of the marks they are.
function plainNumber(text, mark) {
    for (const [point, parting] of [['.', ','], [',', '.']]) {
        const decimals = mark === point ? `([${point}][0-9]{1,2})?` : `[${point}][0-9]{1,2}`;
        const isSo = new RegExp(`^[0-9]{1,3}([${parting}][0-9]{3})+${decimals}$`).test(text);
        if (['', point].includes(mark) && isSo) return text.replaceAll(parting, '');
    }
    if (mark && /[.,]/.test(text.replaceAll(mark, ''))) {
        throw new NotUnderstood(`${quoted(text)} is no amount with the decimal-mark ${mark}`);
    }
    return text;
}

// The cents of a cell.
function centsOfCell(text, mark) {
    const parts = AMOUNT.exec(text);
    if (!parts) throw new NotUnderstood(`${quoted(text)} is no amount`);
    const [, sign, innerSign, digits, beforeMinus, inParentheses] = parts;
    const cents = centsOf(plainNumber(digits || beforeMinus || inParentheses, mark));
    return [sign, innerSign].includes('-') || beforeMinus || inParentheses ? -cents : cents;
}

// A cell whose sign is turned around: a minus stands before it, and two are none.
function turned(text) {
    const minus = stripped(`-${text}`);
    const found = /^-(?:-([^\n]*)|\(([^\n]*)\)|([^\n]*)-)$/.exec(minus);
    return found ? found[1] || found[2] || found[3] || '' : minus;
}

// The cents of a row, from one column or from two, of which one has an amount.
function centsOfRow(cells, mark) {
    const amount = cells.sign === null ? cells.amount : signedBy(cells.amount, cells.sign);
    const told = [[1n, amount], [1n, cells.in], [-1n, cells.out]].filter(([, text]) => text)
        .map(([sign, text]) => sign * centsOfCell(text, mark));
    const moved = told.filter((cents) => cents !== 0n);
    if (!told.length || moved.length > 1) throw new NotUnderstood(`it has ${moved.length} amounts, not one`);
    return moved[0] ?? 0n;
}

// A reference for a line without one: a sum of what it says, and which of its like it is that day.
function referenceFor(day, cents, text, seen) {
    const said = `${day}|${amountText(cents)}|${text}`;
    seen.set(said, (seen.get(said) ?? 0) + 1);
    return `${sumText(said, 16)}-${seen.get(said)}`;
}

// An amount beside a word for debit or credit. A debit may have a minus too, a credit has none.
function signedBy(amount, sign) {
    if (!amount) return amount;
    const hasMinus = /[-(]/.test(amount);
    if (DEBIT.test(sign)) return hasMinus ? amount : `-${amount}`;
    if (!CREDIT.test(sign) || hasMinus) {
        throw new NotUnderstood(`${quoted(amount)} and ${quoted(sign)} are no debit and no credit`);
    }
    return amount;
}

// The cells that a line is made of. An amount's sign is turned around where the bank has it so.
function cellsOf(row, columns) {
    const read = (place) => (place === null ? '' : stripped(cellOf(row, place)));
    const { amount } = columns;
    return {
        sign: columns.sign === null ? null : read(columns.sign),
        date: read(columns.date),
        amount: columns.isTurned && amount !== null ? turned(cellOf(row, amount)) : read(amount),
        out: read(columns.out),
        in: read(columns.in),
        words: columns.descriptions.map((place) => cellOf(row, place)).join(' '),
        number: read(columns.number),
        reference: read(columns.reference),
    };
}

function lineOf(row, columns, seen) {
    const cells = cellsOf(row, columns);
    const day = dayOfCell(cells.date, columns.format);
    const cents = centsOfRow(cells, columns.mark);
    const text = withNumber(wordsOf([cells.words]), cells.number);
    const told = stripped(cells.reference.split(',')[0]);
    return { day, bankRef: told ? bankRefOf(told) : referenceFor(day, cents, text, seen), cents, text };
}

// What reads, or null where it is not understood.
function orNull(read) {
    try {
        return read();
    } catch (fault) {
        if (fault instanceof NotUnderstood) return null;
        throw fault;
    }
}

// A row that is no line: the words of it that say so; null where it is none of these.
const summaryOf = ({ cells }) => cells.filter((cell) => /total|balance/i.test(cell)).map((cell) => inOneLine(cell))
    .find((cell) => SUMMARY.test(cell)) ?? null;

export const isSummary = (row) => summaryOf(row) !== null;

// The balance of a row, null where it has none that can be read. It may stand in the amount's place if the row is none.
function balanceOf({ cells }, columns, isLine) {
    const cellAt = (place) => (place === null ? '' : stripped(cells[place] ?? ''));
    const text = cellAt(columns.balance) || (isLine ? '' : cellAt(columns.amount));
    return text ? orNull(() => centsOfCell(text, columns.mark)) : null;
}

// A balance among the rows: it moves nothing, and tells the day that the file opens or closes with.
function markOf(row, words, columns) {
    if (TOTALS.test(words)) return null;
    const day = orNull(() => dayOfCell(stripped(row.cells[columns.date] ?? ''), columns.format))
        ?? orNull(() => dayOfCell(stripped(AS_OF.exec(words)?.[1] ?? ''), columns.format));
    return { cents: 0n, balance: balanceOf(row, columns, false), day, opens: OPENS.test(words) };
}

// The lines of all rows, which have to have as many columns as the first; and all that moves or tells the balance.
function linesOf(rows, columns, notes) {
    const seen = new Map();
    const [lines, steps] = [[], []];
    let count = null;
    for (const row of rows) {
        const words = summaryOf(row);
        if (words !== null) {
            notes.push(`line ${row.number} left out: no line of the account: ${quoted(words)}`);
            steps.push(markOf(row, words, columns));
        } else {
            const line = within(`line ${row.number}`, () => lineOf(row, columns, seen));
            count ??= row.cells.length;
            if (row.cells.length !== count) {
                throw new NotUnderstood(
                    `line ${row.number}: it has ${row.cells.length} columns, and the first line ${count}`);
            }
            lines.push(line);
            steps.push({ cents: line.cents, balance: balanceOf(row, columns, true), day: line.day, isLine: true });
        }
    }
    return { lines, steps: steps.filter(Boolean) };
}

// The balance before the first of some steps; null where their balances do not go with their amounts.
function openingOf(steps) {
    let [sum, opening] = [0n, null];
    for (const { cents, balance } of steps) {
        sum += cents;
        if (balance !== null) {
            opening ??= balance - sum;
            if (opening + sum !== balance) return null;
        }
    }
    return opening;
}

// The same, of rows that stand with the oldest or with the newest first. Where both fit, their days tell which.
function balanceBefore(steps) {
    if (steps.every(({ balance }) => balance === null)) throw new NotUnderstood('the file tells no balance');
    const [forward, backward] = [openingOf(steps), openingOf([...steps].reverse())];
    if (forward === null && backward === null) {
        throw new NotUnderstood('the balances of the file do not go with its amounts');
    }
    if (forward === backward || backward === null) return forward;
    if (forward === null) return backward;
    const days = steps.map(({ day }) => day).filter(Boolean);
    if (days[0] === days.at(-1)) throw new NotUnderstood('the balances of the file can be read in two orders');
    return days[0] < days.at(-1) ? forward : backward;
}

// The file's first day, and what it tells of its balances. It does not tell where it ends.
function known(steps) {
    const days = (some) => steps.filter(({ day, ...step }) => day && some(step)).map(({ day }) => day).sort();
    const first = days(({ isLine, opens }) => isLine || opens)[0] ?? null;
    const end = days(({ isLine, opens }) => !isLine && !opens).at(-1) ?? null;
    try {
        if (first === null) throw new NotUnderstood('the file has no day');
        return { ...knownOf({ first, opening: balanceBefore(steps) }), end };
    } catch (fault) {
        if (!(fault instanceof NotUnderstood)) throw fault;
        return { ...knownOf({ first, why: fault.message }), end };
    }
}

// Asks about lines that all go one way.
function noteOneSide(lines, notes) {
    const isIn = lines[0]?.cents > 0n;
    if (lines.length < MANY || lines.some(({ cents }) => (cents > 0n) !== isIn)) return;
    notes.push(`all ${lines.length} lines are paid ${isIn ? 'in' : 'out'}: `
        + `does another column tell which are paid ${isIn ? 'out' : 'in'}?`);
}

// The lines of a bank's CSV, and what its balances tell.
export function readRows(rows, columns) {
    const notes = [];
    const { lines, steps } = linesOf(rows.slice(columns.skip), columns, notes);
    const kept = checked(lines, notes);
    noteOneSide(kept, notes);
    return { lines: kept, notes, known: known(steps) };
}

export const readCsv = (bytes, columns) => readRows(rowsOf(decoded(bytes), columns.separator), columns);
