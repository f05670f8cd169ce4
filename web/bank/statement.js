// A statement in the CSV that an import takes, with its references empty. A line has the bank's day, reference, cents
// and words; a balance a day and cents.

import { NotUnderstood, amountText, quoted } from './values.js';

// So many lines of a bank's CSV that all go one way are asked about.
export const MANY = 10;

// What stands in its first line.
export const NAMES = ['date', 'reference', 'bank_ref', 'amount', 'text'];

export const totalOf = (lines) => lines.reduce((sum, { cents }) => sum + cents, 0n);

const counted = (count) => (count === 1 ? '1 line' : `${count} lines`);

// What is said of lines that are left out, in the order of their days.
export function leftOut(lines, why) {
    const [first, last] = [lines[0].day, lines.at(-1).day];
    const days = first === last ? first : `${first} to ${last}`;
    return `${counted(lines.length)} of ${days}, together ${amountText(totalOf(lines))}, left out: ${why}`;
}

export const notBooked = (count) => `${counted(count)} left out: not booked by the bank yet`;

const byDay = (one, other) => (one.day < other.day ? -1 : Number(one.day > other.day));

// The lines in the order of their days, without those of 0.00, which are noted. No two of them may look alike.
export function checked(lines, notes) {
    const nothing = lines.filter(({ cents }) => cents === 0n).sort(byDay);
    if (nothing.length) notes.push(leftOut(nothing, '0.00 moves nothing'));
    const kept = lines.filter(({ cents }) => cents !== 0n)
        .sort(byDay);
    const seen = new Set();
    for (const { day, bankRef, cents } of kept) {
        const key = JSON.stringify([day, bankRef, String(cents)]);
        if (seen.has(key)) {
            throw new NotUnderstood(`two lines of ${day} have the reference ${quoted(bankRef)} and the amount `
                + `${amountText(cents)}: nothing tells them apart`);
        }
        seen.add(key);
    }
    return kept;
}

// Refuses balances that the lines don't join.
export function checkBalances({ lines, opening, closing }) {
    if (!opening || !closing || opening.cents + totalOf(lines) === closing.cents) return;
    const [first, moved, last] = [opening.cents, totalOf(lines), closing.cents].map(amountText);
    throw new NotUnderstood(
        `the opening balance ${first} and the lines ${moved} don't make the closing balance ${last}`);
}

// What a file tells of its balances: `first`, its first day, and `opening`, the cents with which that opens; `last`,
// the last day that it may close with, which `until` names, or null where the file does not tell where it ends. Or
// `why` there is no balance; `fault` is what speaks against all of it.
export const knownOf = (told) => ({ first: null, last: null, opening: null, until: '', why: '', fault: '', ...told });

// The statement up to a day, with the balances that the file tells; or with what is told of that day's, in cents.
export function closed({ lines, notes, known }, close, balance = null) {
    const { first, last, until, opening, why, fault } = known;
    const isTold = balance !== null;
    if (!isTold && why) throw new NotUnderstood(why);
    if (!isTold && last === null && close < first) throw new NotUnderstood(`${close} is before ${first}`);
    if (!isTold && last !== null && (close < first || close > last)) {
        throw new NotUnderstood(`${close} is no day from ${first} to ${until || last}`);
    }
    if (!isTold && fault) throw new NotUnderstood(fault);
    const kept = lines.filter(({ day }) => day <= close);
    const behind = lines.filter(({ day }) => day > close);
    const begin = [first, kept[0]?.day, close].filter(Boolean).sort()[0];
    const atOpen = opening ?? balance - totalOf(kept);
    const statement = {
        lines: kept,
        notes: behind.length ? [...notes, leftOut(behind, `behind ${close}`)] : notes,
        known,
        opening: { day: begin, cents: atOpen },
        closing: { day: close, cents: balance ?? atOpen + totalOf(kept) },
    };
    checkBalances(statement);
    return statement;
}

const field = (text) => (/[,"\n]/.test(text) ? `"${text.replaceAll('"', '""')}"` : text);

const balanceRow = (reference, words, balance) =>
    balance && [balance.day, reference, '', amountText(balance.cents), words];

// The text of a statement.
export function csvOf({ lines, opening, closing }) {
    const rows = [
        NAMES,
        balanceRow('OPEN', 'Opening balance', opening),
        ...lines.map(({ day, bankRef, cents, text }) => [day, '', bankRef, amountText(cents), text]),
        balanceRow('CLOSE', 'Closing balance', closing),
    ];
    return rows.filter(Boolean).map((row) => `${row.map(field).join(',')}\n`).join('');
}
