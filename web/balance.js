// Balances by day: lists of points, a day and the sum behind its last movement, in whole cents.

import { amountOf, cents } from './amounts.js';
import { movementsOf } from './entry-facts.js';
import { readJournal } from './reports.js';

// The account's, by the journal's own sums. The journal stands in the order of booking, and a line of the firm's own
// money may have a day before the line above it: its sum is then that of the later day.
export function balanceOfJournal(text) {
    const points = new Map();
    let last = '';
    for (const { day, sum } of readJournal(text)) {
        last = day > last ? day : last;
        points.set(last, cents(sum));
    }
    return [...points].map(([day, sum]) => ({ day, sum }));
}

// A matter's, by the movements of its entries. They are added up here, so the end has to be the ledger that the desk
// tells; else there are no points.
export function balanceOfMatter(matter, entries) {
    const movements = entries.flatMap(movementsOf).sort(([one], [other]) => (one < other ? -1 : Number(one > other)));
    const points = new Map();
    let sum = 0n;
    for (const [day, moved] of movements) {
        sum += moved;
        points.set(day, sum);
    }
    if (sum !== cents(matter.total) + cents(matter.held)) return [];
    return [...points].map(([day, at]) => ({ day, sum: at }));
}

// What each entry moved in its matter's ledger, held deposits included, and the ledger with it and those before it; by
// the entries' numbers. One that moved nothing, or was taken back, is not among them.
export function movedBy(matter, entries) {
    const found = new Map();
    if (!balanceOfMatter(matter, entries).length) return found;
    let sum = 0n;
    for (const each of entries) {
        const moved = movementsOf(each).reduce((all, [, part]) => all + part, 0n);
        sum += moved;
        if (moved !== 0n) found.set(each.entry, { moved: amountOf(moved), sum: amountOf(sum) });
    }
    return found;
}

export const sumText = ({ sum }) => amountOf(sum);

export const greatestOf = (points) => points.reduce((most, each) => (each.sum > most.sum ? each : most));
