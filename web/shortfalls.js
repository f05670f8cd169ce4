// Deposits that the bank takes back, and whose money is spent: found before the file is imported.

import { amountOf, cents } from './amounts.js';
import { entriesPath, matterPath } from './desk.js';
import { isEntry } from './exceptions.js';

const isDeposit = ({ kind }) => kind === 'deposit';

// What is told of a matter and its entries; null where the desk does not tell.
async function readMatter(page, no) {
    const [matter, entries] = [await page.desk.read(matterPath(no)), await page.desk.read(entriesPath(no))];
    return matter.isDone && entries.isDone ? { matter: matter.body, entries: entries.body.entries } : null;
}

const placeOf = (reference) => ({ no: reference.slice(1, 7), entry: reference.slice(8) });

// What lines that would be imported take back of deposits without enough being available in the matter: each with the
// line, the matter, the deposit, what is `available` as the line comes, what is `missing`, and the deposits of that
// amount or more that `wait` for the bank.
export async function findShortfalls(page, lines) {
    const named = lines.filter(({ isWhole, reference }) => isWhole && isEntry(reference));
    const below = named.filter(({ amount }) => amount.startsWith('-'));
    const numbers = [...new Set(below.map(({ reference }) => placeOf(reference).no))];
    const told = await Promise.all(numbers.map((no) => readMatter(page, no)));
    const matters = new Map(numbers.map((no, i) => [no, told[i]]));
    const left = new Map(numbers.map((no, i) => [no, told[i] ? cents(told[i].matter.available) : 0n]));
    const found = [];
    for (const line of named) {
        const { no, entry } = placeOf(line.reference);
        const known = matters.get(no);
        const deposit = known?.entries.find((each) => each.entry === entry && isDeposit(each));
        if (deposit && line.amount === deposit.amount) left.set(no, left.get(no) + cents(line.amount));
        if (!deposit || line.amount !== `-${deposit.amount}`) continue;
        const missing = cents(deposit.amount) - left.get(no);
        if (missing <= 0n) left.set(no, -missing);
        else {
            const available = amountOf(left.get(no));
            const waiting = known.entries.filter((each) => isDeposit(each) && each.state === 'held'
                && cents(each.amount) >= missing);
            found.push({ line, matter: known.matter, deposit, available, missing: amountOf(missing), waiting });
        }
    }
    return found;
}
