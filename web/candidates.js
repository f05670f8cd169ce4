// Which entries a line of the bank's may show, and how a line may be split over several. Nothing here decides: an equal
// amount is no evidence, so a person looks at the entries and chooses.

import { amountOf, cents } from './amounts.js';

// The firm's own money stays from 0.00 to this.
const MOST_OWN = 50000n;

const isAmount = (text) => /^-?\d+\.\d\d$/.test(text);

// Numbers of three digits or more, without zeros in front.
const numbersIn = (text) => new Set((text.match(/\d+/g) ?? []).map((each) => each.replace(/^0+/, ''))
    .filter((each) => each.length > 2));

const sumOf = (entries) => entries.reduce((sum, { amount }) => sum + cents(amount), 0n);

// The entries that the desk's reason lists.
export const listedIn = (reason) => [...reason.entries?.listed ?? [],
    ...(reason.exceptions?.listed ?? []).map(({ entry }) => entry).filter(Boolean)];

const referencesIn = (reason) => [...listedIn(reason), reason].map(({ reference }) => reference).filter(Boolean);

// The entries that wait and have the line's amount.
export const ofItsAmount = (entries, { amount }) => entries.filter((each) => each.amount === amount);

// Entries of the line's direction.
export const onItsSide = (entries, { amount }) =>
    (isAmount(amount) ? entries.filter((each) => each.amount.startsWith('-') === amount.startsWith('-')) : []);

// What is still missing to the line's amount; null where the line has none.
export const missingTo = ({ amount }, entries) => (isAmount(amount) ? amountOf(cents(amount) - sumOf(entries)) : null);

const makesIt = (line, entries) => entries.length > 1 && missingTo(line, entries) === '0.00';

// Several entries that are together the line's amount: those that the reasons name, or those whose words have a number
// of the line's own. Else nothing.
export function together(entries, line, reasons) {
    const side = onItsSide(entries, line);
    const named = new Set(reasons.flatMap(referencesIn));
    const numbers = numbersIn(line.text);
    const sets = [side.filter(({ reference }) => named.has(reference)),
        side.filter(({ words }) => [...numbersIn(words)].some((each) => numbers.has(each)))];
    return sets.find((each) => makesIt(line, each)) ?? [];
}

// By which number of the bank's words a deposit's words are known; empty where there is none.
export const numberOf = ({ words }, { text }) => {
    const numbers = numbersIn(text);
    return [...numbersIn(words)].find((each) => numbers.has(each)) ?? '';
};

// As moving-in writes what the bank had of a matter on the first day.
const isOpening = ({ words }) => /balance of \d{4}-\d\d-\d\d, moved in$/.test(words);

// Cleared deposits that a line below zero may take back: those with a number of the bank's words first, the newest
// first, and opening balances last.
export function takenBackBy(deposits, line) {
    const rank = (each) => (numberOf(each, line) ? 0 : 1 + Number(isOpening(each)));
    return deposits.filter(({ amount }) => `-${amount}` === line.amount)
        .sort((one, other) => rank(one) - rank(other) || other.day.localeCompare(one.day));
}

// What the firm's own money may still become.
export const leftOfOwn = (own) => amountOf(MOST_OWN - cents(own));
