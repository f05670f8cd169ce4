// The fields of an entry, in words, and what it moved.

import { cents } from './amounts.js';
import { facts, label, money } from './elements.js';
import { shown } from './names.js';
import { STATES, fundOf } from './words.js';

const bankFact = (words, day, reference) => [words, day && `${day}, ${shown(reference)}`];

const partWords = ({ state }) => (state === 'settled' ? 'Left to the client' : 'Offered to the client');

const claimFacts = (entry) => [
    ['Claimed by', entry.on === 'fee' ? `the client, on ${fundOf(entry)}` : label(entry.claimant)],
    ['Why', label(entry.reason)],
    [partWords(entry), entry.to_client && money(entry.to_client)],
    ['Left of it', entry.left && money(entry.left)],
    ['Settled on', entry.settled],
];

const FACTS = {
    deposit: (entry) => [['Paid in by', label(entry.source)], ['What for', label(entry.description)]],
    payment: (entry) => [
        ['Payee', label(entry.payee)],
        ['Purpose', label(entry.purpose)],
        ['Check or transfer', label(entry.instrument)],
        ['Drawn on', fundOf(entry)],
        ['Issued on', entry.issued],
    ],
    fee: (entry) => [['For which work', label(entry.description)], ['Left of it', entry.left && money(entry.left)]],
    claim: claimFacts,
};

export const entryFacts = (entry) => facts([
    ['Amount', money(entry.amount)],
    ['State', entry.state && STATES[entry.state][1]],
    ['Booked on', entry.day],
    ...FACTS[entry.kind](entry),
    bankFact('Shown by the bank on', entry.bank_day, entry.bank_ref),
    bankFact('Returned by the bank on', entry.return_day, entry.return_ref),
    ['Undone on', entry.undone],
]);

// What an entry moves in its matter's ledger, and when.
export function movementsOf({ kind, day, amount, issued, undone }) {
    const moved = { deposit: [[day, cents(amount)], [undone, -cents(amount)]],
        payment: [[issued, -cents(amount)], [undone, cents(amount)]] }[kind] ?? [];
    return moved.filter(([when]) => when);
}
