// What waits for the bank: each held deposit and each issued payment of the firm. The desk has no list of it, so it is
// asked for the entries of those matters that have some.

import { entriesPath } from './desk.js';
import { readMatters, readWaiting, unshownIn } from './lists.js';
import { textsOf } from './words.js';

const isAtBank = ({ state }) => state === 'held' || state === 'issued';

// An entry with what the bank's line of it has to have. A payment leaves the account.
const atBankOf = ({ matter, client }, entries) => entries.filter(isAtBank).map((each) => ({
    matter,
    entry: each.entry,
    reference: `M${matter}-${each.entry}`,
    client,
    kind: each.kind,
    day: each.issued ?? each.day,
    amount: each.kind === 'payment' ? `-${each.amount}` : each.amount,
    words: textsOf(each),
}));

// All of it in these matters.
export async function readUnshown(page, matters) {
    const found = await Promise.all(matters.map(async (each) =>
        atBankOf(each, (await page.desk.getPatiently(entriesPath(each.matter))).body.entries)));
    return found.flat();
}

export async function readAtBank(page) {
    const [matters, waiting] = await Promise.all([readMatters(page), readWaiting(page)]);
    return readUnshown(page, unshownIn(matters, waiting).matters);
}
