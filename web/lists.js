// The matters of whoever asks, what waits in them, and until when closed ones are kept, as the desk lists these; and
// what waits in one matter, by its entries.

import { isNothing, sumOf } from './amounts.js';
import { readRetention } from './reports.js';

export const readMatters = async (page) => (await page.desk.get('/matters')).body.matters;
export const readWaiting = async (page) => (await page.desk.get('/waiting')).body.waiting;

// What the retention list tells of each closed matter, by the matters' numbers.
export const readKept = async (page) => new Map(readRetention((await page.desk.get('/firm/retention')).text)
    .map((each) => [each.matter, each]));

export const isProposed = ({ kind, state }) => kind === 'payment' && state === 'proposed';
export const isOpenClaim = ({ kind, state }) => kind === 'claim' && state === 'open';

const isOfOneFund = (one, other) => one.from === other.from && one.of === other.of;

// What waits in a matter, each as the desk lists it: what is left of a payment's fund, and what other payments are
// proposed from that fund.
export function waitingOf(matter, entries) {
    const proposed = entries.filter(isProposed);
    const leftOf = ({ from, of }) => (from === 'general' ? matter.available : entries[Number(of) - 1].left);
    const othersOf = (entry) => sumOf(proposed.filter((each) => each !== entry && isOfOneFund(each, entry))
        .map(({ amount }) => amount));
    return entries.filter((each) => isProposed(each) || isOpenClaim(each)).map((entry) => ({
        client: matter.client,
        entry,
        held: matter.held,
        left: isProposed(entry) ? leftOf(entry) : null,
        others: isProposed(entry) ? othersOf(entry) : null,
    }));
}

// How many payments of each matter are issued, by the matters' numbers: those that pend, less those that wait.
function issuedIn(matters, waiting) {
    const issued = new Map(matters.map(({ matter, pending }) => [matter, pending]));
    for (const { entry } of waiting.filter((each) => isProposed(each.entry))) {
        issued.set(entry.matter, (issued.get(entry.matter) ?? 0) - 1);
    }
    return issued;
}

// What the bank has not shown, as far as the lists tell it: the matters that have something, the deposits of all of
// them together, and how many payments.
export function unshownIn(matters, waiting) {
    const issued = issuedIn(matters, waiting);
    const found = matters.filter(({ matter, held }) => !isNothing(held) || issued.get(matter) > 0);
    return {
        matters: found,
        held: sumOf(found.map(({ held }) => held)),
        issued: found.reduce((count, { matter }) => count + Math.max(0, issued.get(matter)), 0),
    };
}
