// What is told before something is booked: facts that may mean a mistake. Nothing is refused by them.

import { grouped, isMore } from './amounts.js';
import { matterPath } from './desk.js';
import { isProposed } from './lists.js';
import { clockDay, daysBetween, fiveYearsTo, isSameName } from './names.js';
import { readMovements } from './reports.js';

const DAYS = 7;
// So many matters are asked whether they have a lawyer, the newest first, and so many at a time.
const MATTERS = 100;
const AT_ONCE = 10;

// The same amount by the same source within a week.
export function doubtsOfDeposit({ amount, source }, entries, today) {
    const day = today ?? entries.at(-1)?.day;
    return entries.filter((each) => each.kind === 'deposit' && each.state !== 'cancelled' && each.amount === amount
        && each.source === source && daysBetween(each.day, day) <= DAYS)
        .map((each) => `Entry ${each.entry} of ${each.day} is a deposit of ${grouped(amount)} by ${source} too. `
            + 'Is it the same money?');
}

// Other words for cash; the word itself alone is refused by the desk.
const CASH = /\b(petty cash|cash|atm|bearer)\b/iu;

const isInUse = ({ kind, state }) => kind === 'payment' && state !== 'declined' && state !== 'voided';

// What went out in the last five years, with all its words. Only the cashier sees that of the firm.
async function readPaid(page) {
    if (!page.isCashier) return [];
    const answer = await page.desk.read(`/firm/disbursements/${fiveYearsTo(page.desk.day ?? clockDay()).join('/')}`);
    return answer.isDone ? readMovements(answer.text)[0].movements : [];
}

async function readProposed(page) {
    const answer = await page.desk.read('/waiting');
    return answer.isDone ? answer.body.waiting.map(({ entry }) => entry).filter(isProposed) : [];
}

// The payments of these that were not voided.
function paidOf(movements) {
    const voided = new Set(movements.filter(({ kind }) => kind === 'VOIDED').map(({ reference }) => reference));
    return movements.filter(({ kind, reference }) => kind === 'PAYMENT' && !voided.has(reference));
}

const MOST = 999999999; // a check's number has at most nine digits

// The number of the next check: behind the greatest that the payments of the last five years have, and those that wait.
// Empty where there is none, and for whoever does not see the firm's payments.
export async function nextCheck(page) {
    if (!page.isCashier) return '';
    const [paid, proposed] = await Promise.all([readPaid(page), readProposed(page)]);
    // In a report's words the number is the third of four; where a name has a bar in it nobody can say which it is.
    const printed = paid.map(({ words }) => words.split(' | ')).filter(({ length }) => length === 4)
        .map((all) => all[2]);
    const numbers = [...printed, ...proposed.map(({ instrument }) => instrument)]
        .filter((each) => /^\d{1,9}$/.test(each)).map(Number);
    const next = Math.max(0, ...numbers) + 1;
    return numbers.length && next <= MOST ? String(next) : '';
}

// A payee that is the firm by its own name.
export const isFirmItself = (page, payee) => page.firm.length > 0 && isSameName(payee, page.firm[0]);
export const FIRM_ITSELF = 'is the firm, by its name, and the general fund is the client\u2019s money. What the firm '
    + 'earned is recorded as a fee, and paid from that to FIRM.';

// The payments that have the number of a check too, by their references: those of the matter, those that wait, and
// those that are out. In a report's words the number stands between the purpose and the client.
async function withNumber(page, instrument, entries) {
    const waiting = await readProposed(page);
    const found = [...entries.filter(isInUse), ...waiting].filter((each) => each.instrument === instrument)
        .map(({ matter, entry, amount }) => [`M${matter}-${entry}`, amount]);
    const paid = paidOf(await readPaid(page)).filter(({ words }) => words.includes(` | ${instrument} | `))
        .map(({ reference, amount }) => [reference, amount]);
    return [...new Map([...found, ...paid])].map(([reference, amount]) => `Payment ${reference.slice(8)} of matter `
        + `${reference.slice(1, 7)}, ${grouped(amount)}, has the number ${instrument} too. Is it one check?`);
}

// `left` is what is left of the fund that it is drawn on.
export async function doubtsOfPayment(page, { amount, from, payee, instrument }, entries, left) {
    return [
        from === 'general' && isFirmItself(page, payee) && `${payee} ${FIRM_ITSELF}`,
        left !== undefined && isMore(amount, left) && `Only ${grouped(left)} is left of that fund now. It can be `
            + 'proposed, and approving it is refused until there is enough.',
        CASH.test(payee) && !/^cash$/iu.test(payee)
            && `${payee}: nobody is paid in cash from a trust account. Name the person or office.`,
        ...await withNumber(page, instrument, entries),
    ].filter(Boolean);
}

async function seatsOf(page, matters) {
    const answers = await Promise.all(matters.map((matter) => page.desk.read(matterPath(matter))));
    return answers.flatMap(({ isDone, body }) => (isDone ? body.seats : []));
}

// A lawyer who has access to no other matter: perhaps the name is mistyped. `matters` are the numbers of the open ones.
export async function doubtsOfLawyer(page, lawyer, matters) {
    const asked = matters.slice(-MATTERS).reverse();
    let isAlone = true; // no matter has a seat yet
    for (let at = 0; at < asked.length; at += AT_ONCE) {
        const seats = await seatsOf(page, asked.slice(at, at + AT_ONCE));
        if (seats.some(({ person, role }) => person === lawyer && role === 'lawyer')) return [];
        isAlone &&= !seats.length;
    }
    const others = matters.length > asked.length ? `none of the last ${asked.length} matters` : 'no other matter';
    return isAlone ? [] : [`${lawyer} is the lawyer of ${others}. Is that how this lawyer signs on?`];
}
