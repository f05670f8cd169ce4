// What the cashier sees first: what waits for a lawyer and for the bank, the account by day, and all matters.

import { grouped } from '../amounts.js';
import { readUnshown } from '../at-bank.js';
import { balanceOfJournal } from '../balance.js';
import { noteBox } from '../boxes.js';
import { chart } from '../chart.js';
import { el, link, money, number, p, quiet, readAgain, sums } from '../elements.js';
import { findField } from '../forms.js';
import { isProposed, readKept, readMatters, readWaiting, unshownIn } from '../lists.js';
import { clockDay, fiveYearsTo } from '../names.js';
import { countLines, dayOf, readMovements, readTrial } from '../reports.js';
import { MOVED, STATES, textsOf } from '../words.js';
import { atBankTable, foundTable, matterLists, waitingTables } from './lists.js';

const otherDay = (day) => day !== clockDay()
    && noteBox(p('The desk books everything on ', number(day), ". This browser's clock has ", number(clockDay()), '.'));

const sumsOf = (books, exceptions) => sums([
    ['total', 'All ledgers together', money(books.total)],
    ['firm', "The firm's own", money(books.firm), link('#/own', 'Its lines')],
    ['exceptions', 'Bank lines that match nothing', exceptions ? link('#/report/exceptions', String(exceptions)) : '0'],
], 'firm');

// Reads something once it is wanted, and then shows it in a place. A refusal is told there.
async function showLate(page, place, read) {
    place.setAttribute('aria-busy', 'true');
    place.replaceChildren(quiet('Reading\u2026'));
    try {
        place.replaceChildren(...[await read()].flat().filter(Boolean));
    } catch (fault) {
        place.replaceChildren(...page.failed(fault).parts);
    } finally {
        place.removeAttribute('aria-busy');
    }
}

const paymentsOf = (count) => (count === 1 ? '1 issued payment' : `${count} issued payments`);

// How much the bank has not shown; the entries are asked for by whoever opens the list.
function unshownPart(page, { matters, held, issued }) {
    if (!matters.length) return null;
    const place = el('div', {});
    let isRead = false;
    const toggle = ({ target }) => {
        if (!target.open || isRead) return;
        isRead = true;
        showLate(page, place, async () => atBankTable(await readUnshown(page, matters)));
    };
    return el('details', { class: 'unshown', toggle },
        el('summary', {}, 'Not yet shown by the bank: deposits of ', money(held), `, ${paymentsOf(issued)}`), place);
}

// A movement of a journal, or what waits, as an entry that can be looked for.
function movedEntry({ day, reference, amount, kind, words }) {
    const [, matter, entry] = /^M(\d{6})-(\d{4})$/.exec(reference);
    return { matter, entry, reference, day, what: MOVED[kind], words, amount };
}

const waitingEntry = ({ client, entry: { matter, entry, day, amount, ...more } }) => ({ matter, entry, day, amount,
    reference: `M${matter}-${entry}`, what: isProposed(more) ? STATES.proposed[0] : 'open claim',
    words: `${textsOf(more)} | ${client}` });

// All movements of matters in the last five years, the newest first, behind what waits.
async function readEntries(page, waiting) {
    const days = fiveYearsTo(page.desk.day).join('/');
    const answers = await Promise.all(['receipts', 'disbursements'].map((name) =>
        page.desk.get(`/firm/${name}/${days}`)));
    const moved = answers.flatMap(({ text }) => readMovements(text)[0].movements)
        .filter(({ reference }) => reference !== 'FIRM')
        .sort((one, other) => (one.day > other.day ? -1 : Number(one.day < other.day)));
    const all = [...waiting.map(waitingEntry), ...moved.map(movedEntry)];
    return all.map((each) => [`${each.words} ${each.amount} ${grouped(each.amount)}`.toLowerCase(), each]);
}

// Shows the entries that have these letters, from the second one on. They are read once somebody looks for one.
function findEntries(page, waiting) {
    const place = el('div', { 'aria-live': 'polite' });
    let all = null;
    let wanted = '';
    const found = () => {
        if (wanted.length < 2) return null;
        const entries = all.filter(([words]) => words.includes(wanted)).map(([, each]) => each);
        return foundTable(entries) ?? quiet('Nothing that was paid in or out, or waits, has that.');
    };
    const read = async () => {
        all = await readEntries(page, waiting);
        return found();
    };
    let isRead = false;
    const find = (words) => {
        wanted = words;
        if (all) place.replaceChildren(...[found()].filter(Boolean));
        else if (!isRead) {
            isRead = true;
            showLate(page, place, read);
        }
    };
    const hint = 'Of the last five years, by payee, source, purpose, client, check number or amount';
    const more = quiet('Older ones stand among the ', link('#/report/receipts', 'receipts'), ' and the ',
        link('#/report/disbursements', 'disbursements'), ' of their days; a fee, or a claim that is settled, in its '
            + 'matter.');
    return [findField({ id: 'find-entry', words: 'Find an entry', hint, find }), place, more];
}

export async function overview(page) {
    const [matters, waiting, kept, ...reports] = await Promise.all([readMatters(page), readWaiting(page),
        readKept(page), ...['trial-balance', 'exceptions', 'journal'].map((name) => page.desk.get(`/firm/${name}`))]);
    const [trial, exceptions, journal] = reports.map(({ text }) => text);
    page.desk.day = dayOf(trial);
    const parts = [
        otherDay(page.desk.day),
        sumsOf(readTrial(trial), countLines(exceptions)),
        matters.length > 0 && waitingTables(waiting),
        unshownPart(page, unshownIn(matters, waiting)),
        matters.length > 0 && findEntries(page, waiting),
        chart('The account by day, as the journal has it', balanceOfJournal(journal), page.desk.day),
        matterLists(matters, kept),
        readAgain(page),
    ];
    return { title: 'Overview', parts };
}
