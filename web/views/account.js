// A client's statement of account: what a period began with, each movement with the balance behind it, and what it
// ended with. For the people of the matter too.

import { grouped } from '../amounts.js';
import { noteBox, refusedBox } from '../boxes.js';
import { accountPath } from '../desk.js';
import { el, label, money, number, p, printed, referenceLink, strong } from '../elements.js';
import { clockDay, daysBetween, shown } from '../names.js';
import { readAccount } from '../reports.js';
import { column, longTable } from '../tables.js';
import { MOVED } from '../words.js';
import { knownClosings } from './closings.js';
import { backTo, readMatterWhole } from './matter.js';
import { periodForm } from './periods.js';

// So many movements are shown first.
const FIRST = 200;
// A payment that the bank has not shown after so many days is told.
const STALE = 180;

const COLUMNS = [column('Day', 'tight'), column('Entry', 'tight'), column('What', 'tight'), column('Details'),
    column('Amount', 'right'), column('Balance', 'right')];

const cellsOf = ({ day, reference, kind, words, amount, sum }) =>
    [number(day), referenceLink(reference), MOVED[kind], label(words), money(amount), money(sum)];

// What moved between the two sums; so many movements are shown first.
export function movedTable({ opening, movements, closing }, first) {
    const items = [{ opening }, ...movements];
    const cells = (each) => (each.opening ? ['Opening', '', '', '', '', money(each.opening)] : cellsOf(each));
    return longTable({ caption: 'What came in and went out', columns: COLUMNS, items, cells, first: first + 1,
        foot: [strong('Closing'), '', '', '', '', strong(money(closing))] });
}

const accountTable = (text) => el('div', { class: 'on-screen' }, movedTable(readAccount(text), FIRST));

// Payments that were issued by the last day and long ago, and that the bank has not shown yet.
function staleBox(page, entries, to) {
    const today = page.desk.day ?? clockDay();
    const stale = entries.filter(({ state, issued }) => state === 'issued' && issued <= to
        && daysBetween(issued, today) > STALE);
    return stale.length > 0 && noteBox(stale.map(({ entry, amount, payee, issued }) =>
        p(`Payment ${entry} of ${grouped(amount)} to ${shown(payee)} was issued on `, number(issued),
            `, more than ${STALE} days ago, and the bank has not shown it.`)));
}

export async function account(page, no, from = null, to = null) {
    const { matter, entries } = await readMatterWhole(page, no);
    const last = knownClosings(page)[0];
    const asked = periodForm({ page, from: from ?? (last ? `${last.slice(0, 8)}01` : matter.opened),
        to: to ?? last ?? page.desk.day ?? clockDay(), action: 'Show the account', address: `#/m/${no}/account` });
    if (!from) return { title: ['Statement of account, ', label(matter.client)], parts: [asked, backTo(no)] };
    const path = accountPath(no, from, to);
    const answer = await page.desk.read(path);
    const title = ['Statement of account of ', label(matter.client), ', ', number(from), ' to ', number(to)];
    if (!answer.isDone) return { title, parts: [refusedBox(answer, page.person), asked, backTo(no)] };
    const parts = [staleBox(page, entries, to), accountTable(answer.text),
        printed(answer.text, path, `account-${no}-${from}-${to}.txt`), asked, backTo(no)];
    return { title, parts };
}
