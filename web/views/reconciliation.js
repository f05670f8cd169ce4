// The three-way reconciliation of a day on which a statement ended.

import { grouped, isNothing } from '../amounts.js';
import { doneBox, noteBox, warningBox } from '../boxes.js';
import { el, explained, label, link, money, number, p, printed, quiet, strong } from '../elements.js';
import { readBreaks, readFigures } from '../reports.js';
import { column, table } from '../tables.js';
import { meansOf } from '../words.js';
import { closingForm, lookForLast, rememberClosing } from './closings.js';
import { outstandingTables } from './movements.js';

const HERE = '#/reconciliation';

// What the figures say.
export function resultBox(figures) {
    const { GAP: gap, DIFFERENCE: difference, EXCEPTIONS: exceptions, EARLY: early } = figures;
    const more = isNothing(difference) ? null : p(`The difference is ${grouped(difference)}; exceptions explain `
        + `${grouped(exceptions)} of it, and lines that the bank had before the books ${grouped(early)}.`);
    if (!isNothing(gap)) {
        const slips = isNothing(exceptions) ? null : p(`Exceptions come to ${grouped(exceptions)}. One that the bank `
            + 'does not have makes a gap: ', link('#/report/exceptions', 'look at them'), '.');
        return warningBox(`A gap of ${grouped(gap)} is explained by nothing. Find it before the month is filed.`, more,
            slips);
    }
    if (!isNothing(exceptions)) {
        return warningBox(`Lines of the bank that match nothing come to ${grouped(exceptions)}.`, more,
            p(link('#/report/exceptions', 'Give each its entry'), ', or know why it stays.'));
    }
    if (isNothing(difference)) return doneBox('Bank, journal and ledgers agree.');
    return noteBox(p(strong('Bank and journal differ by days alone: what the bank had early was booked later.')), more);
}

// An opening balance has to be the closing one before.
export const breaksBox = (breaks) => breaks.length > 0 && warningBox(
    'A statement does not begin where the one before ended.',
    breaks.map(({ day, opening, before, closing }) => p('It opens with ', grouped(opening), ' on ', number(day),
        ', after a closing balance of ', grouped(closing), ' on ', number(before), '. A statement between the two is '
        + 'missing, or one of the balances was mistyped.')));

export const EXPLAINED = ['CLOSING', 'IN TRANSIT', 'OUTSTANDING', 'ADJUSTED BANK', 'JOURNAL', 'LEDGERS', 'DIFFERENCE',
    'EXCEPTIONS', 'EARLY', 'GAP', 'DOUBLE', 'OPENING'];

const FIGURES = { CLOSING: 'The bank\u2019s closing balance', 'IN TRANSIT': 'Deposits in transit',
    OUTSTANDING: 'Outstanding payments', 'ADJUSTED BANK': 'Adjusted bank balance', JOURNAL: 'Journal',
    LEDGERS: 'Ledgers of clients and firm', DIFFERENCE: 'Difference', EXCEPTIONS: 'Exceptions', EARLY: 'Early lines',
    GAP: 'Gap' };

export const figuresTable = (figures) => table('Bank, journal and ledgers', [column('What'), column('Amount', 'right')],
    Object.entries(FIGURES).filter(([name]) => figures[name]).map(([name, words]) => [words, money(figures[name])]));

// So many of a list are shown at first.
const FIRST = 100;

export async function reconciliation(page, day = null) {
    const asked = () => closingForm(page, { day, address: HERE, action: 'Reconcile' });
    if (!day) return { title: 'Reconciliation', parts: [asked(), lookForLast(page, HERE)] };
    const path = `/firm/reconciliation/${day}`;
    const [{ text }, unshown] = await Promise.all([page.desk.get(path), page.desk.get(`/firm/outstanding/${day}`)]);
    rememberClosing(page, day);
    const figures = readFigures(text);
    const listed = quiet('Beside it is filed ', link(`#/clients/${day}`, 'the list of clients as of that day'),
        '; both stand in the packet of the ', link(`#/month/${day}`, 'month\u2019s end'), '.');
    const parts = [breaksBox(readBreaks(text)), resultBox(figures), figuresTable(figures),
        outstandingTables(unshown.text, FIRST),
        explained(meansOf(EXPLAINED)), printed(text, path, `reconciliation-${day}.txt`), listed, asked()];
    return { title: ['Reconciliation of ', number(day)], parts };
}
