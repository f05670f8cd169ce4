// The bank's lines that match nothing, and the ways out: what a line is gets decided as for a line of the bank's file;
// one that was a slip in a file, or that the book has under another reference, is dismissed.

import { grouped } from '../amounts.js';
import { change } from '../asks.js';
import { BankFile } from '../bank-file.js';
import { doneBox, noteBox, refusedBox } from '../boxes.js';
import { textOf } from '../csv.js';
import { button, el, label, money, number, p, referenceLink } from '../elements.js';
import { askExceptions, fieldsOf, isEntry } from '../exceptions.js';
import { areInBook, openFile } from '../matched.js';
import { whyException } from '../reasons.js';
import { FILE } from '../shelf.js';
import { column, longTable } from '../tables.js';

const PATH = '/firm/exceptions/dismiss';
const HERE = '#/report/exceptions';

// So many lines are shown at first.
const FIRST = 100;

// What a line is called on its button.
const nameOf = ({ reference, amount }) => (isEntry(reference) ? reference : `the line of ${grouped(amount)}`);

const wholeOf = (line) => Object.values(fieldsOf(line)).filter(Boolean).join(' ');

// Asked once more, since it is not taken back.
function confirm(page, line, place) {
    const { isKnown } = line;
    const dismiss = () => change(page,
        { path: PATH, fields: fieldsOf(line), done: 'The line is no exception any more.', then: HERE, place });
    const words = isKnown ? '? The book has this line under another reference. Nothing else changes.'
        : '? Only where the bank does not have this line. Nothing else changes.';
    const asked = noteBox(
        p('Dismiss ', label(wholeOf(line)), words),
        el('div', { class: 'buttons' },
            button(isKnown ? 'Dismiss it' : 'The bank does not have it: dismiss it', dismiss, ''),
            button('Keep it', () => place.replaceChildren())),
    );
    place.replaceChildren(asked);
    asked.focus();
}

const COLUMNS = [column('Day', 'tight'), column('Reference', 'tight'), column('Amount', 'right'),
    column("The bank's number and words"), column('Change', 'tight')];

const KNOWN = 'The book has this line under another reference: this one can be dismissed.';

// What the bank says, and below it why the line matches nothing.
const wordsOf = (line) => [
    label([line.bank_ref, line.text].filter(Boolean).join(' | ')),
    el('p', { class: 'hint' }, line.isKnown ? KNOWN : whyException(line)),
];

const cellsOf = (page, place) => (line) => [number(line.date), referenceLink(line.reference), money(line.amount),
    wordsOf(line), button(`Dismiss ${nameOf(line)}`, () => confirm(page, line, place))];

// The lines, with whether the book has each by another reference.
async function withKnown(page, lines) {
    const isKnown = await areInBook(page, lines);
    return lines.map((line, i) => ({ ...line, isKnown: isKnown[i] }));
}

// Takes the lines into the view of the bank's file, without the references that were wrong.
const deciding = (page, lines) => button('Decide what these lines are', () => {
    BankFile.taken(page.shelf, 'The exceptions', textOf(openFile(lines)));
    page.go('#/statement');
}, '');

// What stands below the list of exceptions: nothing where it has none.
export async function dismissal(page) {
    const answer = await askExceptions(page);
    if (!answer.isDone) return refusedBox(answer, page.person);
    const lines = await withKnown(page, answer.body.exceptions);
    if (!lines.length) return null;
    const place = el('div', {});
    const cells = cellsOf(page, place);
    const open = lines.filter(({ isKnown }) => !isKnown);
    const [kept] = page.shelf.read(FILE);
    return el('section', { 'aria-labelledby': 'dismissal' },
        el('h2', { id: 'dismissal' }, 'A slip in a file'),
        p('A line that was typed or imported wrong stays an exception, also once the right one is applied. It can be ',
            'dismissed. A line that the bank has, and nobody knows of, stays: the reconciliation counts on it.'),
        open.length > 0 && p('A line that the bank has can be given its entry: ', deciding(page, open),
            kept && el('span', { class: 'hint' }, ` They take the place of ${kept.name}, which this browser keeps.`)),
        place,
        longTable({ caption: 'Exceptions', columns: COLUMNS, items: lines, cells, first: FIRST }));
}

// Exceptions that are in the book under another reference by now, each with a button that dismisses it. Null where
// there are none.
export function dismissOffers(page, all) {
    if (!all.length) return null;
    const offerOf = (line) => {
        const fields = fieldsOf(line);
        const item = el('li', {});
        const dismiss = async () => {
            page.say('Sending');
            const answer = await page.desk.post(PATH, JSON.stringify(fields));
            page.say('');
            item.replaceChildren(answer.isDone ? doneBox('The line is no exception any more.')
                : refusedBox(answer, page.person));
            item.firstChild.focus();
        };
        item.append(money(fields.amount), ' of ', number(fields.date), ', under ',
            ...[referenceLink(fields.reference) || 'no reference'].flat().filter(Boolean), ' ',
            button(`Dismiss the exception under ${fields.reference || 'no reference'}`, dismiss));
        return item;
    };
    return noteBox(p('These lines are in the book now. They are still exceptions under another reference, and the '
        + 'reconciliation counts them so:'), el('ul', {}, all.map(offerOf)));
}
