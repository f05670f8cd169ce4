// What became of the bank's file: what would be imported, and the counts.

import { noteBox } from '../boxes.js';
import { el, label, p, referenceLink, strong } from '../elements.js';
import { column, longTable } from '../tables.js';
import { amountOf, dayOf } from './left.js';

// So many lines are shown at first.
const FIRST = 100;

const BY = { '': '', typed: 'named here', filled: 'filled' };

const byOf = ({ by }) => by && el('span', { class: 'state', 'data-state': by }, BY[by]);

const WRITTEN_COLUMNS = [column('Reference', 'tight'), column('Named by', 'tight'), column('Day', 'tight'),
    column('Amount', 'right'), column("The bank's words")];

const writtenCells = (line) => (line.isWhole
    ? [referenceLink(line.reference), byOf(line), dayOf(line.date), amountOf(line.amount), label(line.text)]
    : ['not readable', '', '', '', label(line.whole)]);

export const writtenTable = (lines) => longTable({
    caption: 'What would be imported',
    columns: WRITTEN_COLUMNS,
    items: lines,
    cells: writtenCells,
    first: FIRST,
});

const count = (many, one, words) => (many === 1 ? `1 ${one}` : `${many} ${words}`);

// How many lines that would be imported are told all the same: what they name can't be theirs.
export const countWrong = ({ told }) => told.filter(({ line }) => line?.isWhole && line.reference).length;

export const BELOW_ZERO = 'Its closing balance is below zero: look at it once more.';

// What the file became, in a sentence; the counts are the desk's own, but for what the page leaves to a person.
export const matchedBox = (file, { written, inBook, left }) => noteBox(
    p(strong(`${file.name}: ${count(written, 'line', 'lines')} would be imported, ${inBook} in the book already, `
        + `${left} to be looked at.`)),
    p('Nothing was imported by this.'),
    file.closesBelowZero() && p(BELOW_ZERO),
);
