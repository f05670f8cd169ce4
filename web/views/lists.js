// What several views list: what waits, what the bank has not shown, entries that were found, and matters.

import { isMore, isNothing } from '../amounts.js';
import { el, label, link, money, number, quiet } from '../elements.js';
import { findField } from '../forms.js';
import { isOpenClaim, isProposed } from '../lists.js';
import { shown } from '../names.js';
import { column, growingTable, longTable } from '../tables.js';
import { STATES, fundOf, textsOf } from '../words.js';

// An overview shows so many of each list.
const FIRST = 10;
// From so many matters on there is a field to look for one.
const MANY = 10;

export const entryLink = ({ matter, entry }) => el('a', {
    href: `#/m/${matter}/e/${entry}`,
    class: 'number',
    'aria-label': `entry ${entry} of matter ${matter}`,
}, entry);

// How an entry stands, in a word or two.
export const stateOf = ({ kind, state, left }) => (kind === 'fee'
    ? el('span', { class: 'state', 'data-state': 'earned' }, money(left), ' left')
    : el('span', { class: 'state', 'data-state': state }, STATES[state][0]));

const MATTER = column('Matter');
const matterCell = ({ client, entry }) => [number(entry.matter), ' ', label(client)];

// Where all that waits is of one matter (`isOne`) it is not named.
const columnsOf = (isOne, ...columns) => [column('Entry', 'tight'), ...(isOne ? [] : [MATTER]), ...columns];
const cellsOf = (isOne, each, ...cells) => [entryLink(each.entry), ...(isOne ? [] : [matterCell(each)]), ...cells];

// What is left of a payment's fund; and a word where that is not enough, with what the bank may still show.
const leftCell = ({ entry, left, held }) => (isMore(entry.amount, left)
    ? [money(left), el('span', { class: 'warning' }, ' not enough'),
        !isNothing(held) && el('span', { class: 'hint' }, ' with ', money(held), ' held')]
    : money(left));

const paymentsTable = (items, isOne) => longTable({
    caption: 'Payments that wait for a lawyer',
    columns: columnsOf(isOne, column('Proposed', 'tight'), column('Payee, purpose, check'), column('Drawn on'),
        column('Amount', 'right'), column('Left of it', 'right'), column('Others from it', 'right part')),
    items,
    cells: (each) => cellsOf(isOne, each, number(each.entry.day), label(textsOf(each.entry)), fundOf(each.entry),
        money(each.entry.amount), leftCell(each), money(each.others)),
    first: FIRST,
});

const claimantOf = (claim) => (claim.on === 'fee' ? `the client, on ${fundOf(claim)}` : label(claim.claimant));
const offerOf = ({ to_client: part }) => (part === null ? 'nothing yet' : money(part));

const claimsTable = (items, isOne) => longTable({
    caption: 'Open claims',
    columns: columnsOf(isOne, column('Claimed', 'tight'), column('By'), column('Reason'),
        column('Offered to the client', 'right'), column('Amount', 'right')),
    items,
    cells: (each) => cellsOf(isOne, each, number(each.entry.day), claimantOf(each.entry), label(each.entry.reason),
        offerOf(each.entry), money(each.entry.amount)),
    first: FIRST,
});

const byDay = (one, other) => (one.entry.day < other.entry.day ? -1 : Number(one.entry.day > other.entry.day));

// Payments that wait for a lawyer and open claims, the oldest first.
export function waitingTables(waiting, isOne = false) {
    const items = [...waiting].sort(byDay);
    const tables = [paymentsTable(items.filter(({ entry }) => isProposed(entry)), isOne),
        claimsTable(items.filter(({ entry }) => isOpenClaim(entry)), isOne)].filter(Boolean);
    return tables.length ? tables : [quiet('Nothing waits for a decision.')];
}

const BANK_COLUMNS = [column('Reference', 'tight'), column('Client'), column('Details'), column('Day', 'tight'),
    column('Amount', 'right')];

// The reference is the one that the bank's line has to have.
const bankCells = ({ matter, entry, reference, client, words, day, amount }) =>
    [link(`#/m/${matter}/e/${entry}`, number(reference)), label(client), label(words), day, money(amount)];

// What the bank has not shown.
export const atBankTable = (entries) => longTable({
    caption: 'Not yet shown by the bank',
    columns: BANK_COLUMNS,
    items: entries,
    cells: bankCells,
    first: FIRST,
});

const FOUND_COLUMNS = [column('Reference', 'tight'), column('Day', 'tight'), column('What', 'tight'),
    column('Details, client'), column('Amount', 'right')];

const foundCells = ({ matter, entry, reference, day, what, words, amount }) =>
    [link(`#/m/${matter}/e/${entry}`, number(reference)), number(day), what, label(words), money(amount)];

export const foundTable = (entries) => longTable({
    caption: 'Entries found',
    columns: FOUND_COLUMNS,
    items: entries,
    cells: foundCells,
    first: FIRST,
});

const SUMS = ['Available', 'Held', 'Fees', 'Disputed', 'Claims', 'Total'];

const matterLink = (matter) => link(`#/m/${matter}`, number(matter));

// On a phone the parts that are nothing are left out.
const MATTER_COLUMNS = [column('Matter', 'tight'), column('Client'),
    ...SUMS.map((name) => column(name, name === 'Total' ? 'right' : 'right part'))];

const matterCells = (each) =>
    [matterLink(each.matter), label(each.client), ...SUMS.map((name) => money(each[name.toLowerCase()]))];

const CLOSED_COLUMNS = [column('Matter', 'tight'), column('Client'), column('Closed', 'tight')];
const KEPT_COLUMNS = [...CLOSED_COLUMNS, column('Keep until', 'tight'), column('Records')];

const closedCells = ({ matter, client, closed }) => [matterLink(matter), label(client), closed];

function keptCells(each, kept) {
    const { until, mayGo } = kept.get(each.matter) ?? {};
    return [...closedCells(each), until ?? '', until && (mayGo ? 'may be purged' : 'are kept')];
}

// Open matters, and closed ones: with what the retention list tells of these where it is there.
function matterTables(matters, kept) {
    const [open, closed] = [matters.filter((each) => !each.closed), matters.filter((each) => each.closed)];
    return [
        growingTable({ caption: 'Matters', columns: MATTER_COLUMNS, items: open, cells: matterCells }),
        growingTable({ caption: 'Closed matters', columns: kept ? KEPT_COLUMNS : CLOSED_COLUMNS, items: closed,
            cells: (each) => (kept ? keptCells(each, kept) : closedCells(each)) }),
    ].filter(Boolean);
}

// All matters, and where they are many a field that shows those whose number or client has some letters. `kept` is what
// the retention list tells, by the matters' numbers.
export function matterLists(matters, kept = null) {
    const all = matters.map((each) => [`${each.matter} ${shown(each.client)}`.toLowerCase(), each]);
    const place = el('div', {});
    const told = el('p', { class: 'hint', 'aria-live': 'polite' });
    const show = (wanted) => {
        const found = all.filter(([words]) => words.includes(wanted)).map(([, each]) => each);
        told.textContent = wanted ? `Found: ${found.length} of ${all.length}.` : '';
        place.replaceChildren(...matterTables(found, kept));
    };
    show('');
    if (matters.length <= MANY) return [place];
    return [findField({ id: 'find', words: 'Find a matter', hint: 'By number or client', find: show }), told, place];
}
