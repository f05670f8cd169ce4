// The firm's reports: with names and grouped sums, and as the desk prints them.

import { button, el, label, link, money, number, p, printed, referenceLink } from '../elements.js';
import { readMatters } from '../lists.js';
import { beginsLate, countLines, dayOf, readJournal, readRetention, readTrail, readTrial } from '../reports.js';
import { column, longTable } from '../tables.js';
import { deedWords } from '../words.js';
import { dismissal } from './exceptions.js';

// Of a long report the end is shown first.
const LAST = 1000;
// So many rows of a table are shown at first.
const FIRST = 100;

const matterLink = (matter) => link(`#/m/${matter}`, number(matter));

// An entry, or a matter.
export const actLink = (reference) =>
    (reference.length === 7 ? matterLink(reference.slice(1)) : referenceLink(reference));

function trialRows({ matters, firm, total }) {
    return [...matters, { words: 'The firm\u2019s own', ledger: firm },
        { words: 'All ledgers together', ledger: total }];
}

// Each report that takes no day: its title, what is said where it has no line, and, if it has one, its table: columns,
// what may stand above it, and rows, in which the matters' clients are named.
const REPORTS = {
    'trial-balance': {
        title: 'Trial balance',
        table: {
            caption: 'Whose money it is',
            columns: [column('Matter', 'tight'), column('Client'), column('Ledger', 'right')],
            read: (text) => trialRows(readTrial(text)),
            cells: ({ matter, words, ledger }, nameOf) =>
                [matter ? matterLink(matter) : words, matter && nameOf(matter), money(ledger)],
        },
    },
    journal: {
        title: 'Journal',
        empty: 'Nothing came into the account yet.',
        table: {
            caption: 'The account, newest first',
            columns: [column('Day', 'tight'), column('Reference', 'tight'), column('Client'), column('Amount', 'right'),
                column('Account', 'right')],
            read: (text) => readJournal(text)
                .map((each) => ({ ...each, matter: /^M(\d{6})/.exec(each.reference)?.[1] })).reverse(),
            cells: ({ day, reference, matter, amount, sum }, nameOf) => [number(day), referenceLink(reference),
                matter ? nameOf(matter) : 'the firm', money(amount), money(sum)],
        },
    },
    trail: {
        title: 'Trail',
        empty: 'Nothing was done yet.',
        table: {
            caption: 'Who did what, newest first',
            columns: [column('Day', 'tight'), column('Reference', 'tight'), column('Client'), column('Who'),
                column('What')],
            note: (text) => beginsLate(text) && p('Earlier acts are not recorded.'),
            read: (text) => readTrail(text).reverse(),
            cells: ({ day, reference, caller, deed, more, line }, nameOf) => [number(day),
                reference && actLink(reference), reference && nameOf(reference.slice(1, 7)), label(caller),
                line ? ['dismissed the exception ', label(line)] : deedWords(deed, more)],
        },
    },
    exceptions: { title: 'Exceptions', empty: 'Each line of the bank\u2019s has its entry.' },
    retention: {
        title: 'Retention',
        empty: 'No matter is closed.',
        table: {
            caption: 'Closed matters, and until when their records are kept',
            columns: [column('Matter', 'tight'), column('Client'), column('Closed', 'tight'),
                column('Keep until', 'tight'), column('Records')],
            read: readRetention,
            cells: ({ matter, closed, until, mayGo }, nameOf) => [matterLink(matter), nameOf(matter), number(closed),
                number(until), mayGo ? 'may be purged' : 'are kept'],
        },
    },
};

export const REPORT_NAMES = Object.keys(REPORTS);

// Those of a day or of a period have views of their own.
const PLACES = {
    clients: ['#/clients', 'Clients as of a day'],
    receipts: ['#/report/receipts', 'Receipts'],
    disbursements: ['#/report/disbursements', 'Disbursements'],
    approvals: ['#/report/approvals', 'Approvals'],
    outstanding: ['#/report/outstanding', 'Outstanding items'],
    accounts: ['#/accounts', 'Statements of account'],
    ...Object.fromEntries(Object.entries(REPORTS).map(([name, { title }]) => [name, [`#/report/${name}`, title]])),
};

const linkTo = ([href, words], isHere) => el('a', { href, 'aria-current': isHere ? 'page' : null }, words);

export const reportsList = (now) => el('ul', { class: 'actions', 'aria-label': 'Reports' },
    Object.keys(PLACES).map((name) => el('li', {}, linkTo(PLACES[name], name === now))));

// The table of a report.
function named(name, { caption, columns, note, read, cells }, text, matters) {
    const clients = new Map(matters.map(({ matter, client }) => [matter, client]));
    const nameOf = (matter) => label(clients.get(matter) ?? '');
    return el('div', { class: `named ${name}` }, note?.(text), longTable({ caption, columns, items: read(text),
        cells: (each) => cells(each, nameOf), first: FIRST }));
}

function asPrinted(text, path, file) {
    const lines = text.split('\n');
    const place = el('div', {});
    const showAll = () => place.replaceChildren(...printed(text, path, file));
    if (lines.length - 2 <= LAST) showAll();
    else {
        place.append(p(`The last ${LAST} of ${lines.length - 2} lines.`),
            p(button('Show all', showAll)), ...printed([lines[0], ...lines.slice(-LAST - 1)].join('\n'), path, file));
    }
    return place;
}

export async function report(page, name) {
    const path = `/firm/${name}`;
    const { title, empty, table } = REPORTS[name];
    const [{ text }, matters] = await Promise.all([page.desk.get(path), table ? readMatters(page) : []]);
    page.desk.day = dayOf(text);
    const shown = countLines(text) === 0 ? p(empty) : table && named(name, table, text, matters);
    const more = name === 'exceptions' && await dismissal(page);
    const parts = [reportsList(name), shown, asPrinted(text, path, `${name}-${page.desk.day}.txt`), more];
    return { title, parts };
}
