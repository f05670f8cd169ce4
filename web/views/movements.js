// The receipts and the disbursements of a period, and what is outstanding on a day, with their names.

import { grouped, sumOf } from '../amounts.js';
import { refusedBox } from '../boxes.js';
import { el, label, link, money, number, p, printed, referenceLink, strong } from '../elements.js';
import { findField, form } from '../forms.js';
import { readMovements } from '../reports.js';
import { column, longTable } from '../tables.js';
import { MOVED } from '../words.js';
import { knownClosings } from './closings.js';
import { dayField, lastPeriod, periodForm } from './periods.js';
import { reportsList } from './report.js';

// So many movements are shown first.
const FIRST = 200;

export const JOURNALS = {
    receipts: { title: 'Receipts', caption: 'What came in', words: 'Source, what for, client',
        hint: 'By source, client, amount, day or reference', other: 'disbursements' },
    disbursements: { title: 'Disbursements', caption: 'What went out', words: 'Payee, what for, check number, client',
        hint: 'By payee, client, check number, amount, day or reference', other: 'receipts' },
};

const columnsOf = (words) => [column('Day', 'tight'), column('Reference', 'tight'), column('What', 'tight'),
    column(words), column('Amount', 'right')];

const cellsOf = ({ day, reference, kind, words, amount }) =>
    [number(day), referenceLink(reference), MOVED[kind], label(words), money(amount)];

const footOf = (words, sum) => [strong(words), '', '', '', strong(money(sum))];

// The movements above a sum, and the sum.
export const movementsTable = ({ caption, words, movements, sum, sumWords, first }) => longTable({
    caption,
    columns: columnsOf(words),
    items: movements,
    cells: cellsOf,
    first,
    foot: footOf(sumWords, sum),
});

const ITEMS = {
    'IN TRANSIT': ['Deposits in transit', 'Source, what for, client'],
    OUTSTANDING: ['Outstanding payments', 'Payee, what for, check number, client'],
};

export const outstandingTables = (text, first) => readMovements(text).map(({ name, sum, movements }) => {
    const [caption, words] = ITEMS[name];
    return movementsTable({ caption, words, movements, sum, sumWords: 'Together', first });
});

const textOf = ({ day, reference, kind, words, amount }) =>
    [day, reference, MOVED[kind], words, amount, grouped(amount)].join(' ').toLowerCase();

// The table of a journal, and the field by which its rows are looked for. What was typed goes along to the other one.
function searched(page, name, { movements, sum }) {
    const { caption, words, hint } = JOURNALS[name];
    const all = movements.map((each) => [textOf(each), each]);
    const place = el('div', {});
    const told = el('p', { class: 'hint', 'aria-live': 'polite' });
    const show = (wanted) => {
        const found = all.filter(([text]) => text.includes(wanted)).map(([, each]) => each);
        const together = wanted ? sumOf(found.map(({ amount }) => amount)) : sum;
        const table = movementsTable({ caption: wanted ? 'Found' : caption, words, movements: found, sum: together,
            sumWords: 'Together', first: FIRST });
        told.textContent = wanted ? `Found: ${found.length} of ${all.length}.` : '';
        place.replaceChildren(table);
    };
    const find = (wanted) => {
        page.sought = wanted;
        show(wanted);
    };
    const field = findField({ id: 'find-movement', words: 'Find an entry', hint, value: page.sought, find });
    show(page.sought);
    return el('div', { class: 'on-screen' }, field, told, place);
}

// What a view of a report has below the list of reports: the report, or its refusal, and the form to ask again.
async function reported(page, path, asked, partsOf) {
    const answer = await page.desk.read(path);
    return answer.isDone ? [...partsOf(answer.text), asked] : [refusedBox(answer, page.person), asked];
}

export async function journalOf(page, name, from = null, to = null) {
    const { title, other } = JOURNALS[name];
    const [first, last] = lastPeriod(page);
    const asked = periodForm({ page, from: from ?? first, to: to ?? last, action: `List the ${name}`,
        address: `#/report/${name}` });
    if (!from) return { title, parts: [reportsList(name), asked] };
    const path = `/firm/${name}/${from}/${to}`;
    const parts = await reported(page, path, asked, (text) => [
        searched(page, name, readMovements(text)[0]),
        p(link(`#/report/${other}/${from}/${to}`, `The ${other} of the same days`)),
        ...printed(text, path, `${name}-${from}-${to}.txt`),
    ]);
    return { title: [`${title}, `, number(from), ' to ', number(to)], parts: [reportsList(name), ...parts] };
}

export async function outstanding(page, day = null) {
    const asked = form({
        fields: [dayField('day', 'The day', day ?? knownClosings(page)[0] ?? page.desk.day)],
        action: 'List what is outstanding',
        submit: (values) => page.go(`#/report/outstanding/${values.day}`),
    });
    if (!day) return { title: 'Outstanding items', parts: [reportsList('outstanding'), asked] };
    const path = `/firm/outstanding/${day}`;
    const parts = await reported(page, path, asked, (text) => [
        el('div', { class: 'on-screen' }, outstandingTables(text, FIRST)),
        ...printed(text, path, `outstanding-${day}.txt`),
    ]);
    return { title: ['Outstanding items of ', number(day)], parts: [reportsList('outstanding'), ...parts] };
}
