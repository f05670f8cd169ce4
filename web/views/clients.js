// The clients' ledgers as of a day, beside the reconciliation of that day.

import { el, label, link, money, number, p, printed } from '../elements.js';
import { form } from '../forms.js';
import { readDay } from '../names.js';
import { readClients } from '../reports.js';
import { column, longTable } from '../tables.js';
import { knownClosings } from './closings.js';
import { reportsList } from './report.js';

// So many matters are listed first.
const FIRST = 200;

export const COLUMNS = [column('Matter', 'tight'), column('Client'), column('Ledger', 'right')];

const dayForm = (page, day) => form({
    fields: [{
        name: 'day',
        words: 'The day, as a rule the one on which a statement ended',
        type: 'date',
        value: day,
        read: readDay,
        wrong: 'Choose a day.',
    }],
    action: 'List the clients',
    submit: (values) => page.go(`#/clients/${values.day}`),
});

export const cellsOf = ({ matter, client, ledger }) =>
    [link(`#/m/${matter}`, number(matter)), label(client), money(ledger)];

// What a sheet has is the report alone.
function listOf(day, { matters, firm, total }) {
    const list = longTable({
        caption: `Matters open on ${day}`,
        columns: COLUMNS,
        items: matters,
        cells: cellsOf,
        first: FIRST,
    });
    const sums = p('With ', money(firm), ' of the firm\u2019s own that is ', money(total), ': LEDGERS of the ',
        link(`#/reconciliation/${day}`, 'reconciliation of that day'), '.');
    return el('div', { class: 'on-screen' }, list, sums);
}

export async function clients(page, day = null) {
    const asked = dayForm(page, day ?? knownClosings(page)[0]);
    if (!day) return { title: 'Clients as of a day', parts: [reportsList('clients'), asked] };
    const path = `/firm/clients/${day}`;
    const { text } = await page.desk.get(path);
    const parts = [reportsList('clients'), listOf(day, readClients(text)),
        printed(text, path, `clients-${day}.txt`), asked];
    return { title: ['Clients as of ', number(day)], parts };
}
