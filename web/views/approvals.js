// The payments issued in a period, and who approved each.

import { refusedBox } from '../boxes.js';
import { el, label, money, number, printed, referenceLink } from '../elements.js';
import { readApprovals } from '../reports.js';
import { column, longTable } from '../tables.js';
import { lastPeriod, periodForm } from './periods.js';
import { reportsList } from './report.js';

// So many payments are shown first.
const FIRST = 200;

const COLUMNS = [column('Day', 'tight'), column('Reference', 'tight'), column('Approved by', 'tight'),
    column('Payee, what for, check number'), column('What became of it'), column('Amount', 'right')];

const ENDS = { CLEARED: 'paid by the bank', VOIDED: 'voided' };

function endOf({ end, endDay, bankRef }) {
    if (!end) return 'not shown by the bank yet';
    return [`${ENDS[end]}, `, number(endDay), bankRef ? [', ', label(bankRef)] : ''].flat();
}

const UNNAMED = new Map([['-', 'not recorded'], ['?', 'can\u2019t be read']]);

const cellsOf = (each) => [number(each.day), referenceLink(each.reference),
    UNNAMED.get(each.approver) ?? label(each.approver), label(each.words), endOf(each), money(each.amount)];

export const approvalsTable = (text, first) => longTable({ caption: 'What was approved, and by whom',
    columns: COLUMNS, items: readApprovals(text), cells: cellsOf, first });

export async function approvals(page, from = null, to = null) {
    const [first, last] = lastPeriod(page);
    const asked = periodForm({ page, from: from ?? first, to: to ?? last, action: 'List the approvals',
        address: '#/report/approvals' });
    if (!from) return { title: 'Approvals', parts: [reportsList('approvals'), asked] };
    const path = `/firm/approvals/${from}/${to}`;
    const answer = await page.desk.read(path);
    const parts = answer.isDone
        ? [el('div', { class: 'on-screen' }, approvalsTable(answer.text, FIRST)),
            ...printed(answer.text, path, `approvals-${from}-${to}.txt`)]
        : [refusedBox(answer, page.person)];
    return { title: ['Approvals, ', number(from), ' to ', number(to)],
        parts: [reportsList('approvals'), ...parts, asked] };
}
