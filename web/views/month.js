// The month's end: the packet that is signed and filed. All of it is of one state of the book.

import { sha256 } from '../bank/sha256.js';
import { refusedBox } from '../boxes.js';
import { button, el, explained, label, link, money, number, p, quiet, referenceLink, strong } from '../elements.js';
import { readPrinted } from '../exceptions.js';
import { shown } from '../names.js';
import { toldRemarks } from '../remarks.js';
import { readBreaks, readClients, readFigures, readMovements, readPacket, readRemarks } from '../reports.js';
import { column, table } from '../tables.js';
import { meansOf } from '../words.js';
import { approvalsTable } from './approvals.js';
import { COLUMNS as CLIENT_COLUMNS, cellsOf as clientCells } from './clients.js';
import { closingForm, lookForLast, rememberClosing } from './closings.js';
import { JOURNALS, movementsTable, outstandingTables } from './movements.js';
import { EXPLAINED, breaksBox, figuresTable, resultBox } from './reconciliation.js';

const HERE = '#/month';

const REMARK_COLUMNS = [column('What', 'tight'), column('Day', 'tight'), column('Reference', 'tight'),
    column('Details'), column('Amount', 'right')];

const REMARKS = { EARLY: 'early', DOUBLE: 'double', EXCEPTION: 'exception' };

// An exception that can't be taken apart is shown whole.
function remarkCells({ name, rest, reference, day, amount, instrument, client, words }) {
    if (name !== 'EXCEPTION') {
        const details = [client, words, instrument].filter(Boolean).join(' | ');
        return [REMARKS[name], number(day), referenceLink(reference), details && label(details), money(amount)];
    }
    const fields = readPrinted(rest);
    if (!fields) return [REMARKS[name], '', '', label(rest), ''];
    return [REMARKS[name], number(fields.date), referenceLink(fields.reference),
        label([fields.bank_ref, fields.text].filter(Boolean).join(' | ')), money(fields.amount)];
}

const reconciled = (text, remarks) => [
    breaksBox(readBreaks(text)),
    resultBox(readFigures(text)),
    figuresTable(readFigures(text)),
    table('What explains it, or is to be looked at', REMARK_COLUMNS, remarks.map(remarkCells)),
    explained(meansOf(EXPLAINED)),
];

function listed(text) {
    const { matters, firm, total } = readClients(text);
    const own = ['The firm\u2019s own', '', money(firm)];
    return table('Whose money it is', CLIENT_COLUMNS, [...matters.map(clientCells), own],
        [strong('Together'), '', strong(money(total))]);
}

function journal(name, text) {
    const [{ sum, movements }] = readMovements(text);
    const { caption, words } = JOURNALS[name];
    return movementsTable({ caption, words, movements, sum, sumWords: 'Together', first: movements.length });
}

const daysOf = (text) => text.split('\n', 1)[0].match(/\d{4}-\d\d-\d\d/g).join(' to ');

// The parts of the packet in its order: the name in its first line, the heading, and what is shown of it.
const PARTS = [
    ['RECONCILIATION', 'Reconciliation of', reconciled],
    ['CLIENTS', 'Clients as of', listed],
    ['OUTSTANDING ITEMS', 'Outstanding items of', (text) => outstandingTables(text, Infinity)],
    ['RECEIPTS', 'Receipts,', (text) => journal('receipts', text)],
    ['DISBURSEMENTS', 'Disbursements,', (text) => journal('disbursements', text)],
    ['APPROVALS', 'Approvals,', (text) => approvalsTable(text, Infinity)],
];

// What stands above each sheet but the first, which has it above its title: a sheet that is torn off says whose it is,
// and which packet it is of.
const sheetHead = (page, day, at, sum) => el('p', { class: 'sheet-head on-paper' },
    page.firm.map((line) => el('span', {}, label(line))),
    `Month\u2019s end of ${day}, part ${at + 1} of ${PARTS.length}, SHA-256 ${sum.slice(0, 16)}\u2026`);

const signing = (sum, name) => el('div', { class: 'signing' },
    p('SHA-256 of the packet\u2019s text: ', el('code', {}, sum)),
    el('p', { class: 'hint on-screen' }, 'The sum names what is kept by ', strong('Keep'), `: of the file ${name} `,
        el('code', {}, 'sha256sum'), ' or, on Windows, ', el('code', {}, 'Get-FileHash'), ' gives the same.'),
    el('p', { class: 'signature on-paper' }, el('span', {}, 'Signed'), el('span', {}, 'Name'), el('span', {}, 'Date')));

// The bytes that were shown are kept: asked again, the desk may have others by now.
function keep(bytes, name) {
    const href = URL.createObjectURL(new Blob([bytes], { type: 'text/plain' }));
    el('a', { href, download: name }).click();
    setTimeout(() => URL.revokeObjectURL(href), 60_000);
}

// What the bank had not shown on the day, by its references.
const unshownIn = (text) => new Set(readMovements(text).flatMap(({ movements }) =>
    movements.map(({ reference }) => reference)));

async function packet(page, day, { text, bytes }) {
    const reports = readPacket(text);
    const unshown = unshownIn(reports['OUTSTANDING ITEMS']);
    const remarks = await toldRemarks(page, readRemarks(reports.RECONCILIATION), unshown);
    const sum = sha256(bytes);
    const name = `month-${day}.txt`;
    const sheets = PARTS.map(([report, words, show], at) => {
        const id = `part-${at}`;
        return el('section', { class: 'sheet', 'aria-labelledby': id },
            at > 0 && sheetHead(page, day, at, sum),
            el('h2', { id }, `${words} `, number(daysOf(reports[report]))),
            show(reports[report], remarks),
            at === 0 && signing(sum, name));
    });
    return [
        el('p', { class: 'tools' }, button('Print', () => window.print(), ''), button('Keep', () => keep(bytes, name)),
            el('span', { class: 'quiet' }, 'Printed, each part begins a sheet.'),
            link(`#/accounts/${day.slice(0, 8)}01/${day}`, 'The clients\u2019 statements of account')),
        sheets,
        el('details', {}, el('summary', {}, 'As the desk printed it'),
            el('pre', { class: 'report', tabindex: '0', role: 'region', 'aria-label': 'The packet' },
                text.split('\n').map(shown).join('\n'))),
    ];
}

const advice = () => p(link('#/statement', 'Import the bank\u2019s statement'), ', with its closing balance.');

export async function month(page, day = null) {
    const asked = () => [closingForm(page, { day, address: HERE, action: 'Show the month\u2019s end' }),
        lookForLast(page, HERE)];
    if (!day) {
        const what = quiet('The reconciliation, the clients, what is outstanding, and the month\u2019s receipts, '
            + 'disbursements and approvals, to sign and file.');
        return { title: 'Month\u2019s end', parts: [what, asked()] };
    }
    const answer = await page.desk.read(`/firm/month/${day}`);
    const title = ['Month\u2019s end of ', number(day)];
    if (!answer.isDone) {
        const more = answer.body?.name === 'NoStatement' ? [advice()] : [];
        return { title, parts: [refusedBox(answer, page.person, ...more), asked()] };
    }
    rememberClosing(page, day);
    return { title, parts: [await packet(page, day, answer), asked()] };
}
