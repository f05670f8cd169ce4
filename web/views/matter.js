// A matter: its sums, what whoever looks can do, what waits, and its entries.

import { grouped, isNothing } from '../amounts.js';
import { change } from '../asks.js';
import { askFirst } from '../boxes.js';
import { balanceOfMatter, movedBy } from '../balance.js';
import { chart } from '../chart.js';
import { cardPath, entriesPath, matterPath } from '../desk.js';
import { el, explained, facts, label, link, money, p, printed, quiet, readAgain, sums } from '../elements.js';
import { form } from '../forms.js';
import { readKept, waitingOf } from '../lists.js';
import { shown } from '../names.js';
import { column, longTable } from '../tables.js';
import { BALANCES, KINDS, meansOf, textsOf } from '../words.js';
import { entryLink, stateOf, waitingTables } from './lists.js';
import { actsNote, doersOf, readActs } from './trail.js';

const NEWEST = 100;

// What a person is in a matter. The cashier has a seat in none.
export const roleIn = (page, matter) =>
    (page.isCashier ? 'cashier' : matter.seats.find(({ person }) => person === page.person)?.role);

export const hasLeft = ({ kind, left }) => kind === 'fee' && !isNothing(left);

// A matter, and all its entries in order.
export async function readMatterWhole(page, no) {
    const paths = [matterPath(no), entriesPath(no)];
    const [{ body: matter }, { body: { entries } }] = await Promise.all(paths.map((path) => page.desk.get(path)));
    return { matter, entries };
}

export const backTo = (no) => p(link(`#/m/${no}`, 'Back to the matter'));

const ACTIONS = {
    deposit: 'Book a deposit',
    propose: 'Propose a payment',
    fee: 'Record an earned fee',
    claim: 'Hold for a lien or claim',
    move: 'Move money to another matter',
    dispute: 'Dispute a fee',
    seats: 'Access',
    account: 'Statement of account',
    card: 'Accounting, to print',
    trail: 'Who did what',
};

const MAY = {
    cashier: ['deposit', 'propose', 'claim', 'move', 'seats'],
    lawyer: ['propose', 'fee', 'claim'],
    client: ['dispute'],
};

function actionsOf(no, role, matter, entries) {
    const may = matter.closed ? [] : MAY[role].filter((name) => name !== 'dispute' || entries.some(hasLeft));
    return el('ul', { class: 'actions', 'aria-label': 'What you can do' },
        [...may, 'account', 'card', 'trail'].map((name) => el('li', {}, link(`#/m/${no}/${name}`, ACTIONS[name]))));
}

const sumsOf = (matter) =>
    sums(BALANCES.map(([name, words, means]) => [name, words, money(matter[name]), means]));

const ENTRY_COLUMNS = [column('Entry', 'tight'), column('Day', 'tight'), column('What', 'tight'), column('Details'),
    column('State'), column('Amount', 'right'), column('Ledger', 'right')];

// Who made the entry what it is stands beside its state. What is paid out has a minus; the ledger is told behind each
// entry that moved it.
function entryCells(no, moved, acts) {
    return (each) => {
        const { moved: amount, sum } = moved.get(each.entry) ?? {};
        return [entryLink({ matter: no, entry: each.entry }), each.day, KINDS[each.kind], label(textsOf(each)),
            [stateOf(each), el('div', { class: 'hint' }, doersOf(acts, each.entry))],
            amount ? money(amount) : el('span', { class: 'money nothing' }, grouped(each.amount)), sum && money(sum)];
    };
}

const entriesTable = (matter, entries, acts) => longTable({
    caption: 'Entries, newest first',
    columns: ENTRY_COLUMNS,
    items: [...entries].reverse(),
    cells: entryCells(matter.matter, movedBy(matter, entries), acts),
    first: NEWEST,
});

// Purging has the number typed, since nothing brings the records back.
const purging = (page, no) => form({
    title: 'Purge the records',
    fields: [{
        name: 'again',
        words: `Type ${no} to purge it`,
        keys: 'numeric',
        read: (typed) => (typed.trim() === no ? no : null),
        hint: 'Access and entries are taken away for good. Print the accounting first.',
        wrong: `Type ${no}.`,
    }],
    action: 'Purge',
    submit: (_, place) => change(page,
        { path: `${matterPath(no)}/purge`, done: `Matter ${no} was purged.`, then: '#/report/retention', place }),
});

// Nothing opens a matter again.
const closing = (page, no, client, place) => askFirst('Close this matter', {
    question: `Close matter ${no} of ${shown(client)}? It takes nothing any more, and can\u2019t be opened again. Its `
        + 'records are kept for five years.',
    yes: 'Close it for good',
    act: () => change(page,
        { path: `${matterPath(no)}/close`, done: `Matter ${no} is closed.`, then: `#/m/${no}`, place }),
});

// Purging is offered once it may be; until then it is said when that is.
async function purgingOf(page, no) {
    const kept = (await readKept(page)).get(no);
    if (!kept || kept.mayGo) return purging(page, no);
    return quiet(`The records are kept until ${kept.until}.`);
}

export async function showMatter(page, no) {
    const [{ matter, entries }, told] = await Promise.all([readMatterWhole(page, no), readActs(page, no)]);
    const place = el('div', {});
    const { isCashier } = page;
    const seats = matter.seats.map(({ person, role }) => `${person} (${role})`).join(', ');
    const parts = [
        sumsOf(matter),
        actionsOf(no, roleIn(page, matter), matter, entries),
        place,
        waitingTables(waitingOf(matter, entries), true),
        chart('The ledger by day, held deposits included', balanceOfMatter(matter, entries), page.desk.day),
        entriesTable(matter, entries, told?.acts),
        actsNote(told),
        facts([['Opened', matter.opened], ['Closed', matter.closed], ['Who has access', seats]]),
        readAgain(page),
        isCashier && !matter.closed && closing(page, no, matter.client, place),
        isCashier && matter.closed && await purgingOf(page, no),
    ];
    return { title: [`Matter ${no}, `, label(matter.client)], parts };
}

export async function showCard(page, no) {
    const { text } = await page.desk.get(cardPath(no));
    const parts = [explained(meansOf(['HELD', 'ISSUED'])), printed(text, cardPath(no), `ledger-${no}.txt`), backTo(no)];
    return { title: `Accounting of matter ${no}`, parts };
}
