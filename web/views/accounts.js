// The statements of account of all matters over the same days, each on a sheet of its own: what goes to the clients at
// a month's end.

import { isNothing } from '../amounts.js';
import { accountPath } from '../desk.js';
import { button, el, label, link, number, p, quiet } from '../elements.js';
import { readMatters } from '../lists.js';
import { readAccount } from '../reports.js';
import { movedTable } from './account.js';
import { lastPeriod, periodForm } from './periods.js';
import { reportsList } from './report.js';

// A matter that was open on one of the days.
const wasOpen = ({ opened, closed }, from, to) => opened <= to && (!closed || closed >= from);

const isEmpty = ({ opening, movements }) => isNothing(opening) && movements.length === 0;

async function readAll(page, matters, from, to) {
    let count = 0;
    return Promise.all(matters.map(async (each) => {
        const { text } = await page.desk.getPatiently(accountPath(each.matter, from, to));
        count += 1;
        page.say(`Read ${count} of ${matters.length}`);
        return { ...each, account: readAccount(text) };
    }));
}

// Above the first sheet the firm stands by itself.
const sheetHead = (page) => el('p', { class: 'sheet-head on-paper' },
    page.firm.map((line) => el('span', {}, label(line))));

const daysOf = (from, to) => [number(from), ' to ', number(to)];

function sheetOf(page, { matter, client, account }, days, at) {
    const id = `account-${matter}`;
    return el('section', { class: 'sheet', 'aria-labelledby': id },
        at > 0 && sheetHead(page),
        el('h2', { id }, 'Statement of account of ', label(client), ', matter ',
            link(`#/m/${matter}`, number(matter)), ', ', days),
        movedTable(account, account.movements.length));
}

const isStill = ({ account }) => account.movements.length === 0;

// The sheets of all matters that had money or a movement, or of those alone that had a movement.
function showSheets({ page, read, days, place, isMovedAlone = false }) {
    const whole = read.filter(({ account }) => !isEmpty(account));
    const sheets = isMovedAlone ? whole.filter((each) => !isStill(each)) : whole;
    const [still, left] = [whole.filter(isStill).length, read.length - whole.length];
    const tick = el('input', { type: 'checkbox', id: 'moved', name: 'moved', change: ({ target }) => {
        showSheets({ page, read, days, place, isMovedAlone: target.checked });
        place.querySelector('#moved').focus();
    } });
    tick.checked = isMovedAlone;
    place.replaceChildren(...[
        still > 0 && el('p', { class: 'tick' }, tick, el('label', { for: 'moved' },
            `Leave out the ${still} without a movement in these days`)),
        sheets.length > 0 && el('p', { class: 'tools' }, button('Print', () => window.print(), ''),
            el('span', { class: 'quiet' }, `Printed, each of the ${sheets.length} begins a sheet.`)),
        sheets.map((each, at) => sheetOf(page, each, days, at)),
        sheets.length === 0 && p('No matter had money or a movement in these days.'),
        left > 0 && quiet(`Left out, without money or a movement: ${left}.`),
    ].flat(Infinity).filter(Boolean));
}

export async function accounts(page, from = null, to = null) {
    const [first, last] = lastPeriod(page);
    const asked = periodForm({ page, from: from ?? first, to: to ?? last, action: 'Show the accounts',
        address: '#/accounts' });
    const title = 'Statements of account';
    if (!from) return { title, parts: [reportsList('accounts'), asked] };
    const matters = (await readMatters(page)).filter((each) => wasOpen(each, from, to));
    const read = await readAll(page, matters, from, to);
    const place = el('div', {});
    showSheets({ page, read, days: daysOf(from, to), place });
    return { title: [`${title}, `, daysOf(from, to)], parts: [reportsList('accounts'), place, asked] };
}
