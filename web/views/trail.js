// Who did what in a matter, for all who may read it.

import { refusedBox } from '../boxes.js';
import { actsPath } from '../desk.js';
import { el, label, link, number, p, printed } from '../elements.js';
import { column, longTable } from '../tables.js';
import { actWords } from '../words.js';
import { entryLink } from './lists.js';

// So many acts are shown first.
const FIRST = 200;

const DONE = 'Who did what';
const CUT = 'Earlier acts are not recorded.';
const UNREAD = 'Who did what could not be read.';

// By these an entry was made.
const MAKING = ['deposited', 'proposed', 'earned', 'disputed', 'claimed'];

const COLUMNS = [column('Day', 'tight'), column('Entry', 'tight'), column('Who', 'tight'), column('What')];

// A matter's acts, and whether there were earlier ones. Where they can't be had, what else a view has is shown all the
// same.
export async function readActs(page, matter) {
    const answer = await page.desk.read(actsPath(matter));
    return answer.isDone ? answer.body : null;
}

const ofEntry = (acts, no) => acts.filter(({ entry }) => entry === no);

// An entry that is older than the trail has no act by which it was made.
const isCut = (items) => !items.some(({ deed }) => MAKING.includes(deed));

// A line of the bank is imported by the cashier, who decides nothing by it.
const isOfBank = ({ deed }) => deed === 'cleared' || deed === 'returned';

// Those who made an entry what it is, each once, in the order in which they came; a dash if no act says so.
export function doersOf(acts, no) {
    const items = ofEntry(acts ?? [], no);
    const doers = [...new Set(items.filter((act) => !isOfBank(act)).map(({ caller }) => caller))];
    if (!doers.length) return '-';
    return (isCut(items) ? ['not recorded', ...doers] : doers).join(', ');
}

// Who did what to an entry.
export function doneTable(acts, no) {
    if (!acts) return p(UNREAD);
    const items = ofEntry(acts, no);
    return [
        isCut(items) && p(CUT),
        longTable({
            caption: DONE,
            columns: COLUMNS.filter(({ name }) => name !== 'Entry'),
            items,
            cells: (act) => [number(act.day), label(act.caller), actWords(act)],
            first: FIRST,
        }),
    ];
}

// What the names beside a matter's entries leave out.
export const actsNote = (told) => (told ? told.earlier && p(CUT) : p(UNREAD));

// What the cashier prints is the text, which the firm files; all others print the table.
async function toPrint(page, matter, table) {
    if (!page.isCashier) return table;
    const path = `/firm/trail/${matter}`;
    const answer = await page.desk.read(path);
    if (!answer.isDone) return [table, refusedBox(answer, page.person)];
    return [el('div', { class: 'on-screen' }, table), printed(answer.text, path, `trail-${matter}.txt`)];
}

export async function matterTrail(page, matter) {
    const answer = await page.desk.read(actsPath(matter));
    const title = ['Trail of matter ', number(matter)];
    const back = p(link(`#/m/${matter}`, 'The matter'));
    if (!answer.isDone) return { title, parts: [refusedBox(answer, page.person), back] };
    const { acts, earlier } = answer.body;
    const cells = (act) => [number(act.day), act.entry && entryLink({ matter, entry: act.entry }), label(act.caller),
        actWords(act)];
    const table = longTable({ caption: DONE, columns: COLUMNS, items: acts, cells, first: FIRST });
    return { title, parts: [earlier && p(CUT), await toPrint(page, matter, table), back] };
}
