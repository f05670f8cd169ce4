// Days with a closing balance: those that this browser knows, and the last one, which is looked for.

import { noteBox, refusedBox } from '../boxes.js';
import { button, el, link, number, p } from '../elements.js';
import { form } from '../forms.js';
import { dayBefore, readDay } from '../names.js';
import { dayOf } from '../reports.js';
import { STATEMENT } from '../shelf.js';

// The desk has no list of days, so it is asked backwards from today, for so many.
const DAYS_BACK = 100;
// So many days are kept.
const KEPT = 12;

// The last first.
export const knownClosings = (page) => page.shelf.read(STATEMENT);

export function rememberClosing(page, day) {
    const others = knownClosings(page).filter((each) => each !== day);
    page.shelf.write(STATEMENT, [day, ...others].sort().reverse().slice(0, KEPT));
}

// A search whose view was left moves nobody.
async function search(page, address) {
    const mine = page.draws;
    const go = (to, told) => mine === page.draws && page.go(to, told);
    page.say('Looking for the last statement');
    const today = await page.desk.read('/firm/exceptions');
    if (!today.isDone) return go(location.hash, refusedBox(today, page.person));
    let day = dayOf(today.text);
    for (let tries = 0; tries < DAYS_BACK && mine === page.draws; tries += 1, day = dayBefore(day)) {
        page.say(`Looking at ${day}`);
        const answer = await page.desk.read(`/firm/reconciliation/${day}`);
        if (answer.isDone) return go(`${address}/${day}`);
        if (answer.body?.name !== 'NoStatement') return go(location.hash, refusedBox(answer, page.person));
    }
    return go(location.hash, noteBox(p(`No statement ended in the last ${DAYS_BACK} days.`)));
}

// Asks for a day, and offers those that are known. The view of a day stands at the address, before its day.
export function closingForm(page, { day = null, address, action }) {
    const known = knownClosings(page);
    return form({
        before: known.length > 0 && p('Statements ended on ', known.map((each, i) =>
            [i > 0 && ', ', link(`${address}/${each}`, number(each))]), '.'),
        fields: [{
            name: 'day',
            words: 'The day on which a statement ended',
            type: 'date',
            value: day ?? known[0],
            read: readDay,
            wrong: 'Choose a day.',
        }],
        action,
        submit: (values) => page.go(`${address}/${values.day}`),
    });
}

export const lookForLast = (page, address) =>
    el('p', {}, button('Look for the last statement', () => search(page, address)));
