// Asks for a change. One that makes an entry is kept in the browser before it is sent, and sent again as it was until
// it is answered: the desk books it once.

import { doneBox, refusedBox, tellRefusal } from './boxes.js';
import { entryPath } from './desk.js';
import { button, el, link, p } from './elements.js';
import { entryFacts } from './entry-facts.js';
import { ASKS } from './shelf.js';

const isSame = (one, other) => one.path === other.path && one.body === other.body;
const others = (page, ask) => page.shelf.read(ASKS).filter((each) => !isSame(each, ask));

const keep = (page, ask) => page.shelf.write(ASKS, [...others(page, ask), ask]);
const forget = (page, ask) => page.shelf.write(ASKS, others(page, ask));

// An ask for the entry of this number: `kind` is what the desk is asked, `verb` the view of its form.
export const newAsk = ({ matter, entry, verb, kind, fields, what }) => ({
    matter, entry, verb, what, path: `${entryPath(matter, entry)}/${kind}`, body: JSON.stringify(fields),
});

const wordsOf = ({ what, entry, matter }) => `${what}, entry ${entry} of matter ${matter}`;

const under = (ask, entry) => ({ ...ask, entry, path: ask.path.replace(`/${ask.entry}/`, `/${entry}/`) });

export const isUnanswered = (page, matter) => page.shelf.read(ASKS).some((ask) => ask.matter === matter);

const sendAgain = (page, ask, place) => button('Send again', () => book(page, ask, place), '');

// What was sent and not answered: above each view, until it is sent again or forgotten.
export function unanswered(page) {
    const asks = page.shelf.read(ASKS);
    if (!asks.length) return null;
    return el('section', { class: 'box unanswered', 'aria-labelledby': 'unanswered' },
        el('h2', { id: 'unanswered' }, 'Sent, and not answered'),
        p('Nobody can say from here whether this was booked. Send it again as it was: the desk books it once.'),
        el('ul', {}, asks.map((ask) => el('li', {}, wordsOf(ask), el('div', { class: 'buttons' },
            sendAgain(page, ask, null),
            button('Forget it', () => {
                forget(page, ask);
                page.draw();
            }),
            link(`#/m/${ask.matter}`, 'Look at the matter'))))));
}

const pause = (milliseconds) => new Promise((end) => setTimeout(end, milliseconds));

// What a front end answers in the place of the desk says nothing of an earlier sending.
const isOfDesk = ({ isDone, body }) => isDone || Boolean(body?.refusal);

// Sent again, twice, where the desk was closed or its disk failed. Not behind 504: what the front end gave up still
// waits its turn at the desk, and a second one would only wait behind it. `isOpen`: an earlier one was not answered.
async function send(page, ask, isOpen) {
    let answer = await page.desk.post(ask.path, ask.body);
    let wasSent = isOpen;
    for (const wait of [500, 1000]) {
        if (![502, 503].includes(answer.status)) break;
        wasSent = true;
        await pause(wait);
        answer = await page.desk.post(ask.path, ask.body);
    }
    return { ...answer, isUnknown: answer.isUnknown || (wasSent && !isOfDesk(answer)) };
}

// 201 is booked now. 200 was in the book already: mostly by the first sending, but another cashier may have booked the
// same words and amount at the same time.
export function bookedBox(ask, answer) {
    if (answer.status === 201) return doneBox(`Booked on ${answer.body.day}: ${wordsOf(ask)}.`);
    return doneBox(`This was in the book already, and is there once: ${wordsOf(ask)}.`,
        p('If yours is a second one with the same words and amount, ',
            link(`#/m/${ask.matter}/${ask.verb}`, 'book it as a new entry'), '.'));
}

// Somebody took the number: that entry is shown, since it may be the same thing, and the next number is offered.
async function otherEntry(page, ask, next, place) {
    page.say('Reading');
    const there = await page.desk.readToTheEnd(entryPath(ask.matter, ask.entry));
    page.say('');
    return [
        there.isDone && [p(`Entry ${ask.entry} is:`), entryFacts(there.body)],
        button(`Book mine as ${next}`, () => book(page, under(ask, next), place), ''),
    ];
}

// Sends an ask for a new entry, which is kept until it is answered; the answer.
export async function sendKept(page, ask) {
    const isOpen = page.shelf.read(ASKS).some((each) => isSame(each, ask));
    keep(page, ask);
    page.say('Sending');
    const answer = await send(page, ask, isOpen);
    page.say('');
    if (!answer.isUnknown) forget(page, ask);
    if (answer.status === 201) page.desk.day = answer.body.day;
    return answer;
}

// Books a new entry. `place` is where a refusal is told, beside the form; null where there is no form any more.
export async function book(page, ask, place) {
    const answer = await sendKept(page, ask);
    if (answer.isUnknown) return tell(page, place, answer, place && sendAgain(page, ask, place));
    if (answer.isDone) return page.go(`#/m/${ask.matter}/e/${ask.entry}`, bookedBox(ask, answer));
    const { name, next } = answer.body ?? {};
    const more = name === 'WrongNumber' && next ? await otherEntry(page, ask, next, place) : [];
    return tell(page, place, answer, more);
}

// Beside the form, or above the view that is there by now.
function tell(page, place, answer, more) {
    if (place?.isConnected) tellRefusal(place, answer, page.person, more);
    else page.go(location.hash, refusedBox(answer, page.person, more));
}

// Changes what is there: approves, accepts, closes. It is not sent again by itself: without an answer, and where
// somebody was quicker, the view is read again, and tells what became of it.
export async function change(page, { path, fields, done, then, place }) {
    page.say('Sending');
    const answer = await page.desk.post(path, fields && JSON.stringify(fields));
    page.say('');
    if (answer.isDone) return page.go(then, doneBox(done));
    if (answer.isUnknown || ['NoEntry', 'WrongState'].includes(answer.body?.name)) {
        return page.go(location.hash, refusedBox(answer, page.person));
    }
    return tell(page, place, answer, null);
}
