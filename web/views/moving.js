// Money moves from a matter to another one of its client: a payment that a lawyer approves and, behind it, a deposit in
// the other matter and two lines of the cashier's own, which clear both and are 0.00 together.

import { grouped, isMore } from '../amounts.js';
import { book, isUnanswered, newAsk, sendKept } from '../asks.js';
import { askAbout, refusedBox } from '../boxes.js';
import { readToday, sendLines } from '../corrections.js';
import { entriesPath, entryPath, matterPath } from '../desk.js';
import { button, el, facts, label, link, money, number, p, quiet, referenceLink } from '../elements.js';
import { amountField, form, labelField, matterField } from '../forms.js';
import { readMatters } from '../lists.js';
import { cutLabel, entryAfter, isSameName, shown } from '../names.js';
import { linesTable, sentBox } from './another.js';
import { backTo, readMatterWhole } from './matter.js';

const FIRST = 'First send again what was not answered, above: so nothing is booked twice.';

const numberOf = (to) => `transfer to ${to}`;

// The matter to which a payment moves money; null where it does not.
export const movedTo = ({ kind, from, instrument }) =>
    (kind === 'payment' && from === 'general' && /^transfer to (\d{6})$/.exec(instrument)?.[1]) || null;

// Why it may be a mistake.
function doubtsOf(matter, other, no, { to, amount }) {
    return [
        to === no && 'It is the same matter.',
        to !== no && !other && `No open matter has the number ${to}.`,
        other && !isSameName(other.client, matter.client) && `Matter ${to} is of ${shown(other.client)}, and this one `
            + `of ${shown(matter.client)}. Nobody\u2019s money pays for somebody else. Is it owed?`,
        isMore(amount, matter.available) && `Only ${grouped(matter.available)} is available now. It can be proposed, `
            + 'and approving it is refused until there is enough.',
    ].filter(Boolean);
}

// The form: it proposes the payment.
export async function move(page, no) {
    const [{ matter }, matters] = await Promise.all([readMatterWhole(page, no), readMatters(page)]);
    const title = [`Move money from matter ${no}, `, label(matter.client)];
    if (isUnanswered(page, no)) return { title, parts: [p(FIRST), backTo(no)] };
    const open = matters.filter((each) => !each.closed && each.matter !== no);
    const own = open.filter(({ client }) => isSameName(client, matter.client));
    const entry = entryAfter(matter.entries);
    const made = form({
        before: quiet(`This will be entry ${entry} of matter ${no}: a payment to the client\u2019s other matter.`),
        fields: [
            matterField({ name: 'to', words: 'To matter', value: own.length === 1 ? own[0].matter : '',
                hint: own.length ? `Of the same client: ${own.map((each) => each.matter).join(', ')}`
                    : 'No other open matter has this client\u2019s name' }),
            amountField({ hint: `At most ${grouped(matter.available)}, which is available` }),
            labelField('why', 'Why'),
        ],
        action: 'Propose it',
        async submit({ to, amount, why }, place) {
            const other = open.find((each) => each.matter === to);
            const ask = newAsk({ matter: no, entry, verb: 'move', kind: 'propose', fields: { from: 'general', amount,
                payee: other?.client ?? matter.client, purpose: why, instrument: numberOf(to) },
            what: `payment of ${grouped(amount)} to matter ${to}` });
            const send = () => book(page, ask, place);
            const doubts = doubtsOf(matter, other, no, { to, amount });
            if (doubts.length) askAbout(place, doubts, 'Propose it all the same', send);
            else await send();
        },
    });
    return { title, parts: [p('A lawyer approves the payment. Then its entry offers what moves the money: a deposit in '
        + 'the other matter, and two lines that clear both. The bank has neither.'), made, backTo(no)] };
}

// What stands on the payment's entry.
export function movingNote(no, entry) {
    const to = movedTo(entry);
    if (!to) return null;
    if (entry.state === 'proposed') return quiet(`It moves money to matter ${to}, once a lawyer has approved it.`);
    if (entry.state !== 'issued') return null;
    return p(link(`#/m/${no}/e/${entry.entry}/move`, 'Move the money'), ` to matter ${to}: a deposit there, and two `
        + 'lines that clear both.');
}

// By this the deposit is known again.
const markOf = (reference) => `from ${reference}: `;

// The deposit in the other matter: that which is there already, or the one that will be booked.
function depositOf(matter, client, other, entries, reference, { amount, purpose }) {
    const there = entries.find(({ kind, state, description }) => kind === 'deposit' && state === 'held'
        && description.startsWith(markOf(reference)));
    const entry = there?.entry ?? entryAfter(other.entries);
    const fields = { amount, source: client, description: cutLabel(`${markOf(reference)}${purpose}`) };
    return { isThere: Boolean(there), entry, reference: `M${other.matter}-${entry}`, fields,
        ask: newAsk({ matter: other.matter, entry, verb: 'deposit', kind: 'deposit', fields,
            what: `deposit of ${grouped(amount)}` }) };
}

// The second half, behind the approval: shown, and then done by one click. Broken off, it goes on where it stopped.
export async function moveOn(page, no, entryNumber) {
    const [{ body: matter }, { body: entry }] = await Promise.all([page.desk.get(matterPath(no)),
        page.desk.get(entryPath(no, entryNumber))]);
    const to = movedTo(entry);
    const title = [`Move ${grouped(entry.amount)} from matter ${no}, `, label(matter.client)];
    const back = p(link(`#/m/${no}/e/${entryNumber}`, 'Back to the payment'));
    if (!to || entry.state !== 'issued') {
        return { title, parts: [p('Only a payment to another matter that a lawyer has approved moves money.'), back] };
    }
    if (isUnanswered(page, to)) return { title, parts: [p(FIRST), back] };
    const [today, { body: other }, { body: { entries } }] = await Promise.all([readToday(page),
        page.desk.get(matterPath(to)), page.desk.get(entriesPath(to))]);
    const reference = `M${no}-${entryNumber}`;
    const deposit = depositOf(matter, matter.client, other, entries, reference, entry);
    const of = { day: today, bankRef: `MOVE-${reference}` };
    const lines = [
        { ...of, reference, amount: `-${entry.amount}`, text: `To ${to}: moved` },
        { ...of, reference: deposit.reference, amount: entry.amount, text: `From ${no}: moved` },
    ];
    const told = el('div', {});
    const refuse = (answer) => {
        told.replaceChildren(refusedBox(answer, page.person));
        told.firstChild.focus();
    };
    const send = async () => {
        const booked = deposit.isThere ? null : await sendKept(page, deposit.ask);
        if (booked && !booked.isDone) return refuse(booked);
        deposit.isThere = true;
        page.say('Sending');
        const answer = await sendLines(page, lines);
        page.say('');
        return answer.isDone ? page.go(`#/m/${to}/e/${deposit.entry}`, sentBox(answer)) : refuse(answer);
    };
    const parts = [
        facts([
            [deposit.isThere ? 'The deposit, which is booked' : 'The deposit that is booked', [
                referenceLink(deposit.reference), ' in the matter of ', label(other.client)]],
            ['Amount', money(entry.amount)],
            ['Paid in by', label(deposit.fields.source)],
            ['What for', label(deposit.fields.description)],
        ]),
        linesTable(lines),
        p('They have today\u2019s day, ', number(today), ', are 0.00 together, and no line of the bank\u2019s.'),
        told,
        p(button(deposit.isThere ? 'Send the lines' : 'Book it and send the lines', send, '')),
        back,
    ];
    return { title, parts };
}
