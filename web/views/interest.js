// What is offered for a line of interest: the matter that takes it, its deposit, and the payment that passes it on.

import { grouped } from '../amounts.js';
import { book, isUnanswered, newAsk } from '../asks.js';
import { refusedBox } from '../boxes.js';
import { matterPath } from '../desk.js';
import { button, el, p, referenceLink } from '../elements.js';
import { NAME, foundationOf } from '../interest.js';
import { entryAfter, readLabel, readPerson } from '../names.js';

const WHOSE = 'Interest of the trust account is the bar foundation\u2019s, not the firm\u2019s: FIRM is for the '
    + 'bank\u2019s charges alone.';

const named = (typed) => (typed.toLowerCase().includes(NAME.toLowerCase()) ? typed : `${typed}, ${NAME}`);

// The matter is opened once.
function opening(page, { next }, line, again) {
    const place = el('div', {});
    const field = (name, words, value) => {
        const id = `interest-${name}-${line.number}`;
        return [el('label', { for: id }, words),
            el('input', { type: 'text', id, name: id, value, autocomplete: 'off' })];
    };
    const [client, lawyer] = [field('client', 'The bar foundation', 'Bar Foundation'), field('lawyer', 'A lawyer', '')];
    const open = async () => {
        const fields = { client: readLabel(named(client[1].value)), lawyer: readPerson(lawyer[1].value) };
        const wrong = [[fields.client, client[1]], [fields.lawyer, lawyer[1]]].find(([value]) => value === null)?.[1];
        if (wrong) {
            wrong.setAttribute('aria-invalid', 'true');
            wrong.focus();
            return;
        }
        page.say('Sending');
        const answer = await page.desk.post(`${matterPath(next)}/open`, JSON.stringify(fields));
        page.say('');
        if (answer.isDone) await again();
        else place.replaceChildren(refusedBox(answer, page.person));
    };
    return [p(`${WHOSE} Open a matter for it once, with the foundation as its client. Its lawyer approves what is `
        + 'passed on.'), el('div', { class: 'asking' }, el('div', { class: 'field' }, client),
        el('div', { class: 'field' }, lawyer)), p(button(`Open matter ${next}, ${NAME}`, open)), place];
}

const isOf = (amount, ...states) => (each) => each.amount === amount && states.includes(each.state);

// A deposit takes the interest in.
function taking(page, matter, line, entries) {
    if (entries.some(isOf(line.amount, 'held'))) return [p(WHOSE)];
    const place = el('div', {});
    const send = () => book(page, newAsk({ matter, entry: entryAfter(entries.length), verb: 'deposit', kind: 'deposit',
        fields: { amount: line.amount, source: 'The bank', description: `interest, ${line.date}` },
        what: `deposit of ${grouped(line.amount)} of interest` }), place);
    return [p(WHOSE), p(button(`Book it as interest, in matter ${matter}`, send)), place];
}

// A payment passes it on, once a lawyer has approved it.
function passing(page, matter, line, entries, foundation) {
    const amount = line.amount.slice(1);
    const payments = entries.filter(({ kind }) => kind === 'payment');
    const waiting = payments.find(isOf(amount, 'proposed'));
    if (waiting) {
        return [p(WHOSE, ' ', referenceLink(`M${matter}-${waiting.entry}`), ' waits for a lawyer\u2019s approval. '
            + 'Import the line of the interest, have it approved, and match again.')];
    }
    if (payments.some(isOf(amount, 'issued'))) return [p(WHOSE)];
    const place = el('div', {});
    const send = () => book(page, newAsk({ matter, entry: entryAfter(entries.length), verb: 'propose', kind: 'propose',
        fields: { amount, from: 'general', payee: foundation, purpose: NAME, instrument: `debit ${line.date}` },
        what: `payment of ${grouped(amount)} of interest` }), place);
    return [p(WHOSE), p(button(`Propose to pass it on, from matter ${matter}`, send)), place];
}

export function interestOffer(page, line, account, again) {
    if (!account.matter) return opening(page, account, line, again);
    const { matter: { matter, client }, entries } = account;
    if (isUnanswered(page, matter)) return [p(WHOSE)];
    return line.amount.startsWith('-') ? passing(page, matter, line, entries, foundationOf({ client }))
        : taking(page, matter, line, entries);
}
