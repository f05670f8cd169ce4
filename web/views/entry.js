// An entry, and the decision on it. Nothing is decided in a list: the button stands here, and says what it does.

import { grouped, isMore, isNothing } from '../amounts.js';
import { change } from '../asks.js';
import { askAbout, askFirst } from '../boxes.js';
import { entriesPath, entryPath, matterPath } from '../desk.js';
import { button, el, label, link, money, p, quiet } from '../elements.js';
import { FIRM_ITSELF, isFirmItself } from '../doubts.js';
import { entryFacts } from '../entry-facts.js';
import { form, partField } from '../forms.js';
import { waitingOf } from '../lists.js';
import { shown } from '../names.js';
import { KINDS, fundOf } from '../words.js';
import { isOfBank } from './another.js';
import { backTo, roleIn } from './matter.js';
import { movingNote } from './moving.js';
import { doneTable, readActs } from './trail.js';

const decision = (title, ...inside) =>
    el('section', { class: 'decide', 'aria-labelledby': 'decide' }, el('h2', { id: 'decide' }, title), ...inside);

// What is asked of the entry: `verb` by a button, or with fields by a form.
class Decisions {
    constructor(page, no, number, place) {
        Object.assign(this, { page, place, path: entryPath(no, number), then: `#/m/${no}/e/${number}` });
    }

    ask(verb, done, fields, place = this.place) {
        return change(this.page, { path: `${this.path}/${verb}`, fields, done, then: this.then, place });
    }

    button(verb, words, done, kind) {
        return button(words, () => this.ask(verb, done), kind);
    }
}

function depositDecision({ entry, role, decisions }) {
    if (role !== 'cashier' || entry.state !== 'held') return null;
    const words = `Cancel this deposit of ${grouped(entry.amount)}`;
    return askFirst(words, {
        question: `Cancel the deposit of ${grouped(entry.amount)} by ${shown(entry.source)}? It can\u2019t be taken `
            + 'back: if the bank shows it after all, it is booked anew.',
        yes: 'Cancel the deposit',
        act: () => decisions.ask('cancel', 'The deposit is cancelled.'),
    });
}

const NOT_ENOUGH = 'That is not enough: as it stands, approving is refused.';
const DECIDED = 'It was decided meanwhile. Open it again.';
const NEEDS_A_LAWYER = 'A lawyer of the matter has to approve it.';
const WITHDRAWING = 'Withdraw what was proposed by mistake: it is not paid, and can be proposed anew.';

const DECLINING = 'Declined, it is not paid, and can be proposed anew.';

const paymentWords = ({ amount, payee }) => `${grouped(amount)} to ${shown(payee)}`;

const withdrawing = ({ entry, decisions }) =>
    decisions.button('withdraw', 'Withdraw it', `Withdrawn: ${paymentWords(entry)}.`);

// A lawyer sees what is left of the fund before approving, what may still come, and what else is proposed from it.
async function proposedDecision(asked) {
    const { page, no, matter, entry, decisions } = asked;
    const { entries } = (await page.desk.get(entriesPath(no))).body;
    const waits = waitingOf(matter, entries).find((each) => each.entry.entry === entry.entry);
    if (!waits) return quiet(DECIDED);
    const { left, held, others } = waits;
    const what = paymentWords(entry);
    return decision('It waits for you',
        p(`Left of ${fundOf(entry)}: `, money(left)),
        isMore(entry.amount, left) && el('p', { class: 'warning' }, NOT_ENOUGH),
        entry.from === 'general' && isFirmItself(page, entry.payee)
            && el('p', { class: 'warning' }, label(entry.payee), ` ${FIRM_ITSELF}`),
        entry.from === 'general' && !isNothing(held)
            && p('Held: ', money(held), '. It counts once the bank has shown it.'),
        !isNothing(others) && p('Other payments that are proposed from it: ', money(others)),
        el('div', { class: 'buttons' },
            decisions.button('approve', `Approve ${what}`, `Approved: ${what}.`, ''),
            asked.isOwn ? withdrawing(asked) : decisions.button('decline', 'Decline it', 'Declined.')),
        el('p', { class: 'hint' }, asked.isOwn ? WITHDRAWING : DECLINING));
}

// Whoever may propose a payment may take it back.
function proposedPayment(asked) {
    if (asked.role === 'lawyer') return proposedDecision(asked);
    if (asked.role === 'client') return quiet(NEEDS_A_LAWYER);
    return decision('It waits for a lawyer', p(NEEDS_A_LAWYER), el('div', { class: 'buttons' }, withdrawing(asked)),
        el('p', { class: 'hint' }, WITHDRAWING));
}

function paymentDecision(asked) {
    const { entry, role, decisions } = asked;
    if (entry.state === 'proposed') return proposedPayment(asked);
    if (role !== 'lawyer' || entry.state !== 'issued') return null;
    const what = paymentWords(entry);
    return askFirst(`Void the payment of ${what}`, {
        question: `Void the payment of ${what}, ${shown(entry.instrument)}? It can\u2019t be taken back. Have a check `
            + 'that is out stopped by the bank first: a voided one that is cashed all the same matches nothing.',
        yes: 'Void the payment',
        act: () => decisions.ask('void', 'The payment is voided.'),
    });
}

function feeDecision({ no, entry, role }) {
    if (isNothing(entry.left)) return null;
    return p(role === 'client'
        ? link(`#/m/${no}/dispute/fee/${entry.entry}`, 'Dispute a part of this fee')
        : link(`#/m/${no}/propose/fee/${entry.entry}`, 'Propose its payment to the firm'));
}

const SETTLED = 'The claim is settled.';

// The part that is on the screen is sent, so a lawyer who offers another meanwhile is no bargain of the client's.
function offered({ entry, decisions }) {
    if (entry.to_client === null) return quiet('Nothing was offered yet.');
    const { amount, to_client: part } = entry;
    const accept = () => decisions.ask('accept', SETTLED, { to_client: part });
    return decision('You were made an offer', p('Of ', money(amount), ', ', money(part), ' stays yours.'),
        askFirst(`Accept ${grouped(part)}`, {
            question: `Accept ${grouped(part)} of ${grouped(amount)}? It settles the claim for good.`,
            yes: 'Accept it for good',
            act: accept,
        }));
}

const offering = ({ decisions }) => form({
    title: 'Offer the client a part', fields: [partField('is offered')], action: 'Offer it',
    submit: (fields, place) => decisions.ask('offer', `Offered: ${grouped(fields.to_client)}.`, fields, place),
});

const awarding = ({ entry, decisions }) => form({
    title: 'Settle it by an award', fields: [partField('is given')], action: 'Award it',
    submit: (fields, place) => askAbout(place, [`Give the client ${grouped(fields.to_client)} of `
        + `${grouped(entry.amount)}? It settles the claim for good.`], 'Award it for good',
    () => decisions.ask('award', SETTLED, fields, place)),
});

function claimDecision(asked) {
    const { no, entry, role } = asked;
    if (entry.state === 'open') return { client: offered, lawyer: offering, cashier: awarding }[role](asked);
    if (entry.on !== 'general' || isNothing(entry.left) || role === 'client') return null;
    return p(link(`#/m/${no}/propose/claim/${entry.entry}`, 'Propose its payment to the claimant'));
}

const DECISIONS = { deposit: depositDecision, payment: paymentDecision, fee: feeDecision, claim: claimDecision };

// What undoes an entry: by a decision, or by lines of the cashier's own where a line of the bank made it what it is.
function undoing({ no, entry, role }, decided) {
    const another = role === 'cashier' && isOfBank(entry) && p(link(`#/m/${no}/e/${entry.entry}/another`,
        'It was another\u2019s'), ': the line of the bank belongs to another entry, or to the firm.');
    if (!decided && !another) return null;
    return el('section', { class: 'undoing', 'aria-labelledby': 'undoing' },
        el('h2', { id: 'undoing' }, 'If it was a mistake'), decided, another);
}

export async function showEntry(page, no, number) {
    const [{ body: matter }, { body: entry }, told] = await Promise.all([
        page.desk.get(matterPath(no)), page.desk.get(entryPath(no, number)), readActs(page, no)]);
    const place = el('div', {});
    const decisions = new Decisions(page, no, number, place);
    // Whoever proposed a payment withdraws it; another lawyer declines it. Both is the same to the desk.
    const isOwn = Boolean(told?.acts.some(({ entry: of, deed, caller }) =>
        of === number && deed === 'proposed' && caller === page.person));
    const asked = { page, no, matter, entry, role: roleIn(page, matter), decisions, isOwn };
    const decided = matter.closed ? null : await DECISIONS[entry.kind](asked);
    // What undoes stands below all else, and never where what does it stood before.
    const isUndoing = entry.state === 'issued' || entry.state === 'held';
    const parts = [
        entryFacts(entry),
        doneTable(told?.acts, number),
        place,
        asked.role === 'cashier' && movingNote(no, entry),
        isUndoing ? null : decided,
        backTo(no),
        undoing(asked, isUndoing && decided),
    ];
    return { title: [`${KINDS[entry.kind]} ${number} of matter ${no}, `, label(matter.client)], parts };
}
