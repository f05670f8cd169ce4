// The forms of new entries. Each says which number its entry will have; that is the number it is sent under.

import { book, isUnanswered, newAsk } from '../asks.js';
import { grouped, isNothing } from '../amounts.js';
import { askAbout } from '../boxes.js';
import { doubtsOfDeposit, doubtsOfPayment, nextCheck } from '../doubts.js';
import { explained, label, p, quiet } from '../elements.js';
import { amountField, choiceField, form, labelField } from '../forms.js';
import { entryAfter, shown } from '../names.js';
import { meansOf, textsOf } from '../words.js';
import { backTo, hasLeft, readMatterWhole } from './matter.js';

// The bank's line is matched by it.
const SHOWN_BY_THE_BANK = 'With the number that the bank will print, such as: retainer, check 2291';

const deposit = ({ page, entries }) => ({
    title: 'Book a deposit', kind: 'deposit', action: 'Book it',
    fields: [amountField(), labelField('source', 'Paid in by'),
        labelField('description', 'What for', { hint: SHOWN_BY_THE_BANK })],
    whatOf: ({ amount }) => `deposit of ${grouped(amount)}`,
    doubtsOf: (values) => doubtsOfDeposit(values, entries, page.desk.day),
});

const upTo = ({ available }) => ({ hint: `At most ${grouped(available)}, which is available` });

const fee = ({ matter }) => ({
    title: 'Record an earned fee', kind: 'fee', action: 'Record it',
    fields: [amountField(upTo(matter)), labelField('description', 'For which work')],
    whatOf: ({ amount }) => `fee of ${grouped(amount)}`,
});

const claim = ({ matter }) => ({
    title: 'Hold for a lien or claim', kind: 'claim', action: 'Hold it',
    fields: [amountField(upTo(matter)), labelField('claimant', 'Who claims it'), labelField('reason', 'Why')],
    sentOf: (values) => ({ on: 'general', ...values }),
    whatOf: ({ amount }) => `claim of ${grouped(amount)}`,
});

const feeWords = (each) => `${each.entry}, ${each.day}, ${grouped(each.left)} left: ${shown(textsOf(each))}`;

function dispute({ entries, of }) {
    const fees = entries.filter(hasLeft);
    if (!fees.length) return { title: 'Dispute a fee', none: 'There is no fee left to dispute.' };
    return {
        title: 'Dispute a fee', kind: 'claim', action: 'Dispute it',
        about: 'The part that you dispute stays in the account until it is settled, and the firm is not paid it.',
        fields: [choiceField('of', 'Fee', fees.map((each) => [each.entry, feeWords(each)]), of),
            amountField({ words: 'How much of it', hint: 'At most what is left of the fee' }),
            labelField('reason', 'Why')],
        sentOf: (values) => ({ on: 'fee', ...values }),
        whatOf: ({ amount, of: disputed }) => `dispute of ${grouped(amount)} of fee ${disputed}`,
    };
}

const isPayable = ({ kind, state, on, left }) =>
    kind === 'claim' && state === 'settled' && on === 'general' && !isNothing(left);

// What a payment can be drawn on, in words, and what it pays to whom, where that is known.
const fundsOf = ({ available }, entries) => [
    { value: 'general', words: `The general fund: ${grouped(available)} available`, payee: '', left: available },
    ...entries.filter(hasLeft).map(({ entry, left, description: purpose }) => ({ value: `fee ${entry}`,
        words: `Fee ${entry}: ${grouped(left)} left, paid to FIRM`, payee: 'FIRM', left, amount: left, purpose })),
    ...entries.filter(isPayable).map(({ entry, left, claimant: payee, reason: purpose }) => ({ value: `claim ${entry}`,
        words: `Claim ${entry}: ${grouped(left)} left, paid to ${shown(payee)}`, payee, left, amount: left, purpose })),
];

// To the desk the firm is FIRM alone, and `Firm` somebody whom the general fund pays. A claim pays whom it names.
const payeeOfDesk = (typed, fund) => (fund !== 'claim' && /^firm$/i.test(typed) ? 'FIRM' : typed);

// What the fund fills in, as long as nothing else was typed there.
const FILLED = ['amount', 'payee', 'purpose'];

async function propose({ page, matter, entries, fund, of }) {
    const funds = fundsOf(matter, entries);
    const fundOf = (value) => funds.find((each) => each.value === value);
    const chosen = fund ? `${fund} ${of}` : 'general';
    let filled = fundOf(chosen);
    if (!filled) return { title: 'Propose a payment', none: `Nothing is left to be paid of ${chosen}.` };
    const number = await nextCheck(page);
    return {
        title: 'Propose a payment', kind: 'propose', action: 'Propose it',
        about: 'A lawyer of the matter has to approve it before anything is paid.',
        means: ['General fund', 'Earned fee'],
        fields: [
            choiceField('from', 'Drawn on', funds.map(({ value, words }) => [value, words]), chosen),
            amountField({ value: filled.amount }),
            labelField('payee', 'Payee', { value: filled.payee }),
            labelField('purpose', 'Purpose', { value: filled.purpose }),
            labelField('instrument', 'Check or transfer number', { value: number, hint: number
                ? `As the bank will print it. ${number} is behind the greatest number of a check`
                : 'As the bank will print it, such as 1001' }),
        ],
        sentOf({ from, payee, ...values }) {
            const [name, drawn] = from.split(' ');
            return { from: name, ...(drawn && { of: drawn }), payee: payeeOfDesk(payee, name), ...values };
        },
        whatOf: ({ amount, payee }) => `payment of ${grouped(amount)} to ${shown(payee)}`,
        doubtsOf: (values) =>
            doubtsOfPayment(page, values, entries, funds.find(({ value }) => value === values.from)?.left),
        prepare(made) {
            const { from } = made.elements;
            from.addEventListener('change', () => {
                const now = fundOf(from.value);
                for (const name of FILLED) {
                    const field = made.elements.namedItem(name);
                    const isTyped = field.value !== '' && field.value !== (filled[name] ?? '');
                    if (name === 'payee' || !isTyped) field.value = now[name] ?? '';
                }
                filled = now;
            });
        },
    };
}

const FORMS = { deposit, propose, fee, claim, dispute };

export async function newEntry(page, no, verb, fund = null, of = null) {
    const { matter, entries } = await readMatterWhole(page, no);
    if (isUnanswered(page, no)) {
        const first = p('First send again what was not answered, above: so nothing is booked twice.');
        return { title: `Matter ${no}`, parts: [first, backTo(no)] };
    }
    const entry = entryAfter(matter.entries);
    const asked = await FORMS[verb]({ page, matter, entries, fund, of });
    if (asked.none) return { title: asked.title, parts: [p(asked.none), backTo(no)] };
    const askOf = (values) => newAsk({
        matter: no, entry, verb, kind: asked.kind, fields: asked.sentOf?.(values) ?? values, what: asked.whatOf(values),
    });
    const made = form({
        fields: asked.fields,
        action: asked.action,
        before: quiet(`This will be entry ${entry} of matter ${no}, `, label(matter.client), '.'),
        async submit(values, place) {
            page.say('Reading');
            const doubts = await asked.doubtsOf?.(values) ?? [];
            page.say('');
            const send = () => book(page, askOf(values), place);
            if (doubts.length) askAbout(place, doubts, `${asked.action} all the same`, send);
            else await send();
        },
    });
    asked.prepare?.(made);
    const parts = [asked.about && p(asked.about), made, asked.means && explained(meansOf(asked.means)), backTo(no)];
    return { title: asked.title, parts };
}
