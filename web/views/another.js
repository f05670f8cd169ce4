// It was another's: what a line of the bank cleared by mistake is undone by lines of the cashier's own, which are shown
// before they are sent. The deposit that is taken back is booked anew, since its own money is mostly still to come.

import { cents, grouped, isMore, opposite } from '../amounts.js';
import { isUnanswered, newAsk, sendKept } from '../asks.js';
import { readAtBank } from '../at-bank.js';
import { doneBox, refusedBox, warningBox } from '../boxes.js';
import { leftOfOwn, ofItsAmount, onItsSide, takenBackBy } from '../candidates.js';
import { correctionOf, dayOfCorrection, readOwnLines, readShown, readToday, sendLines, withOwnNumbers }
    from '../corrections.js';
import { entryPath, matterPath } from '../desk.js';
import { button, el, facts, label, link, money, number, p, quiet, referenceLink, strong } from '../elements.js';
import { entryAfter, shown } from '../names.js';
import { readTrial } from '../reports.js';
import { column, longTable, table } from '../tables.js';
import { textsOf } from '../words.js';
import { chooser } from './left.js';
import { backTo } from './matter.js';

// So many candidates are shown at first.
const FIRST = 10;

const CHANGED = 'One of these entries changed meanwhile. Nothing was sent: look at it again.';
const FIRST_SEND = 'First send again what was not answered, above: so nothing is booked twice.';

const CANDIDATES = [column('Reference', 'tight'), column('Client'), column('Day', 'tight'), column('Details'),
    column('Amount', 'right'), column('Use', 'tight')];

const candidatesTable = (caption, items, use) => longTable({ caption, columns: CANDIDATES, items, first: FIRST,
    cells(each) {
        const made = button('Use this', () => use(each));
        made.setAttribute('aria-label', `Use ${each.reference}`);
        return [referenceLink(each.reference), label(each.client), number(each.day), label(each.words),
            money(each.amount), made];
    } });

const LINES = [column('Reference', 'tight'), column('Day', 'tight'), column("The bank's number", 'tight'),
    column('Amount', 'right'), column('Words')];

export const linesTable = (lines) => table('These lines are sent', LINES,
    lines.map(({ reference, day, bankRef, amount, text }) =>
        [referenceLink(reference), number(day), label(bankRef), money(amount), label(text)]));

// Which day the lines have, and why.
export const dayWords = ({ day, closed, isOld }, bankDay) => (closed || isOld
    ? ['They have today\u2019s day, ', number(day), ', since ',
        closed ? ['a closing balance of ', number(closed), ' is kept']
            : ['the bank\u2019s, ', number(bankDay), ', is long past'],
        ': what was reconciled and filed stays as it is.']
    : ['They have the bank\u2019s day, ', number(day), ': no closing balance of that day or later is kept.']);

const countWords = ({ applied, repeated }) => `${applied} of them found their place`
    + `${repeated ? `, ${repeated} were there already` : ''}.`;

// What became of the lines.
export function sentBox({ body }) {
    if (!body.exceptions) return doneBox(`The lines are sent: ${countWords(body)}`);
    return warningBox(`The lines are sent: ${countWords(body)} ${body.exceptions} of them match nothing.`,
        p(link('#/report/exceptions', 'Look at the exceptions'), ': one that can\u2019t be covered yet is imported '
            + 'again once it can.'));
}

const isOfFirm = ({ reference }) => reference === 'FIRM';

// One correction: the line that was another's, what it may be, and what was chosen. `own` are the firm's own lines;
// `anew` is the deposit that is booked anew, `isFirst` whether before the lines, which then clear it. `warningsOf` and
// `effectsOf` are told of what was chosen. `isStill` asks whether all is as it was.
class Correction {
    constructor(page, { line, when, own = [], anew = null, isFirst = false, warningsOf, effectsOf, then, isStill }) {
        Object.assign(this, { page, line, when, own, anew, isFirst, warningsOf, effectsOf, then, isStill });
        this.right = null;
        this.place = el('div', {});
        this.told = el('div', {});
    }

    use(right) {
        this.right = right;
        this.show();
        this.place.querySelector('h2').focus();
    }

    lines() {
        const undone = this.isFirst ? this.anew.reference : this.line.reference;
        return withOwnNumbers(correctionOf(this.line, this.right, this.when.day, undone), this.own);
    }

    // Whether the deposit is booked anew too.
    isAnew() {
        return Boolean(this.anew) && (this.isFirst || this.tick.checked);
    }

    show() {
        const warnings = this.warningsOf(this.right);
        const effects = this.effectsOf(this.right);
        this.told = el('div', {});
        this.tick = el('input', { type: 'checkbox', id: 'anew', name: 'anew' });
        this.tick.checked = true;
        this.place.replaceChildren(...[
            el('h2', { tabindex: '-1' }, 'What will be sent'),
            warnings.length > 0 && warningBox('Look at it first.', warnings.map((each) => p(each))),
            this.anew && this.isFirst && p(strong('First'), ` ${this.anew.words} is booked anew, as entry `,
                number(this.anew.entry), ', and cleared by the first line.'),
            linesTable(this.lines()),
            el('ul', {}, effects.map((each) => el('li', {}, each))),
            p(dayWords(this.when, this.line.day)),
            this.anew && !this.isFirst && el('p', { class: 'tick' }, this.tick, el('label', { for: 'anew' },
                `Then book ${this.anew.words} anew, as entry ${this.anew.entry}: its own money is still to come`)),
            this.told,
            el('div', { class: 'buttons' },
                button(warnings.length ? 'Send it all the same' : 'Send it', () => this.send(), ''),
                button('Choose another', () => this.page.draw())),
        ].flat(Infinity).filter(Boolean));
    }

    tell(...boxes) {
        this.told.replaceChildren(...boxes);
        boxes[0].focus();
    }

    // Tells what was refused or not answered. What is sent again then is booked once.
    refuse(answer) {
        this.tell(refusedBox(answer, this.page.person));
    }

    async send() {
        this.isSent ??= false;
        if (!this.isSent && !await this.isStill(this.right)) {
            this.tell(warningBox(CHANGED));
            return;
        }
        this.isSent = true;
        const booked = this.isAnew() && this.isFirst ? await sendKept(this.page, this.anew.ask) : null;
        if (booked && !booked.isDone) {
            this.refuse(booked);
            return;
        }
        this.page.say('Sending');
        const answer = await sendLines(this.page, this.lines());
        this.page.say('');
        if (!answer.isDone) {
            this.refuse(answer);
            return;
        }
        await this.end(sentBox(answer));
    }

    // Behind the lines.
    async end(box) {
        if (!this.isAnew()) {
            this.page.go(this.then, box);
            return;
        }
        const { ask, words, entry } = this.anew;
        const booked = this.isFirst ? null : await sendKept(this.page, ask);
        if (booked && !booked.isDone) box.append(refusedBox(booked, this.page.person));
        else box.append(p(`Booked anew: ${words}, as entry ${entry}.`));
        this.page.go(booked && !booked.isDone ? this.then : `#/m/${ask.matter}/e/${entry}`, box);
    }
}

// The deposit once more, under the next number.
function anewOf(matter, { amount, source, description }) {
    const entry = entryAfter(matter.entries);
    return {
        entry,
        reference: `M${matter.matter}-${entry}`,
        words: `the deposit of ${grouped(amount)} by ${shown(source)}`,
        ask: newAsk({ matter: matter.matter, entry, verb: 'deposit', kind: 'deposit',
            fields: { amount, source, description }, what: `deposit of ${grouped(amount)}` }),
    };
}

const ALONE = 'It is taken back alone. Only where the bank\u2019s line stands under another entry too, or under FIRM: '
    + 'else there is a gap behind it.';

const BEYOND = 'would not stay from 0.00 to 500.00: that line is an exception until it does.';

// What the firm's own money would be with an amount more; a warning where it can't be so.
function ownWarnings(own, amount) {
    const sum = cents(own) + cents(amount);
    return sum >= 0n && sum <= 50000n ? []
        : [`The firm\u2019s own money is ${grouped(own)}, and with ${grouped(amount)} it ${BEYOND}`];
}

const shortWords = (available, what) => `Only ${grouped(available)} is available in the matter: the rest is spent, or `
    + `set apart. ${what} is an exception then, which explains the gap, until money is paid in there or the payment is `
    + 'voided. Import it again then.';

const clearedWords = ({ reference, matter, amount }) => (isOfFirm({ reference })
    ? `The firm\u2019s own money is changed by ${grouped(amount)}.`
    : [referenceLink(reference), amount.startsWith('-') ? ' is shown as paid by the bank.'
        : ` is cleared: ${grouped(amount)} is available in matter ${matter}.`]);

// Whether an entry is in this state still.
async function isIn(page, reference, state) {
    const answer = await page.desk.readToTheEnd(entryPath(reference.slice(1, 7), reference.slice(8)));
    return answer.isDone && answer.body.state === state;
}

const isWaiting = (page) => async ({ reference, amount }) =>
    reference === 'FIRM' || isIn(page, reference, amount.startsWith('-') ? 'issued' : 'held');

async function areAll(items, is) {
    for (const each of items) if (!await is(each)) return false;
    return true;
}

// What a line that was another's may be: an entry of its amount that waits, several that are its amount together, or
// the firm's own money.
function choices(correction, entries, own) {
    const { line } = correction;
    const others = entries.filter(({ reference }) => reference !== line.reference);
    const place = el('div', {});
    const several = () => {
        const chosen = chooser({ line: { ...line, number: 1 }, entries: others, use: (right) => correction.use(right),
            close: () => place.replaceChildren() });
        place.replaceChildren(chosen);
        chosen.querySelector('input, button').focus();
    };
    const same = ofItsAmount(others, line);
    const side = onItsSide(others, line);
    const firm = { reference: 'FIRM', amount: line.amount };
    return [
        el('h2', {}, 'Whose was it?'),
        candidatesTable('Entries of its amount that wait for the bank', same, (each) => correction.use([each]))
            ?? p('No entry of its amount waits for the bank. Book what is missing first, and come back here.'),
        el('div', { class: 'buttons' },
            line.reference !== 'FIRM' && button('It was the firm\u2019s own (FIRM)', () => correction.use([firm])),
            side.length > 1 && button('It was several together', several),
            button('The book has it elsewhere too', () => correction.use([]))),
        line.reference !== 'FIRM' && own && quiet(`The firm\u2019s own money is ${grouped(own)} now, `
            + `${grouped(leftOfOwn(own))} left to 500.00.`),
        place,
        correction.place,
    ];
}

const lineFacts = ({ day, bankRef, amount, text = '' }) => facts([['The bank\u2019s line', [money(amount), ' on ',
    number(day)]], ['Its number', label(bankRef)], text && ['Its words', label(text)]]);

async function readOwn(page) {
    return readTrial((await page.desk.get('/firm/trial-balance')).text).firm;
}

// A deposit that a line of another's cleared.
async function ofCleared(page, matter, entry) {
    const reference = `M${matter.matter}-${entry.entry}`;
    const line = { reference, day: entry.bank_day, bankRef: entry.bank_ref, amount: entry.amount };
    await readToday(page);
    const [when, entries, own, ownLinesThere] = await Promise.all([dayOfCorrection(page, line.day), readAtBank(page),
        readOwn(page), readOwnLines(page)]);
    const isShort = isMore(entry.amount, matter.available);
    const isHeld = isWaiting(page);
    const correction = new Correction(page, {
        line,
        when,
        own: ownLinesThere,
        anew: matter.closed ? null : anewOf(matter, entry),
        warningsOf: (right) => [isShort && shortWords(matter.available, 'The first line'),
            right.length === 0 && ALONE, right.some(isOfFirm) && ownWarnings(own, entry.amount)].flat().filter(Boolean),
        effectsOf: (right) => [[referenceLink(reference), ` is taken back: ${grouped(entry.amount)} less is available `
            + `in matter ${matter.matter}, which has ${grouped(matter.available)} now.`], ...right.map(clearedWords)],
        then: `#/m/${matter.matter}/e/${entry.entry}`,
        isStill: async (right) => await isIn(page, reference, 'cleared') && areAll(right, isHeld),
    });
    return [lineFacts(line),
        isShort && warningBox('It can\u2019t be taken back whole.', p(shortWords(matter.available, 'Its line'))),
        choices(correction, entries, own)];
}

// A return that took this deposit back, and was of another one: this one is booked anew and cleared, the other is taken
// back.
async function ofReturned(page, matter, entry) {
    const reference = `M${matter.matter}-${entry.entry}`;
    const line = { reference, day: entry.return_day, bankRef: entry.return_ref, amount: opposite(entry.amount) };
    await readToday(page);
    const [when, entries] = await Promise.all([dayOfCorrection(page, line.day), readAtBank(page)]);
    const { deposits } = await readShown(page, entries);
    if (matter.closed) return [lineFacts(line), p('The matter is closed: nothing is booked anew in it.')];
    const cleared = takenBackBy(deposits, { ...line, text: '' }).filter((each) => each.reference !== reference);
    const correction = new Correction(page, {
        line,
        when,
        anew: anewOf(matter, entry),
        isFirst: true,
        warningsOf: ([{ isShort, available }]) => (isShort ? [shortWords(available, 'The second line')] : []),
        effectsOf: ([{ reference: other, matter: of, available }]) => [
            `${grouped(entry.amount)} is available in matter ${matter.matter} again.`,
            [referenceLink(other), ` is taken back: ${grouped(entry.amount)} less is available in matter ${of}, which `
                + `has ${grouped(available)} now.`]],
        then: `#/m/${matter.matter}/e/${entry.entry}`,
        isStill: async ([{ reference: other }]) => await isIn(page, reference, 'returned')
            && isIn(page, other, 'cleared'),
    });
    const use = async (each) => {
        const { available } = (await page.desk.get(matterPath(each.matter))).body;
        correction.use([{ ...each, amount: line.amount, available, isShort: isMore(entry.amount, available) }]);
    };
    return [lineFacts(line), el('h2', {}, 'Which deposit did the bank take back?'),
        candidatesTable('Deposits of its amount that the bank has shown, the newest first', cleared, use)
            ?? p('No other deposit of its amount is cleared.'),
        correction.place];
}

// A payment stays cleared. Where both are cleared by one line, one more line explains the gap.
async function ofPayment(page, matter, entry) {
    const reference = `M${matter.matter}-${entry.entry}`;
    const line = { reference, day: entry.bank_day, bankRef: entry.bank_ref, amount: opposite(entry.amount) };
    const [when, entries] = await Promise.all([dayOfCorrection(page, line.day), readAtBank(page)]);
    const others = ofItsAmount(entries, line).filter((each) => each.reference !== reference);
    const explaining = [{ day: when.day, reference, bankRef: line.bankRef, amount: entry.amount,
        text: `${entry.instrument} was not paid: correction` }];
    const told = el('div', {});
    const send = async () => {
        page.say('Sending');
        const answer = await sendLines(page, explaining);
        page.say('');
        if (answer.isDone) page.go('#/report/exceptions', sentBox(answer));
        else {
            told.replaceChildren(refusedBox(answer, page.person));
            told.firstChild.focus();
        }
    };
    return [lineFacts(line),
        warningBox('A payment that the bank has shown stays so.',
            p('What was paid to whom is decided by a lawyer alone, and both ledgers are right: only the bank\u2019s '
                + 'numbers are swapped.')),
        longTable({ caption: 'Payments of its amount that wait for the bank', columns: CANDIDATES.slice(0, 5),
            items: others, first: FIRST, cells: (each) => [referenceLink(each.reference), label(each.client),
                number(each.day), label(each.words), money(each.amount)] }),
        p(others.length ? 'If the line was of one of these, name that one for the line of this payment\u2019s own '
            + 'check when the bank shows it. The two bank numbers stay swapped, and there is no gap.'
            : 'If the line was of a payment that is not booked, propose it, have it approved, and name it for the line '
            + 'of this payment\u2019s own check when the bank shows it.'),
        el('h2', {}, 'If both are cleared by this one line'),
        p('Then the reconciliation has a gap of ', money(entry.amount), '. The line below explains it: it is an '
            + 'exception, and stays one until this payment\u2019s own check comes. That is an exception too, and the '
            + 'two are 0.00 together.'),
        linesTable(explaining),
        p(dayWords(when, line.day)),
        told,
        p(button('Import it as an exception', send))];
}

const HOW = { cleared: { deposit: ofCleared, payment: ofPayment }, returned: { deposit: ofReturned } };

// Whether a line of the bank made the entry what it is.
export const isOfBank = ({ state, kind }) => Boolean(HOW[state]?.[kind]);

export async function another(page, no, entryNumber) {
    const [{ body: matter }, { body: entry }] = await Promise.all([page.desk.get(matterPath(no)),
        page.desk.get(entryPath(no, entryNumber))]);
    const title = [`It was another\u2019s: entry ${entryNumber} of matter ${no}, `, label(matter.client)];
    const back = p(link(`#/m/${no}/e/${entryNumber}`, 'Back to the entry'));
    if (isUnanswered(page, no)) return { title, parts: [p(FIRST_SEND), backTo(no)] };
    if (!isOfBank(entry)) return { title, parts: [p('No line of the bank cleared or returned it.'), back] };
    const parts = await HOW[entry.state][entry.kind](page, matter, entry);
    return { title, parts: [p(label(textsOf(entry))), ...parts, back] };
}

const OWN = [column('Day', 'tight'), column("The bank's number and words"), column('Amount', 'right'),
    column('Change')];

const ownAddress = ({ day, amount, bankRef }) => `#/own/${day}/${amount}/${encodeURIComponent(bankRef)}`;

// Whether a later line of the same number is the opposite of this one.
const isTakenBack = (line, lines) => lines.some((each) => each.bankRef === line.bankRef && each.day >= line.day
    && each.amount === opposite(line.amount));

// The lines of the firm's own money, each with the way back.
export async function ownLines(page) {
    await readToday(page);
    const [lines, own] = await Promise.all([readOwnLines(page), readOwn(page)]);
    const cells = (each) => [number(each.day), label([each.bankRef, each.text].filter(Boolean).join(' | ')),
        money(each.amount), isTakenBack(each, lines) ? 'its opposite is there too'
            : link(ownAddress(each), 'It was another\u2019s')];
    const parts = [p('The firm has ', money(own), ' of its own in the account, for the bank\u2019s charges: from 0.00 '
        + 'to 500.00.'),
    longTable({ caption: 'Its lines of the last five years, the newest first', columns: OWN,
        items: [...lines].reverse(), cells, first: 100 }) ?? p('There is none yet.')];
    return { title: 'The firm\u2019s own money', parts };
}

// A line that was taken for the firm's own.
export async function anotherOfFirm(page, day, amount, written) {
    const bankRef = decodeURIComponent(written);
    await readToday(page);
    const [lines, own, entries, when] = await Promise.all([readOwnLines(page), readOwn(page), readAtBank(page),
        dayOfCorrection(page, day)]);
    const title = ['It was another\u2019s: ', money(amount), ' of the firm\u2019s own'];
    const back = p(link('#/own', 'The firm\u2019s own lines'));
    const line = lines.find((each) => each.day === day && each.amount === amount && each.bankRef === bankRef);
    if (!line) return { title, parts: [p('The firm has no such line of its own.'), back] };
    if (isTakenBack(line, lines)) return { title, parts: [p('The book has the opposite of this line too.'), back] };
    const isHeld = isWaiting(page);
    const short = ownWarnings(own, opposite(amount));
    const correction = new Correction(page, {
        line,
        when,
        own: lines,
        warningsOf: (right) => [...short, ...(right.length === 0 ? [ALONE] : [])],
        effectsOf: (right) => [`The firm\u2019s own money is changed by ${grouped(opposite(amount))}, from `
            + `${grouped(own)}.`, ...right.map(clearedWords)],
        then: '#/own',
        isStill: (right) => areAll(right, isHeld),
    });
    return { title, parts: [lineFacts(line), short.length > 0 && warningBox('It can\u2019t be taken back as it is.',
        short.map((each) => p(each))), choices(correction, entries, own), back] };
}
