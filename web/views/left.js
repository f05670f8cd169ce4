// The lines of the bank's file that are to be looked at: each with the entries that it may show, and what can be
// decided of it.

import { grouped, isMore } from '../amounts.js';
import { readReference } from '../bank-file.js';
import { noteBox } from '../boxes.js';
import { leftOfOwn, listedIn, missingTo, numberOf, ofItsAmount, onItsSide, takenBackBy, together }
    from '../candidates.js';
import { button, el, label, money, number, p, quiet, referenceLink, strong } from '../elements.js';
import { isInterest } from '../interest.js';
import { adviceOn, whyLeft } from '../reasons.js';
import { column, longTable, table } from '../tables.js';
import { interestOffer } from './interest.js';

// So many lines are shown at first, and so many entries of each.
const FIRST = 100;
const ENTRIES = 5;

const WRONG = "Write FIRM, or an entry's reference such as M000001-0001.";

// As in the file, where it is no day or no amount.
export const dayOf = (date) => (/^\d{4}-\d\d-\d\d$/.test(date) ? number(date) : label(date));
export const amountOf = (amount) => (/^-?\d+\.\d\d$/.test(amount) ? money(amount) : label(amount));

const ENTRY_COLUMNS = [column('Reference', 'tight'), column('Client'), column('Day', 'tight'), column('Details'),
    column('Amount', 'right'), column('Use', 'tight')];

const entryCells = (entry, use) => [referenceLink(entry.reference), label(entry.client), number(entry.day),
    label(entry.words), money(entry.amount), use];

const entriesTable = (caption, entries, useOf) =>
    table(caption, ENTRY_COLUMNS, entries.map((each) => entryCells(each, useOf(each))));

const partsOf = (entries) => entries.map(({ reference, amount }) => ({ reference, amount }));

// Chooses entries that are together a line's amount. `use` is told which.
export function chooser({ line, entries, use, close }) {
    const side = onItsSide(entries, line);
    const chosen = new Set();
    const told = el('p', { role: 'status' });
    const send = button('Use these', () => use([...chosen]), '');
    const tell = () => {
        const missing = missingTo(line, [...chosen]);
        send.disabled = chosen.size < 2 || missing !== '0.00';
        told.textContent = `${chosen.size} chosen; ${grouped(missing)} of ${grouped(line.amount)} is missing.`;
    };
    const tick = (entry) => {
        const name = `part-${line.number}-${entry.reference}`;
        const change = ({ target }) => {
            if (target.checked) chosen.add(entry);
            else chosen.delete(entry);
            tell();
        };
        return el('input', { type: 'checkbox', id: name, name, 'aria-label': `${entry.reference}, a part`, change });
    };
    tell();
    return el('div', { class: 'chooser' },
        side.length ? entriesTable('Which entries are together this line?', side, tick)
            : p('Nothing that waits for the bank goes this way.'),
        told,
        el('div', { class: 'buttons' }, side.length > 0 && send, button('Keep it whole', close)));
}

// One line. It is drawn anew as something is decided of it, and once it is known what waits for the bank.
class Line {
    constructor(list, { line, reasons }) {
        Object.assign(this, { list, file: list.file, line, reasons, isChoosing: false, isLong: false });
        this.element = el('li', { class: 'line' });
        this.asked = el('div', {});
        this.draw();
    }

    draw() {
        const { date, amount, text, number: no } = this.line;
        this.element.setAttribute('data-state', this.file.isNamed(no) ? 'named' : 'open');
        this.element.replaceChildren(...[
            el('h3', {}, amountOf(amount), ' on ', dayOf(date), ' ', el('span', { class: 'quiet' }, `record ${no}`)),
            text && p(label(text)),
            this.reasons.map((reason) => [p(whyLeft(reason)), el('p', { class: 'hint' }, adviceOn(reason))]),
            this.list.wasException(this.line),
            this.decided() ?? this.choices(),
        ].flat(Infinity).filter(Boolean));
    }

    // What waits for the bank is known: whoever types goes on typing.
    know() {
        const field = this.element.contains(document.activeElement) ? document.activeElement.id : '';
        this.draw();
        if (field) this.element.querySelector(`#${field}`)?.focus();
    }

    // Does something, and shows what became of it.
    decide(action) {
        action();
        this.isChoosing = false;
        this.asked.replaceChildren();
        this.draw();
        this.element.querySelector('.decided, input')?.focus();
    }

    use(reference) {
        this.decide(() => this.file.type(this.line.number, reference));
    }

    useParts(entries) {
        this.decide(() => this.file.split(this.line.number, partsOf(entries)));
    }

    // What was decided, and the way back; null where nothing was.
    decided() {
        const { number: no } = this.line;
        const parts = this.file.parts.get(no);
        const back = (words) => button(words, () => this.decide(() => this.file.type(no, '')));
        if (parts) {
            return [el('p', { class: 'decided', tabindex: '-1' }, strong('Split over '), parts.map((part, i) =>
                [i > 0 && ', ', referenceLink(part.reference), ' ', money(part.amount)]),
            '. The day and the bank\u2019s reference stay.'), back('Keep it whole')];
        }
        if (!this.file.left.has(no)) return null;
        return [el('p', { class: 'decided', tabindex: '-1' }, strong('Left.'), ' It is not imported.'),
            back('Take it up again')];
    }

    // What a line may be. Of one that was decided the other entries are folded away.
    choices() {
        const isDecided = this.reasons.every((each) => each === DECIDED);
        const candidates = this.candidates();
        return [isDecided ? el('details', {}, el('summary', {}, 'Other entries that it may be'), candidates)
            : candidates, this.interest(), this.isChoosing && this.choosing(), this.typing()];
    }

    candidates() {
        const { entries } = this.list;
        if (!entries) {
            return quiet(this.list.isRead ? 'What waits for the bank could not be read: match again, or type it.'
                : 'Reading what waits for the bank\u2026');
        }
        const same = ofItsAmount(entries, this.line);
        const set = together(entries, this.line, this.reasons);
        const useOf = ({ reference }) => {
            const made = button('Use this', () => this.use(reference));
            made.setAttribute('aria-label', `Use ${reference} for record ${this.line.number}`);
            return made;
        };
        const shown = this.isLong ? same : same.slice(0, ENTRIES);
        return [
            entriesTable('Entries of its amount that wait for the bank', shown, useOf),
            shown.length < same.length && p(button(`Show all ${same.length}`, () => {
                this.isLong = true;
                this.draw();
            })),
            set.length > 0 && [entriesTable('Together they are its amount', set, () => ''),
                p(button(`Use these ${set.length}`, () => this.useParts(set)))],
            this.returned(),
        ];
    }

    // Whether the line may be a return: the desk says so, or it was decided here, and may be decided anew.
    isReturn() {
        const { amount, number: no } = this.line;
        return amount.startsWith('-') && (this.file.typed.has(no) || this.reasons.some((reason) => listedIn(reason)
            .some((each) => each.state === 'cleared' && `-${each.amount}` === amount)));
    }

    // Cleared deposits that the bank may have taken back, each with what speaks for it and against it.
    returned() {
        if (!this.isReturn()) return null;
        const words = (each) => {
            const shown = numberOf(each, this.line);
            return [label(each.words),
                shown && el('span', { class: 'warning' }, ` the bank\u2019s words have its number ${shown}`),
                isMore(each.amount, each.available) && el('span', { class: 'hint' },
                    ` only ${grouped(each.available)} is available there: it would be an exception until more is`)];
        };
        const use = ({ reference }) => {
            const made = button('Use this', () => this.use(reference));
            made.setAttribute('aria-label', `Use ${reference} for record ${this.line.number}`);
            return made;
        };
        return longTable({ caption: 'Deposits that it may take back', columns: ENTRY_COLUMNS, first: ENTRIES,
            items: takenBackBy(this.list.deposits, this.line), cells: (each) => [referenceLink(each.reference),
                label(each.client), number(each.day), words(each), money(each.amount), use(each)] });
    }

    // What speaks against FIRM: an entry of exactly this amount waits, or the book has such a line of that day.
    doubtsOfFirm() {
        const { entries, ownLines } = this.list;
        const waiting = ofItsAmount(entries ?? [], this.line).map(({ reference, client }) => [referenceLink(reference),
            ', ', label(client), ', waits for the bank and has exactly this amount. Is the line of it? FIRM would be '
            + 'the firm\u2019s own money.']);
        const there = ownLines.filter(({ day, amount }) => day === this.line.date && amount === this.line.amount)
            .map(({ bankRef, text }) => ['Perhaps in the book: the firm\u2019s own lines have this amount of this day '
                + 'already, ', label([bankRef, text].filter(Boolean).join(' | ')), '.']);
        return [...waiting.slice(0, ENTRIES), ...there];
    }

    isFirm() {
        const { number: no } = this.line;
        return this.file.typed.has(no) && readReference(this.file.typed.get(no)) === 'FIRM';
    }

    // Whether FIRM is to be asked about before it is taken.
    isDoubted() {
        return !sureOf(this.file).has(this.line.number) && this.doubtsOfFirm().length > 0;
    }

    takeFirm() {
        if (!this.isDoubted()) {
            this.use('FIRM');
            return;
        }
        this.ask();
    }

    // Asks before FIRM is taken.
    ask() {
        const { number: no } = this.line;
        this.asked.replaceChildren(noteBox(this.doubtsOfFirm().map((each) => p(each)), el('div', { class: 'buttons' },
            button('FIRM all the same', () => {
                sureOf(this.file).add(no);
                this.use('FIRM');
            }),
            button('Not FIRM', () => this.decide(() => this.file.type(no, ''))))));
        this.asked.firstChild.focus();
    }

    // A line of interest, as long as nothing is decided of it.
    interest() {
        const { account, page, again } = this.list;
        if (!account || this.file.isNamed(this.line.number) || !isInterest(this.line)) return null;
        return interestOffer(page, this.line, account, again);
    }

    choosing() {
        return chooser({ line: this.line, entries: this.list.entries, use: (entries) => this.useParts(entries),
            close: () => this.decide(() => {}) });
    }

    // The field for a line's reference. What is typed is kept at once, whether it is a reference yet or not.
    typing() {
        const { number: no, reference } = this.line;
        const id = `reference-${no}`;
        const told = el('p', { class: 'decided', tabindex: '-1' });
        const tell = () => {
            const named = this.file.typed.has(no) && readReference(this.file.typed.get(no));
            const doubts = named === 'FIRM' ? this.doubtsOfFirm() : [];
            const warnings = doubts.map((each) => el('span', { class: 'warning' }, ' ', each));
            const parts = named ? [strong('Named here: '), referenceLink(named), '.', warnings] : [];
            told.replaceChildren(...parts.flat(Infinity).filter(Boolean));
        };
        const input = el('input', { id, name: id, type: 'text', value: this.file.typed.get(no) ?? reference,
            autocomplete: 'off', spellcheck: 'false', 'aria-describedby': `${id}-error`,
            input: () => {
                this.file.type(no, input.value);
                tell();
            } });
        tell();
        const named = (made, words) => {
            made.setAttribute('aria-label', `${words} record ${no}`);
            return made;
        };
        const { own, entries } = this.list;
        return [told, el('label', { for: id, class: 'hint' }, `Reference of record ${no}`),
            el('div', { class: 'typing' }, input,
                named(button('FIRM', () => this.takeFirm()), 'FIRM for'),
                entries && !this.isChoosing && named(button('Split it', () => {
                    this.isChoosing = true;
                    this.draw();
                    this.element.querySelector('.chooser input')?.focus();
                }), 'Split'),
                named(button('Leave it', () => this.decide(() => this.file.leave(no))), 'Leave')),
            el('p', { class: 'error', id: `${id}-error`, 'aria-live': 'polite' }),
            this.asked,
            own && el('p', { class: 'hint' }, `FIRM is the firm\u2019s own money: ${grouped(own)} now, `
                + `${grouped(leftOfOwn(own))} left to 500.00.`)];
    }
}

// A record that is no line: it is mended in the file itself.
const unreadable = ({ line, reasons }) => el('li', { class: 'line' },
    line && el('h3', {}, `Record ${line.number}`),
    line && p(label(line.whole)),
    reasons.map((reason) => [p(whyLeft(reason)), el('p', { class: 'hint' }, adviceOn(reason))]),
    quiet('It is mended in the file itself.'));

const DECIDED = { name: 'Decided' };

// Of which lines of a file FIRM was taken against a doubt.
const SURE = new WeakMap();

function sureOf(file) {
    if (!SURE.has(file)) SURE.set(file, new Set());
    return SURE.get(file);
}

// What is to be looked at, and what was decided here already, in the order of the file: each line once.
function itemsOf(file, told) {
    const byNumber = new Map();
    const nowhere = told.filter(({ line }) => !line).map(({ reason }) => ({ line: null, reasons: [reason] }));
    for (const { line, reason } of told.filter((each) => each.line)) {
        byNumber.set(line.number, [...(byNumber.get(line.number) ?? []), reason]);
    }
    for (const { number: no } of file.lines) if (file.isNamed(no) && !byNumber.has(no)) byNumber.set(no, [DECIDED]);
    const items = [...byNumber].map(([no, reasons]) => ({ line: file.lines[no - 1], reasons }));
    return [...nowhere, ...items.sort((one, other) => one.line.number - other.line.number)];
}

// All of them, as a form by which the file is matched again.
export class LeftLines {
    constructor({ page, file, told, own, wasException, again }) {
        Object.assign(this, { page, file, own, wasException, again, entries: null, isRead: false, deposits: [],
            ownLines: [], account: null });
        this.items = itemsOf(file, told);
        this.lines = [];
        this.place = el('ol', { class: 'lines' });
        this.more = p();
        const submit = (event) => {
            event.preventDefault();
            return this.areReferences() ? again() : null;
        };
        this.element = this.items.length === 0 ? null : el('form', { class: 'left', submit, 'aria-busy': 'true' },
            el('h2', {}, this.headWords()),
            p('A line without a reference is not imported. Use an entry, split the line over several, or type a '
                + 'reference; FIRM is for the firm\u2019s own money. The file is kept in this browser with what you '
                + 'decide.'),
            this.place,
            this.more,
            el('button', { type: 'submit' }, 'Match again'));
        this.show(FIRST);
    }

    // How many are open, and how many were decided here.
    headWords() {
        const decided = this.items.filter(({ reasons }) => reasons.every((each) => each === DECIDED)).length;
        const open = `To be looked at: ${this.items.length - decided}`;
        return decided ? `${open}; decided here: ${decided}` : open;
    }

    show(count) {
        const items = this.items.slice(0, count);
        this.lines = items.map((item) => (item.line?.isWhole ? new Line(this, item) : unreadable(item)));
        this.place.replaceChildren(...this.lines.map((each) => each.element ?? each));
        this.more.replaceChildren(...(items.length < this.items.length
            ? [`${items.length} of ${this.items.length} are shown. `,
                button(`Show all ${this.items.length}`, () => this.show(this.items.length))] : []));
    }

    // What waits for the bank is known, or can't be read (null); with the deposits that the bank has shown, the lines
    // of the firm's own, and the matter that takes interest.
    know(entries, deposits, ownLines, account) {
        Object.assign(this, { entries, deposits, ownLines, account, isRead: true });
        for (const each of this.lines) if (each instanceof Line) each.know();
        this.element?.removeAttribute('aria-busy');
    }

    // The first that is typed and no reference has the focus. One that a cut list does not show is not looked at.
    areReferences() {
        let wrong = null;
        for (const [no, typed] of this.file.typed) {
            const input = this.element.elements.namedItem(`reference-${no}`);
            const isWrong = Boolean(input) && readReference(typed) === null;
            input?.setAttribute('aria-invalid', String(isWrong));
            const error = this.element.querySelector(`#reference-${no}-error`);
            if (error) error.textContent = isWrong ? WRONG : '';
            if (isWrong) wrong ??= input;
        }
        wrong?.focus();
        return !wrong && !this.asksOfFirm();
    }

    // Asks of the first FIRM that was typed against a doubt.
    asksOfFirm() {
        const doubted = this.lines.find((each) => each instanceof Line && each.isFirm() && each.isDoubted());
        doubted?.ask();
        return Boolean(doubted);
    }
}
