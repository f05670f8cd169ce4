// The bank's statement: a file is matched with what waits for the bank, and what is sure is imported; or the file is
// imported as it is. It is kept in the browser until it is done with.

import { readAtBank } from '../at-bank.js';
import { kindOf } from '../bank/file.js';
import { BankFile } from '../bank-file.js';
import { doneBox, failedBox, noteBox, tellRefusal, warningBox } from '../boxes.js';
import { readShown } from '../corrections.js';
import { textOf } from '../csv.js';
import { GREATEST, Refused } from '../desk.js';
import { button, el, facts, link, p, referenceLink } from '../elements.js';
import { movementOf, readByMovement } from '../exceptions.js';
import { isInterest, readInterest } from '../interest.js';
import { areInBook, isSameAs, matchFile } from '../matched.js';
import { whyException } from '../reasons.js';
import { countLines, readTrial } from '../reports.js';
import { findShortfalls } from '../shortfalls.js';
import { rememberClosing } from './closings.js';
import { savingColumns } from './columns.js';
import { dismissOffers } from './exceptions.js';
import { LeftLines } from './left.js';
import { BELOW_ZERO, countWrong, matchedBox, writtenTable } from './matched.js';
import { shortfallBoxes } from './shortfalls.js';
import { Taking } from './taking.js';

const LINES_A_MINUTE = 3600; // on a busy disk
const OFTEN = 5000; // milliseconds between two words on a long import

const EMPTY = 'Choose a file.';
const TOO_LARGE = 'The file has more than 4,194,304 bytes: import it in parts.';
const NOT_READ = 'The file was changed or moved since it was chosen: choose it again.';
const STILL_READ = 'A long statement may still be read. Wait some minutes, then import the same file again: '
    + 'its lines are applied once.';
const KEPT = 'The file is kept in this browser, with what was decided of its lines.';
const CHANGED = 'The book has changed since this was matched. Nothing was imported: look at it again.';
const CHOSEN = 'What you decided is in the list now. Nothing was imported yet: look at it, and import.';
const WRONG = 'Some of these lines match nothing as they stand: they are told below. Mend them first, or they become '
    + 'exceptions.';
const HINT = 'As the bank gives it: OFX, QFX, QBO, camt.053 or CSV; or a statement of this program. At most 4,194,304 '
    + 'bytes. The same file may come again: nothing is counted twice.';
const NO_TEXT = 'This is no bank\u2019s file: of a PDF or a spreadsheet nothing can be read. Take OFX, camt.053 or '
    + 'CSV.';
const WIDE = 'The file is in UTF-16: save it again as CSV in UTF-8.';
const ACCEPTED = '.csv,.txt,.ofx,.qfx,.qbo,.xml,text/csv';
const CHOICE = "Match fills in the references that the bank's words make sure, and imports nothing. "
    + 'Import as it is imports the file as it is.';

function wrongWith(file) {
    if (!file) return EMPTY;
    return file.size > GREATEST ? TOO_LARGE : '';
}

// Why a file is no text; empty where it is one. A text has no zero byte, and begins like none of these.
function whyNoText(bytes) {
    const front = textOf(bytes.subarray(0, 8));
    if (front.startsWith('\u00ff\u00fe') || front.startsWith('\u00fe\u00ff')) return WIDE;
    return bytes.includes(0) || front.startsWith('%PDF') || front.startsWith('PK\u0003\u0004') ? NO_TEXT : '';
}

// The counts in words. The desk tells how many lines were not readable, and not which.
function countsBox(name, told) {
    const isWell = told.exceptions === 0 && told.unreadable === 0;
    return (isWell ? doneBox : warningBox)(`${name} was imported.`,
        facts([
            ['Lines that found their place', String(told.applied)], ['Were there already', String(told.repeated)],
            ['Match nothing (exceptions)', String(told.exceptions)], ['Not readable', String(told.unreadable)],
            ['Closing balance of', told.statement],
        ]),
        told.exceptions > 0 && p(link('#/report/exceptions', 'Look at the exceptions'),
            '. Book or mend what is missing, and import the same file again.'),
        told.unreadable > 0 && p('A line that is not readable was left out. Compare the file with the bank.'),
        told.statement && p(link(`#/reconciliation/${told.statement}`, `Reconcile ${told.statement}`), ', or show the ',
            link(`#/month/${told.statement}`, 'month\u2019s end'), '.'));
}

function importingOf(count) {
    const minutes = Math.ceil(count / LINES_A_MINUTE);
    return `Importing lines: ${count}${minutes > 1 ? ` (some ${minutes} minutes on a busy disk)` : ''}`;
}

// The file is the wrong one, which no other sending mends.
const isNoStatement = ({ status }) => status === 413 || status === 422;

const isOf = (line, { date, bank_ref: number, amount }) =>
    line.date === date && line.bank_ref === number && line.amount === amount;

// What stands in the book and in its exceptions beside what the desk made of the file.
class Beside {
    constructor(own, exceptions) {
        Object.assign(this, { own, exceptions });
    }

    // The exceptions of a line: it was imported before under another reference.
    of(line) {
        return (this.exceptions.get(movementOf(line)) ?? []).filter((each) => isOf(line, each));
    }

    // What is told of a line's exceptions.
    words(line) {
        return this.of(line).map((each) => p('It was imported before under ',
            referenceLink(each.reference) || 'no reference', ', and is an exception since: ',
            whyException(each), '.'));
    }
}

async function readBeside(page) {
    const [trial, exceptions] = [await page.desk.read('/firm/trial-balance'), await readByMovement(page)];
    return new Beside(trial.isDone ? readTrial(trial.text).firm : null, exceptions);
}

// What the desk makes of the file, the exceptions that its lines are already, and what it would take back of money that
// is spent.
async function look(page, file) {
    const found = await matchFile(page, file);
    if (found.refused) return found;
    return { ...found, beside: await readBeside(page), short: await findShortfalls(page, found.lines) };
}

// The view: its elements, and the file at hand, which is null where there is none.
class Statement {
    constructor(page) {
        this.page = page;
        this.file = BankFile.kept(page.shelf);
        this.isBusy = false;
        this.asks = 0;
        this.taking = null; // the bank's file that was chosen last, until it is taken
        this.input = el('input', { type: 'file', id: 'file', name: 'file', accept: ACCEPTED,
            'aria-describedby': 'file-hint file-error' });
        this.error = el('p', { class: 'error', id: 'file-error', 'aria-live': 'polite' });
        this.kept = el('div', {});
        this.place = el('div', {});
        this.told = el('div', {});
        this.lists = el('div', {});
        this.showKept();
    }

    // As long as one thing is under way, another click does nothing.
    async run(action) {
        if (this.isBusy) return;
        this.isBusy = true;
        this.place.setAttribute('aria-busy', 'true');
        try {
            await action();
        } catch (fault) {
            console.error(fault);
            this.tell(failedBox(fault));
        } finally {
            this.isBusy = false;
            this.place.removeAttribute('aria-busy');
        }
    }

    tell(...boxes) {
        this.told.replaceChildren(...boxes.filter(Boolean));
        boxes[0]?.focus();
    }

    showKept() {
        const { file } = this;
        this.kept.replaceChildren(...(file ? [p(`${file.name} is kept in this browser. Another file takes its place.`),
            p(button('Put it away', () => this.putAway()))] : []));
    }

    forget() {
        this.file?.forget();
        this.file = null;
        this.lists.replaceChildren();
        this.showKept();
    }

    putAway() {
        this.forget();
        this.tell(noteBox(p('The file is kept no more. What was imported stays in the book.')));
    }

    // The bytes of the file that was chosen or dropped; null where they can't be taken, which is said.
    async read(chosen) {
        this.error.textContent = wrongWith(chosen);
        let bytes = null;
        try {
            if (!this.error.textContent) bytes = new Uint8Array(await chosen.arrayBuffer());
        } catch {
            this.error.textContent = NOT_READ;
        }
        if (bytes) this.error.textContent = whyNoText(bytes);
        if (!this.error.textContent) return bytes;
        this.tell();
        this.input.focus();
        return null;
    }

    // Takes the file that was chosen, in the place of the one that is kept, and then does something with it. Of a
    // bank's own file it is shown first what it has.
    async take(action) {
        const [chosen] = this.input.files;
        this.lists.replaceChildren();
        this.place.replaceChildren();
        this.taking?.reader.end();
        if (this.file && !chosen) {
            this.error.textContent = '';
            await action();
            return;
        }
        const bytes = await this.read(chosen);
        if (!bytes) return;
        this.input.value = '';
        if (kindOf(bytes) === 'statement') await this.keep(chosen.name, textOf(bytes), action);
        else await this.showBankFile(chosen.name, bytes);
    }

    async keep(name, text, action) {
        if (text.length > GREATEST) {
            this.error.textContent = TOO_LARGE;
            return;
        }
        this.file = BankFile.taken(this.page.shelf, name, text);
        this.showKept();
        await action();
    }

    async showBankFile(name, bytes) {
        this.tell();
        const take = (text) => this.run(async () => {
            this.place.replaceChildren();
            await this.keep(name, textOf(new TextEncoder().encode(text)), () => this.match());
        });
        const taking = new Taking({ page: this.page, name, bytes, take });
        this.taking = taking;
        this.place.replaceChildren(taking.element);
        await taking.read();
        taking.element.querySelector('select, input, button')?.focus();
    }

    refuse(answer, ...more) {
        if (isNoStatement(answer)) this.forget();
        tellRefusal(this.told, answer, this.page.person, ...more, ...(this.file ? [p(KEPT)] : []));
    }

    // What the desk makes of the file; null where it is refused, which is told.
    async ask() {
        this.page.say('Matching');
        const asked = textOf(this.file.bytes());
        const found = await look(this.page, this.file);
        this.page.say('');
        if (!found.refused) return { ...found, asked };
        this.refuse(found.refused);
        return null;
    }

    // Whether what is told gets the focus, which is not so as the view is opened.
    async match(isOpened = false) {
        const found = await this.ask();
        if (!found) return;
        this.showLists(found);
        const box = matchedBox(this.file, found);
        if (isOpened) this.told.replaceChildren(box);
        else this.tell(box);
    }

    showLists(found) {
        const wrong = countWrong(found) + found.short.length;
        const ask = wrong ? button('Import these all the same', () => this.run(() => this.importThese(found)))
            : button('Import these', () => this.run(() => this.importThese(found)), '');
        const importing = found.lines.length > 0 && [countWrong(found) > 0 && warningBox(WRONG),
            shortfallBoxes(this.page, found.short, (line) => this.run(() => this.leave(line))), p(ask)];
        const { own } = found.beside;
        const left = new LeftLines({ page: this.page, file: this.file, told: found.told, own,
            again: () => this.run(() => this.match()), wasException: (line) => found.beside.words(line) });
        this.lists.replaceChildren(
            ...[writtenTable(found.lines), importing, left.element].flat(Infinity).filter(Boolean));
        if (left.element) this.readEntries(left, found.told);
    }

    // Leaves a line of what would be imported, and matches again.
    async leave(line) {
        const own = this.file.lines.find((each) => each.isWhole && isOf(each, line));
        if (own) this.file.leave(own.number);
        await this.match();
    }

    // Reads what waits for the bank, the deposits that it has shown, the firm's own lines and, for a line of interest,
    // the matter that takes it, beside all else; what is late for another list is dropped.
    async readEntries(left, told) {
        this.asks += 1;
        const mine = this.asks;
        let known = [null, [], [], null]; // references can be typed all the same
        try {
            const entries = await readAtBank(this.page);
            const { deposits, own } = await readShown(this.page, entries);
            const hasInterest = told.some(({ line }) => line?.isWhole && isInterest(line));
            known = [entries, deposits, own, hasInterest ? await readInterest(this.page) : null];
        } catch (fault) {
            if (!(fault instanceof Refused)) console.error(fault);
        }
        if (mine === this.asks) left.know(...known);
    }

    // What is sent is what was shown: where the book has changed meanwhile, or something was decided since, it is shown
    // again.
    async importThese(found) {
        const now = await this.ask();
        if (!now) return;
        if (!isSameAs(now, found)) {
            this.showLists(now);
            this.tell(now.asked === found.asked ? warningBox(CHANGED) : noteBox(p(CHOSEN)), matchedBox(this.file, now));
            return;
        }
        const told = await this.bringIn(found.bytes);
        if (!told) return;
        const boxes = [told, await this.offersOf(found)];
        if (!found.left) this.done(...boxes);
        else await this.goOn(...boxes);
    }

    // What is in the book now, and an exception still under another reference, can be dismissed.
    async offersOf({ lines, beside }) {
        const movements = new Set(lines.filter(({ isWhole }) => isWhole).map(movementOf));
        const old = [...beside.exceptions].filter(([movement]) => movements.has(movement)).flatMap(([, all]) => all);
        const isKnown = await areInBook(this.page, old);
        return dismissOffers(this.page, old.filter((_, i) => isKnown[i]));
    }

    // Lines are left. Those that are in the book are left out from now on, so what was named has done its work.
    async goOn(...boxes) {
        this.file.unname();
        const found = await this.ask();
        if (!found) {
            this.told.prepend(...boxes.filter(Boolean));
            return;
        }
        this.showLists(found);
        this.tell(...boxes, matchedBox(this.file, found));
    }

    done(...boxes) {
        this.forget();
        this.tell(...boxes);
    }

    // Says how many lines are imported and, every few seconds, for how long by now.
    async sayWhile(count, work) {
        const begun = Date.now();
        const seconds = () => Math.round((Date.now() - begun) / 1000);
        this.page.say(importingOf(count));
        const clock = setInterval(() => this.page.say(`${importingOf(count)}, ${seconds()} seconds so far`), OFTEN);
        try {
            return await work();
        } finally {
            clearInterval(clock);
            this.page.say('');
        }
    }

    // The box that tells the counts; null where the statement is refused, which is told.
    async bringIn(bytes) {
        const answer = await this.sayWhile(countLines(textOf(bytes)),
            () => this.page.desk.post('/firm/statements', bytes));
        if (!answer.isDone) {
            this.refuse(answer, ...(answer.isUnknown ? [p(STILL_READ)] : []));
            return null;
        }
        if (answer.body.statement) rememberClosing(this.page, answer.body.statement);
        return countsBox(this.file.name, answer.body);
    }

    // The file as it is. Its lines without a reference would be exceptions, so that is asked again.
    async bringAll(isAsked = false) {
        const open = this.file.countOpen();
        const isBelow = this.file.closesBelowZero();
        if ((open || isBelow) && !isAsked) {
            const all = button(open ? 'Import them as exceptions' : 'Import it all the same',
                () => this.run(() => this.bringAll(true)));
            this.tell(noteBox(open > 0 && p(`Lines without a reference: ${open}. Imported so they are exceptions. `
                + 'Match the file first.'), isBelow && p(BELOW_ZERO), p(all)));
            return;
        }
        const told = await this.bringIn(this.file.bytes());
        if (told) this.done(told);
    }

    form() {
        const begin = (action) => this.run(() => this.take(action));
        const drop = (event) => {
            event.preventDefault();
            if (event.dataTransfer.files.length) this.input.files = event.dataTransfer.files;
        };
        const submit = (event) => {
            event.preventDefault();
            return begin(() => this.match());
        };
        return el('form', { class: 'form', submit, drop, dragover: (event) => event.preventDefault() },
            el('div', { class: 'field' },
            el('label', { for: 'file' }, "The bank's file: choose it, or drop it here"),
            el('p', { class: 'hint', id: 'file-hint' }, HINT),
            this.input,
            this.error),
        this.kept,
        el('p', { class: 'hint' }, CHOICE),
        el('div', { class: 'buttons' },
            el('button', { type: 'submit' }, 'Match'),
            button('Import as it is', () => begin(() => this.bringAll()))));
    }
}

export function statement(page) {
    const view = new Statement(page);
    const later = () => (view.file ? view.run(() => view.match(true)) : null);
    return { title: 'Bank statement', parts: [view.form(), view.place, view.told, view.lists, savingColumns(page)],
        later };
}
