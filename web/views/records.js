// A file of records is sent: each as its request, in order. It goes on where it stopped; sent again nothing is booked
// twice.

import { kindOf } from '../bank/file.js';
import { doneBox, failedBox, noteBox, warningBox } from '../boxes.js';
import { GREATEST } from '../desk.js';
import { button, el, label, link, p, strong } from '../elements.js';
import { UNDONE_BY_NOTHING, hasVerb, readRecords, sendRecord } from '../records.js';
import { wordsOf } from '../refusals.js';
import { column, longTable } from '../tables.js';

const FIRST = 100;

const HINT = 'A day sheet: a record in each line, such as deposit,000001,0001,500.00,Ada Chen,retainer. '
    + 'At most 4,194,304 bytes.';

const WRONG = [column('Record', 'tight'), column('As it stands'), column('What is wrong')];
const ANSWERED = [column('Record', 'tight'), column('As it stands'), column('Answer')];

const wrongTable = (records) => longTable({ caption: 'Records that are none', columns: WRONG, items: records,
    cells: ({ number, words, wrong }) => [String(number), label(words), label(wrong)], first: FIRST });

// What a record was answered, in a word or two, or in the words of its refusal.
function answerWords({ answer }, person) {
    if (answer.status === 201) return 'booked';
    if (answer.isDone) return 'done, or in the book already';
    const { what, next, name } = wordsOf(answer, person);
    return [strong(what), ` ${next}`, name && el('span', { class: 'hint' }, ` ${name}`)];
}

class Records {
    constructor(page) {
        Object.assign(this, { page, records: [], answers: [], isStopped: false });
        this.input = el('input', { type: 'file', id: 'records', name: 'records', accept: '.csv,.txt,text/csv',
            'aria-describedby': 'records-hint records-error' });
        this.error = el('p', { class: 'error', id: 'records-error', 'aria-live': 'polite' });
        this.place = el('div', {});
    }

    show(...parts) {
        this.place.replaceChildren(...parts.flat(Infinity).filter(Boolean));
        this.place.querySelector('.box')?.focus();
    }

    async choose(event) {
        event.preventDefault();
        const [chosen] = this.input.files;
        this.error.textContent = !chosen ? 'Choose a file.'
            : chosen.size > GREATEST ? 'The file has more than 4,194,304 bytes: send it in parts.' : '';
        if (this.error.textContent) {
            this.input.focus();
            return;
        }
        try {
            this.read(chosen.name, new Uint8Array(await chosen.arrayBuffer()));
        } catch (fault) {
            console.error(fault);
            this.show(failedBox(fault));
        }
    }

    // A file with a record that is none is not sent at all.
    read(name, bytes) {
        if (kindOf(bytes) !== 'csv') {
            this.show(warningBox(`${name} is a file of the bank\u2019s, and none of records.`,
                p('It is matched and imported as a ', link('#/statement', 'bank statement'), '.')));
            return;
        }
        Object.assign(this, { name, records: readRecords(bytes), answers: [] });
        if (this.records.length && !this.records.some(hasVerb)) {
            this.show(warningBox(`Nothing of ${name} was sent.`, p('None of its lines begins with a verb of a day '
                + 'sheet, such as deposit. Is it the bank\u2019s? That is matched and imported as a ',
            link('#/statement', 'bank statement'), '.')));
            return;
        }
        const wrong = this.records.filter(({ wrong: is }) => is);
        if (wrong.length || !this.records.length) {
            const why = wrong.length ? `${wrong.length} of ${this.records.length} records are none.`
                : 'It has no record.';
            this.show(warningBox(`Nothing of ${name} was sent.`, p(why)), wrongTable(wrong));
            return;
        }
        const final = this.records.filter(({ verb }) => UNDONE_BY_NOTHING.has(verb)).length;
        this.show(noteBox(p(strong(`${name} has ${this.records.length} records. Nothing was sent yet.`)),
            final > 0 && p(`${final} of them can\u2019t be taken back (${[...UNDONE_BY_NOTHING].join(', ')}).`),
            p(button(`Send these ${this.records.length}`, () => this.send(), ''))));
    }

    // Goes on behind the last that was answered. Where nobody knows what became of one it stops there.
    async send() {
        this.isStopped = false;
        this.place.setAttribute('aria-busy', 'true');
        const bar = el('progress', { max: String(this.records.length), value: String(this.answers.length),
            'aria-label': 'Records sent' });
        const told = p();
        this.show(noteBox(told, bar, p(button('Stop', () => { this.isStopped = true; }))));
        let unknown = null;
        while (this.answers.length < this.records.length && !this.isStopped && !unknown && this.place.isConnected) {
            const record = this.records[this.answers.length];
            told.textContent = `Sending record ${record.number} of ${this.records.length}`;
            const answer = await sendRecord(this.page.desk, record);
            if (answer.isUnknown || answer.other) unknown = answer;
            else this.answers.push({ ...record, answer });
            bar.setAttribute('value', String(this.answers.length));
        }
        this.place.removeAttribute('aria-busy');
        this.tell(unknown);
    }

    tell(unknown) {
        const refused = this.answers.filter(({ answer }) => !answer.isDone);
        const [sent, all] = [this.answers.length, this.records.length];
        const rest = all - sent;
        const words = `${sent} of ${all} records were answered, ${refused.length} refused.`;
        const again = rest > 0 && p(button('Go on', () => this.send(), ''));
        const why = unknown && p(`It stopped at record ${sent + 1}: ${wordsOf(unknown, '').what} Go on sends it again: `
            + 'it is booked once.');
        const box = rest > 0 || refused.length ? warningBox(words, why, again) : doneBox(words);
        const { person } = this.page;
        this.show(box, longTable({ caption: 'What each was answered', columns: ANSWERED,
            items: [...refused, ...this.answers.filter(({ answer }) => answer.isDone)],
            cells: (each) => [String(each.number), label(each.words), answerWords(each, person)], first: FIRST }));
    }

    form() {
        return el('form', { class: 'form', submit: (event) => this.choose(event) }, el('div', { class: 'field' },
            el('label', { for: 'records' }, 'The file of records'),
            el('p', { class: 'hint', id: 'records-hint' }, HINT), this.input, this.error),
        el('button', { type: 'submit' }, 'Look at it'));
    }
}

export function records(page) {
    const view = new Records(page);
    const about = p('Each record is asked of the desk as if it was typed here. A record that is refused changes '
        + 'nothing, and the next is sent. What is sent again is booked once. The bank\u2019s file goes ',
    link('#/statement', 'another way'), '.');
    return { title: 'File of records', parts: [about, view.form(), view.place] };
}
