// What the bank's own file has, before it is taken: its first lines, the question which column of a CSV is which, and
// its balances. All of it is taken, or nothing; what is left out of it is told.

import { grouped } from '../amounts.js';
import { FORMATS } from '../bank/columns.js';
import { readTypedDay } from '../bank/day.js';
import { SEPARATORS } from '../bank/guess.js';
import { MANY, checkBalances, csvOf, leftOut, totalOf } from '../bank/statement.js';
import { NotUnderstood, amountText, dayAfter, dayBefore, quoted } from '../bank/values.js';
import { noteBox, warningBox } from '../boxes.js';
import { button, el, facts, label, money, number, p, quiet } from '../elements.js';
import { clockDay } from '../names.js';
import { Reader } from '../reader.js';
import { COLUMNS } from '../shelf.js';
import { column, table } from '../tables.js';

const SHOWN = 5;

const ROLES = [['', 'not used'], ['date', 'day'], ['amount', 'amount'], ['out', 'paid out'], ['in', 'paid in'],
    ['sign', 'debit or credit'], ['balance', 'balance'], ['descriptions', 'words'], ['number', 'check number'],
    ['reference', "bank's number"]];

const WRITTEN = { '': 'year-month-day', '%m/%d/%Y': 'month/day/year', '%m/%d/%y': 'month/day/year, two digits',
    '%d/%m/%Y': 'day/month/year', '%d/%m/%y': 'day/month/year, two digits', '%d.%m.%Y': 'day.month.year',
    '%d.%m.%y': 'day.month.year, two digits', '%m-%d-%Y': 'month-day-year', '%d-%m-%Y': 'day-month-year',
    '%Y%m%d': 'yearmonthday', '%m%d%Y': 'monthdayyear', '%d-%b-%Y': 'day-Jan-year',
    '%d-%b-%y': 'day-Jan-year, two digits', '%d %b %Y': 'day Jan year', '%b %d, %Y': 'Jan day, year' };

const field = (name, words, made, hint = null) => el('div', { class: 'field' }, el('label', { for: name }, words), made,
    hint && el('p', { class: 'hint' }, hint));

const choice = (name, choices, value, change) => {
    const made = el('select', { id: name, name, change: () => change(made.value) }, choices.map(([each, words]) =>
        el('option', { value: each, selected: each === value }, words)));
    return made;
};

const input = (name, type, value, change) => {
    const told = () => change(made.value.trim());
    const made = el('input', { id: name, name, type, value, autocomplete: 'off', change: told });
    return made;
};

// A field for a day, which is typed in any of the usual ways, and shown as it was read; or taken from a calendar.
function dayField(name, words, value, change) {
    const made = input(name, 'text', value, (typed) => {
        made.value = readTypedDay(typed) ?? typed;
        change(made.value);
    });
    made.setAttribute('aria-describedby', `${name}-hint`);
    const calendar = el('input', { type: 'date', class: 'calendar', tabindex: '-1', 'aria-label': `Calendar: ${words}`,
        change: () => {
            made.value = calendar.value;
            change(made.value);
        } });
    const open = button('Calendar', () => {
        calendar.value = made.value;
        calendar.showPicker();
    });
    open.setAttribute('aria-label', `Calendar for ${words}`);
    return el('div', { class: 'field' }, el('label', { for: name }, words), el('div', { class: 'typing' }, made, open,
        calendar), el('p', { class: 'hint', id: `${name}-hint` }, 'Such as 8/31/2026, Aug 31, 2026 or 2026-08-31.'));
}

// A balance as it is typed: cents, or null where it is none.
function readBalance(typed) {
    const text = typed.replace(/^(-?)\$\s*/, '$1');
    const plain = /^-?\d{1,3}(,\d{3})+(\.\d\d)?$/.test(text) ? text.replaceAll(',', '') : text;
    if (!/^-?\d{1,12}(\.\d\d)?$/.test(plain)) return null;
    return BigInt((plain.includes('.') ? plain : `${plain}.00`).replace('.', ''));
}

// A balance that is there where its amount is, and its day.
function balanceOf(words, day, amount) {
    if (!amount) return undefined;
    const cents = readBalance(amount);
    if (!day) throw new NotUnderstood(`the ${words} balance has no day`);
    if (!readTypedDay(day)) throw new NotUnderstood(`${quoted(day)} is no day: write it as 8/31/2026 or 2026-08-31`);
    if (cents === null) throw new NotUnderstood(`the ${words} balance ${amount} is no amount: write it as 1234.50`);
    return { day: readTypedDay(day), cents };
}

// The lines between the days of the balances, which they have to join. Those outside are left out, which is noted.
function between({ lines, notes }, opening, closing) {
    const early = opening ? lines.filter(({ day }) => day < opening.day) : [];
    const late = closing ? lines.filter(({ day }) => day > closing.day) : [];
    const kept = lines.filter(({ day }) => !(opening && day < opening.day) && !(closing && day > closing.day));
    const statement = { lines: kept, opening, closing, notes: [...notes,
        ...early.length ? [leftOut(early, `before the first day, ${opening.day}`)] : [],
        ...late.length ? [leftOut(late, `behind the last day, ${closing.day}; the next file has them`)] : []] };
    checkBalances(statement);
    return statement;
}

const LINES = [column('Day', 'tight'), column('Amount', 'right'), column("The bank's words"),
    column("The bank's number", 'tight')];

const linesTable = (lines) => table(`The first ${Math.min(SHOWN, lines.length)} of ${lines.length} lines`, LINES,
    lines.slice(0, SHOWN).map(({ day, cents, text, bankRef }) =>
        [number(day), money(amountText(cents)), label(text), label(bankRef)]));

const balanceFact = (words, balance) =>
    [words, balance && [money(amountText(balance.cents)), ' on ', number(balance.day)]];

// The last day of a month up to a day, or null where it is before another one.
function monthEndIn(first, last) {
    const end = dayBefore(`${dayAfter(last).slice(0, 8)}01`);
    return first && end < first ? null : end;
}

function monthEndOf(day) {
    const [year, month] = day.split('-').map(Number);
    return dayBefore(`${month === 12 ? year + 1 : year}-${String((month % 12) + 1).padStart(2, '0')}-01`);
}

// The day that the statement closes with, unless another one is typed: that of the file's own closing balance; of a
// file that tells where it ends, the last end of a month in it, else that end; of another one, the end of the last
// line's month, if that is over, else of the month before, else the last line's day, if that is over.
function dayToClose({ lines, closing, known }, today) {
    if (closing) return closing.day;
    const { first, last, end } = known;
    if (last !== null) return monthEndIn(first, last) ?? last;
    const line = end ?? lines.at(-1)?.day;
    if (end || !line) return end ?? '';
    if (monthEndOf(line) < today) return monthEndOf(line);
    return monthEndIn(first, line) ?? (line < today ? line : '');
}

const KNOWN = 'The columns are as you told them for the last file with this heading.';
const UNKNOWN = 'The page does not know this bank\u2019s columns yet. Say once which is which: it is kept by the '
    + 'heading.';
const FORMAT_CHOICES = ['', ...FORMATS].map((each) => [each, WRITTEN[each]]);

// In which other ways all days of a file could be written.
function otherFormats(formats, format) {
    const others = formats.filter((each) => each !== format).map((each) => WRITTEN[each]);
    return others.length ? `The days of this file could also be ${others.join(', or ')}: compare them.` : null;
}

const NAMES = ['opening-day', 'opening', 'closing-day', 'closing'];

const BY_FILE = 'The balances are those of the file. Compare them with the bank\u2019s statement.';
const BY_NOBODY = 'Type one balance of the bank\u2019s statement: the other is what the lines make of it. With both '
    + 'the day can be reconciled.';
const BETWEEN = 'Or download the file up to today: then it has the lines between, and the balances are filled in.';

// Why the file's own balance closes no day, in the page's words.
const whyNone = (why) => `${why.slice(0, 1).toUpperCase()}${why.slice(1)}. ${BY_NOBODY}`
    + (why.endsWith('those between are missing') ? ` ${BETWEEN}` : '');

const oneSided = (lines) => lines.length >= MANY && lines.every(({ cents }) => (cents > 0n) === (lines[0].cents > 0n));

// What was chosen, until it is taken: `take` is given the text of the statement.
export class Taking {
    constructor({ page, name, bytes, take }) {
        Object.assign(this, { page, name, take, told: null, columns: null, typed: {}, asks: 0, isOneSided: false });
        this.reader = new Reader(bytes);
        this.inputs = new Map();
        this.seen = el('div', { 'aria-live': 'polite' });
        this.element = el('section', { class: 'taking', 'aria-labelledby': 'taking', 'aria-busy': 'true' },
            el('h2', { id: 'taking' }, `What ${name} has`), quiet('Reading it\u2026'));
    }

    // Reads the file by these columns, or by those that the reader guesses, and shows what it has. Of two asks the
    // later one counts.
    async read(columns = null) {
        this.asks += 1;
        const mine = this.asks;
        this.element.setAttribute('aria-busy', 'true');
        const told = await this.reader.look(columns, new Map(this.page.shelf.read(COLUMNS)));
        if (mine !== this.asks) return;
        Object.assign(this, { told, columns: told.columns, isKept: told.isKept || (this.isKept && columns !== null) });
        this.draw();
        this.element.removeAttribute('aria-busy');
    }

    // What has the focus keeps it.
    draw() {
        const focused = this.element.contains(document.activeElement) ? document.activeElement.id : '';
        this.element.replaceChildren(...[
            el('h2', { id: 'taking' }, `What ${this.name} has`),
            this.columns && this.asking(),
            this.told.read && this.balances(),
            this.seen,
            el('div', { class: 'buttons' }, this.sender = button('Take it and match', () => this.send(), '')),
        ].flat(Infinity).filter(Boolean));
        this.look();
        if (focused) document.getElementById(focused)?.focus();
    }

    change(more) {
        return this.read({ ...this.columns, ...more });
    }

    // A place has one meaning, and but for words a meaning one place.
    async give(place, role) {
        const columns = { ...this.columns, descriptions: this.columns.descriptions.filter((each) => each !== place) };
        for (const name of ['date', 'amount', 'out', 'in', 'sign', 'balance', 'number', 'reference']) {
            if (columns[name] === place) columns[name] = null;
        }
        if (role === 'descriptions') columns.descriptions.push(place);
        else if (role) columns[role] = place;
        columns.descriptions.sort((one, other) => one - other);
        await this.read(columns);
        if (role === 'date' && this.told.formats[0] !== undefined) await this.change({ format: this.told.formats[0] });
        this.element.querySelector(`#column-${place}`)?.focus();
    }

    roleOf(place) {
        if (this.columns.descriptions.includes(place)) return 'descriptions';
        return ROLES.map(([name]) => name).find((name) => name && this.columns[name] === place) ?? '';
    }

    // Which column is which.
    asking() {
        const { columns } = this;
        const { heads, examples, width, formats } = this.told;
        const places = Array.from({ length: width }, (_, place) => place);
        const rowFor = (place) => [label(heads[place]?.trim() || `column ${place + 1}`),
            choice(`column-${place}`, ROLES, this.roleOf(place), (role) => this.give(place, role)),
            ...examples.map((cells) => label((cells[place] ?? '').slice(0, 60)))];
        const columnsTable = table('Which column is which?', [column('Heading'), column('It is', 'tight'),
            ...examples.map((_, i) => column(`Line ${i + 1}`))], places.map(rowFor));
        for (const select of columnsTable?.querySelectorAll('select') ?? []) {
            select.setAttribute('aria-label', `What column ${Number(select.id.slice(7)) + 1} is`);
        }
        const turned = el('input', { type: 'checkbox', id: 'turned', name: 'turned',
            change: ({ target }) => this.change({ isTurned: target.checked }) });
        turned.checked = columns.isTurned;
        return [
            p(this.isKept ? KNOWN : UNKNOWN),
            columnsTable,
            el('div', { class: 'asking' },
                field('separator', 'Between the columns stands a', choice('separator', SEPARATORS, columns.separator,
                    (separator) => this.change({ separator }))),
                field('rows', 'Rows before the first line', input('rows', 'number', String(columns.skip),
                    (typed) => this.change({ skip: /^\d{1,3}$/.test(typed) ? Number(typed) : 0 }))),
                field('format', 'A day is written', choice('format', FORMAT_CHOICES, columns.format,
                    (format) => this.change({ format })), otherFormats(formats, columns.format)),
                field('mark', 'Cents stand behind a', choice('mark', [['.', 'point'], [',', 'comma']],
                    columns.mark || '.', (mark) => this.change({ mark }))),
                columns.amount !== null && columns.sign === null && el('p', { class: 'tick' }, turned,
                    el('label', { for: 'turned' }, 'What is paid out has no minus here: turn the signs around'))),
        ];
    }

    // The four fields of the balances. What nobody typed is filled in as far as it can be worked out.
    balances() {
        const take = (name) => (typed) => {
            this.typed[name] = typed;
            this.look();
        };
        const day = (name, words) => dayField(name, words, '', take(name));
        const amount = (name, words) => field(name, words, input(name, 'text', '', take(name)));
        const made = el('div', { class: 'asking' },
            day('opening-day', 'First day'), amount('opening', 'Opening balance'),
            day('closing-day', 'Last day'), amount('closing', 'Closing balance'));
        this.inputs = new Map(NAMES.map((name) => [name, made.querySelector(`#${name}`)]));
        const { why, fault } = this.told.read.known;
        return [
            p(why || fault ? whyNone(why || fault) : BY_FILE),
            made,
            el('div', { class: 'buttons' },
                button('Take all lines, without balances', () => this.type(Object.fromEntries(
                    NAMES.map((name) => [name, ''])))),
                button('Fill the balances in again', () => this.type({}))),
        ];
    }

    type(typed) {
        this.typed = typed;
        this.look();
    }

    // What stands in the four fields: what was typed, or else what can be worked out.
    filled() {
        const { typed } = this;
        const { read } = this.told;
        const { known } = read;
        const day = (name, own) => readTypedDay(typed[name] ?? own ?? '') ?? typed[name] ?? '';
        const [first, last] = [day('opening-day', known.first),
            day('closing-day', dayToClose(read, this.page.desk.day ?? clockDay()))];
        const sum = (from, to) => totalOf(read.lines.filter((line) => line.day >= from && line.day <= to));
        const told = { 'opening-day': first, 'closing-day': last, opening: typed.opening, closing: typed.closing };
        const isPeriod = readTypedDay(first) && readTypedDay(last);
        const centsOf = (text) => (text ? readBalance(text) : null);
        const [typedOpen, typedClose] = [centsOf(typed.opening), centsOf(typed.closing)];
        const isUsable = known.opening !== null && !known.why && !known.fault && known.first !== null;
        let atOpen = null;
        if (typedOpen !== null) atOpen = typedOpen;
        else if (isUsable && readTypedDay(first)) atOpen = known.opening + sum(known.first, dayBefore(first));
        else if (typedClose !== null && isPeriod) atOpen = typedClose - sum(first, last);
        told.opening ??= atOpen === null ? '' : amountText(atOpen);
        told.closing ??= atOpen === null || !isPeriod ? '' : amountText(atOpen + sum(first, last));
        return told;
    }

    // What speaks of a closing day on which the file's own balance is not the last word.
    doubts(closing) {
        const { last, until, why, fault } = this.told.read.known;
        if (!closing || why || fault || last === null || closing.day <= last) return [];
        const words = until ? `the file\u2019s balance is of the moment of its download: it is that of ${closing.day} `
            + 'only if the bank had nothing more on that day' : `the file ends on ${last}`;
        return [`Compare the closing balance with the bank\u2019s statement: ${words}.`];
    }

    // The statement as it stands.
    statement() {
        if (this.told.refused) throw new NotUnderstood(this.told.refused);
        const filled = this.filled();
        for (const [name, made] of this.inputs) if (made !== document.activeElement) made.value = filled[name];
        const [opening, closing] = ['opening', 'closing'].map((each) =>
            balanceOf(each, filled[`${each}-day`], filled[each]));
        return between(this.told.read, opening, closing);
    }

    // Shows what would be taken, or why nothing.
    look() {
        try {
            const statement = this.statement();
            const { lines, opening, closing, notes } = statement;
            this.made = statement;
            const left = [...notes, ...this.doubts(closing)];
            this.seen.replaceChildren(...[
                lines.length ? linesTable(lines) : quiet('The file has no line.'),
                facts([['Lines', String(lines.length)], ['Their sum', grouped(amountText(totalOf(lines)))],
                    balanceFact('Opening balance', opening), balanceFact('Closing balance', closing)]),
                closing && closing.cents < 0n && noteBox(p('The closing balance is below zero: look at it once more.')),
                left.length > 0 && noteBox(el('ul', {}, left.map((each) => el('li', {}, label(each))))),
                this.columns && oneSided(lines) && this.oneSide(lines),
            ].filter(Boolean));
        } catch (fault) {
            if (!(fault instanceof NotUnderstood)) throw fault;
            this.made = null;
            this.seen.replaceChildren(warningBox(`Nothing is taken of ${this.name}.`, p(fault.message)));
        }
        this.tell();
    }

    // Lines that all go one way are taken only where somebody says so.
    oneSide(lines) {
        const way = lines[0].cents > 0n ? ['in', 'out'] : ['out', 'in'];
        const tick = el('input', { type: 'checkbox', id: 'one-sided', name: 'one-sided', change: ({ target }) => {
            this.isOneSided = target.checked;
            this.tell();
        } });
        tick.checked = this.isOneSided;
        return warningBox(`All ${lines.length} lines are paid ${way[0]}.`,
            p(`If another column tells which are paid ${way[1]}, name it above: debit or credit, paid in, paid out.`),
            el('p', { class: 'tick' }, tick, el('label', { for: 'one-sided' }, `It is so: nothing is paid ${way[1]}`)));
    }

    tell() {
        this.sender.disabled = !this.made
            || (Boolean(this.columns) && oneSided(this.made.lines) && !this.isOneSided);
    }

    send() {
        if (this.sender.disabled) return null;
        if (this.columns) {
            const known = new Map(this.page.shelf.read(COLUMNS));
            known.set(this.told.heading, this.columns);
            this.page.shelf.write(COLUMNS, [...known]);
        }
        this.reader.end();
        return this.take(csvOf(this.made));
    }
}
