// Corrections of what a line of the bank cleared by mistake. The book keeps each line that was applied; lines of the
// cashier's own undo it, which have the bank's number and are 0.00 together.

import { opposite } from './amounts.js';
import { NAMES } from './bank/statement.js';
import { Refused } from './desk.js';
import { readMatters } from './lists.js';
import { clockDay, dayBefore, daysBetween, fiveYearsTo } from './names.js';
import { dayOf, readMovements } from './reports.js';
import { knownClosings } from './views/closings.js';

// The desk has no list of the days with a closing balance, so it is asked backwards, for so many days at most.
const DAYS_BACK = 100;
const AT_ONCE = 10;

const STATEMENTS = '/firm/statements';

// The business day.
export async function readToday(page) {
    page.desk.day = dayOf((await page.desk.get('/firm/exceptions')).text);
    return page.desk.day;
}

// Whether a closing balance of the day is kept. Where a purge cut its time that is not told, and it may be.
async function isClosed(page, day) {
    const answer = await page.desk.read(`/firm/reconciliation/${day}`);
    if (answer.isDone || answer.body?.name === 'PeriodPurged') return true;
    if (answer.body?.name === 'NoStatement') return false;
    throw new Refused(answer);
}

// These days, the last first, from one back to another.
function daysBack(from, to) {
    const days = [];
    for (let day = from; day >= to; day = dayBefore(day)) days.push(day);
    return days;
}

// A day from `from` on with a closing balance, up to `today`; null where there is none. One that this browser knows is
// asked for first.
async function closedFrom(page, from, today) {
    const known = knownClosings(page).filter((day) => day >= from && day <= today).slice(0, 1);
    const days = [...known, ...daysBack(today, from)];
    for (let at = 0; at < days.length; at += AT_ONCE) {
        const asked = days.slice(at, at + AT_ONCE);
        const are = await Promise.all(asked.map((day) => isClosed(page, day)));
        if (are.includes(true)) return asked[are.indexOf(true)];
    }
    return null;
}

// The day of the lines that correct what was cleared on a day: that day itself, so that the month is right; or today
// where a closing balance of that day or later is kept (`closed`), so that what was filed stays as it is. A day that is
// too long ago for the question (`isOld`) is taken for filed.
export async function dayOfCorrection(page, day) {
    const today = await readToday(page);
    if (day > today) return { day: today, today, closed: null, isOld: false };
    if (daysBetween(day, today) >= DAYS_BACK) return { day: today, today, closed: null, isOld: true };
    const closed = await closedFrom(page, day, today);
    return { day: closed ? today : day, today, closed, isOld: false };
}

const quoted = (words) => `"${words.replaceAll('"', '""')}"`;

// A statement of these lines alone, as the desk imports it.
export const statementOf = (lines) => [NAMES.join(','), ...lines.map(({ day, reference, bankRef, amount, text }) =>
    [day, reference, bankRef, amount, text].map(quoted).join(',')), ''].join('\n');

export const sendLines = (page, lines) => page.desk.post(STATEMENTS, statementOf(lines));

// What undoes a line, and gives what it moved to these entries, or to FIRM. `undone` has the entry that is undone,
// where it is another one than that of the line.
export function correctionOf(line, right, day, undone = line.reference) {
    const names = right.map(({ reference }) => reference).join(', ');
    const of = { day, bankRef: line.bankRef };
    const why = names ? `It was ${names}: correction` : 'The book has it elsewhere: correction';
    return [{ ...of, reference: undone, amount: opposite(line.amount), text: why },
        ...right.map(({ reference, amount }) =>
            ({ ...of, reference, amount, text: `Not ${line.reference}: correction` }))];
}

const isSame = (one, other) => one.day === other.day && one.bankRef === other.bankRef && one.amount === other.amount;

// A line of the firm's own that is sent again would be a repeat of the one in the book: it gets a number of its own.
export function withOwnNumbers(lines, own) {
    return lines.map((line) => {
        let named = line;
        for (let at = 2; line.reference === 'FIRM' && own.some((each) => isSame(each, named)); at += 1) {
            named = { ...line, bankRef: `${line.bankRef}-${at}` };
        }
        return named;
    });
}

// The receipts and disbursements of the last five years; older ones no page asks for.
async function readLastMovements(page, names) {
    const days = fiveYearsTo(page.desk.day ?? clockDay()).join('/');
    const answers = await Promise.all(names.map((name) => page.desk.get(`/firm/${name}/${days}`)));
    return answers.map(({ text }) => readMovements(text)[0].movements);
}

const isOwn = ({ reference }) => reference === 'FIRM';

// The words of a line of the firm's own: the bank's number, or a dash, and the bank's words.
function ownLineOf({ day, amount, words }, sign) {
    const bar = words.indexOf(' | ');
    const [bankRef, text] = bar === -1 ? [words, ''] : [words.slice(0, bar), words.slice(bar + 3)];
    return { reference: 'FIRM', day, bankRef: bankRef === '-' ? '' : bankRef, text: text === '-' ? '' : text,
        amount: sign < 0 ? opposite(amount) : amount };
}

const byDay = (one, other) => (one.day < other.day ? -1 : Number(one.day > other.day));

const ownLinesOf = (receipts, disbursements) => [...receipts.filter(isOwn).map((each) => ownLineOf(each, 1)),
    ...disbursements.filter(isOwn).map((each) => ownLineOf(each, -1))].sort(byDay);

// Those that were not undone, those that are held among them.
function depositsOf(receipts, matters) {
    const heads = new Map(matters.map((each) => [each.matter, each]));
    const undone = new Set(receipts.filter(({ kind }) => kind === 'CANCELLED' || kind === 'RETURNED')
        .map(({ reference }) => reference));
    return receipts.filter(({ kind, reference }) => kind === 'DEPOSIT' && !undone.has(reference))
        .map(({ reference, day, amount, words }) => {
            const matter = reference.slice(1, 7);
            const { client = '', available = '0.00' } = heads.get(matter) ?? {};
            return { reference, matter, entry: reference.slice(8), client, day, amount, available,
                words: words.endsWith(` | ${client}`) ? words.slice(0, -client.length - 3) : words };
        });
}

// The lines of the firm's own money in the last five years, in the order of their days.
export const readOwnLines = async (page) => ownLinesOf(...await readLastMovements(page, ['receipts', 'disbursements']));

// What the book has of the last five years: the deposits that were not undone, but for these that wait for the bank,
// each with its client, its words and what is available in its matter; and the firm's own lines.
export async function readShown(page, waiting) {
    const [[receipts, disbursements], matters] = await Promise.all([
        readLastMovements(page, ['receipts', 'disbursements']), readMatters(page)]);
    const held = new Set(waiting.map(({ reference }) => reference));
    return { deposits: depositsOf(receipts, matters).filter(({ reference }) => !held.has(reference)),
        own: ownLinesOf(receipts, disbursements) };
}
