// Reads OFX 1 (SGML) and OFX 2 (XML), as .ofx, .qfx and .qbo files have it.
//
// Both are read alike: a value is the text behind its tag, whether the tag is closed or not. A section begins with a
// tag that holds no value itself (a transaction, a balance) and ends with its closing tag or where the next one begins.

import { checked, knownOf, notBooked, totalOf } from './statement.js';
import { NotUnderstood, SPACE, bankRefOf, centsOf, dayBefore, dayOf, decoded, quoted, stripped, withNumber, within,
    wordsOf } from './values.js';

const TOKEN = new RegExp('<!\\[CDATA\\[(?<verbatim>.*?)\\]\\]>|<!--.*?-->|<\\?.*?\\?>'
    + `|<(?<end>/?)(?<name>[A-Za-z][A-Za-z0-9._]*)${SPACE}*/?>|(?<text>[^<]+)`, 'suy');
const ENTITY = /&(?:(amp|lt|gt|quot|apos|nbsp)|#([0-9]{1,7})|#x([0-9a-fA-F]{1,6}));/g;
const NAMED = { amp: '&', lt: '<', gt: '>', quot: '"', apos: "'", nbsp: '\u00a0' };
const TIME = new RegExp('^([0-9]{4})([0-9]{2})([0-9]{2})([0-9]{4}([0-9]{2}([.][0-9]{1,3})?)?)?'
    + `${SPACE}*(\\[[^\\]]*\\])?$`, 'u');

const TRANSACTION = 'STMTTRN';
// Transactions that the bank has not booked yet are left out.
const PENDING = 'STMTTRNP';
const SECTIONS =
    new Set(['BANKTRANLIST', 'BANKTRANLISTP', TRANSACTION, PENDING, 'LEDGERBAL', 'AVAILBAL', 'BALLIST', 'BAL']);
// The values that a transaction has to have.
const NEEDED = ['DTPOSTED', 'TRNAMT', 'FITID'];
// So many elements a file may have.
const MOST = 200_000;
const CHARGES = new Set(['FEE', 'SRVCHG']);

// A part of the file, by the name of its tag, and the texts of the values in it by their names.
class Section {
    constructor(name) {
        this.name = name;
        this.values = new Map();
    }

    // The value of this name, empty where there is none.
    value(name) {
        const texts = (this.values.get(name) ?? []).filter(Boolean);
        if (texts.length > 1) throw new NotUnderstood(`${this.name} has ${name} twice`);
        return texts[0] ?? '';
    }

    // The value of this name, which has to be there.
    needed(name) {
        const value = this.value(name);
        if (!value) throw new NotUnderstood(`${this.name} has no ${name}`);
        return value;
    }
}

// The character that an entity stands for; what stands for none is left as it is.
function characterOf(entity, name, decimal, hexadecimal) {
    if (name) return NAMED[name];
    const code = decimal ? parseInt(decimal, 10) : parseInt(hexadecimal, 16);
    const isCharacter = code < 0xd800 || (code >= 0xe000 && code <= 0x10ffff);
    return isCharacter ? String.fromCodePoint(code) : entity;
}

// The tags of the file, each with the text behind it.
function tagsOf(text) {
    const tags = [];
    let begun = 0;
    TOKEN.lastIndex = 0;
    while (TOKEN.lastIndex < text.length) {
        const at = TOKEN.lastIndex;
        const token = TOKEN.exec(text);
        if (!token) {
            const front = [...text.slice(at, at + 80)].slice(0, 40).join('');
            throw new NotUnderstood(`no tag of OFX begins with ${quoted(front)}`);
        }
        const { name, end, verbatim, text: plain } = token.groups;
        if (name) {
            begun += end ? 0 : 1;
            if (begun > MOST) throw new NotUnderstood(`the file has more than ${MOST} elements`);
            tags.push({ name: name.toUpperCase(), isEnd: Boolean(end), value: '' });
        } else tags.at(-1).value += verbatim || (plain ?? '').replace(ENTITY, characterOf);
    }
    return tags;
}

// The sections of the file, in order. What stands in none is in one without a name.
function sectionsOf(tags) {
    const sections = [new Section('')];
    for (const { name, isEnd, value: told } of tags) {
        const value = stripped(told);
        if (isEnd && value) throw new NotUnderstood(`${quoted(value)} stands behind the end of ${name}`);
        if (SECTIONS.has(name)) sections.push(new Section(isEnd ? '' : name));
        else if (!isEnd) {
            const { values } = sections.at(-1);
            if (values.has(name)) values.get(name).push(value);
            else values.set(name, [value]);
        }
    }
    return sections;
}

// Refuses a file that has not one account, and one that was cut.
function checkAccount(tags) {
    const accounts = tags.filter(({ name, isEnd }) => !isEnd && name.endsWith('STMTRS')).map(({ name }) => name);
    if (accounts.length !== 1 || accounts[0] !== 'STMTRS') {
        throw new NotUnderstood(
            `the file has to have one bank account, STMTRS, and has ${accounts.join(', ') || 'none'}`);
    }
    const last = tags.at(-1);
    if (last.name !== 'OFX' || !last.isEnd) {
        throw new NotUnderstood('the file does not end with </OFX>: it may have been cut');
    }
}

// Refuses a transaction's value that stands in no transaction.
function checkStrays(sections) {
    for (const { name, values } of sections) {
        const stray = NEEDED.find((each) => values.has(each));
        if (stray && name !== TRANSACTION && name !== PENDING) {
            throw new NotUnderstood(`${stray} stands outside of any transaction`);
        }
    }
}

// The only section of this name.
function only(sections, name) {
    const found = sections.filter((section) => section.name === name);
    if (found.length !== 1) throw new NotUnderstood(`the file has ${found.length} ${name}, not one`);
    return found[0];
}

// The day of a time: its first eight digits, the bank's own, whatever the hour and the zone.
function dayOfTime(text) {
    const parts = TIME.exec(text);
    if (!parts) throw new NotUnderstood(`${quoted(text)} is no day`);
    return dayOf(Number(parts[1]), Number(parts[2]), Number(parts[3]));
}

// The bank's words of a transaction.
function textOf(transaction) {
    const words = wordsOf([transaction.value('NAME'), transaction.value('MEMO')]);
    const text = withNumber(words, transaction.value('CHECKNUM'));
    const isCharge = CHARGES.has(transaction.value('TRNTYPE').toUpperCase());
    return isCharge && !/charge|fee/iu.test(text) ? wordsOf([text, 'charge']) : text;
}

function lineOf(transaction, currency) {
    if (transaction.values.has('CORRECTFITID')) throw new NotUnderstood('it corrects another one (CORRECTFITID)');
    if (transaction.values.has('CURRENCY') && transaction.value('CURSYM') !== currency) {
        throw new NotUnderstood(
            `it is in ${quoted(transaction.value('CURSYM'))}, and the account in ${quoted(currency)}`);
    }
    const [day, amount, reference] = NEEDED.map((name) => transaction.needed(name));
    return { day: dayOfTime(day), bankRef: bankRefOf(reference), cents: centsOf(amount), text: textOf(transaction) };
}

// The lines of all transactions.
function linesOf(sections) {
    const currency = sections.find(({ values }) => values.has('CURDEF'))?.value('CURDEF') ?? '';
    return sections.filter(({ name }) => name === TRANSACTION).map((transaction, i) =>
        within(`transaction ${i + 1}`, () => lineOf(transaction, currency)));
}

// The day on which the bank wrote the file; null where it does not tell.
function writtenOn(sections) {
    try {
        return dayOfTime(sections.find(({ values }) => values.has('DTSERVER'))?.value('DTSERVER') ?? '');
    } catch (fault) {
        if (fault instanceof NotUnderstood) return null;
        throw fault;
    }
}

// The file's balance is of a moment. If the bank wrote the file on that same day, it is in the midst of the day: so a
// day before closed with that less the lines since. On a later day it is that with which its own day closed.
function balancesOf(lines, sections) {
    if (!sections.some(({ name }) => name === 'LEDGERBAL')) throw new NotUnderstood('the file tells no balance');
    const [ledger, period] = [only(sections, 'LEDGERBAL'), only(sections, 'BANKTRANLIST')];
    const balance = { day: dayOfTime(ledger.needed('DTASOF')), cents: centsOf(ledger.needed('BALAMT')) };
    const [first, end] = [dayOfTime(period.needed('DTSTART')), dayOfTime(period.needed('DTEND'))];
    if (end < balance.day) {
        throw new NotUnderstood(
            `the balance is of ${balance.day}, and the lines end on ${end}: those between are missing`);
    }
    const written = writtenOn(sections);
    const isWhole = written !== null && written > balance.day;
    const last = isWhole && written > end ? end : dayBefore(isWhole ? written : balance.day);
    const to = isWhole ? end : balance.day;
    const outside = lines.find(({ day }) => day < first || day > to);
    return knownOf({
        first,
        last,
        until: isWhole ? '' : `the day before that of the balance, ${balance.day}`,
        opening: balance.cents - totalOf(lines.filter(({ day }) => day <= balance.day)),
        fault: outside ? `a line is of ${outside.day}, and the file of ${first} to ${to}` : '',
    });
}

// The same; where there is no balance, why, with the file's days as far as it tells them.
function known(lines, sections) {
    try {
        return balancesOf(lines, sections);
    } catch (fault) {
        if (!(fault instanceof NotUnderstood)) throw fault;
        const [first, last] = ['DTSTART', 'DTEND'].map((name) => dayAt(sections, name));
        return knownOf({ first, last, why: fault.message });
    }
}

// A day of the list of lines; null where there is none.
function dayAt(sections, name) {
    try {
        return dayOfTime(only(sections, 'BANKTRANLIST').needed(name));
    } catch (fault) {
        if (fault instanceof NotUnderstood) return null;
        throw fault;
    }
}

// The file behind its header, in which no tag stands but those of XML's own.
function bodyOf(text) {
    const at = text.search(/<OFX>/i);
    if (text.slice(0, at).replace(/<\?[^<]*\?>/g, '').includes('<')) {
        throw new NotUnderstood('a tag stands before <OFX>');
    }
    return text.slice(at);
}

// The lines of an OFX file, and what it tells of its balances.
export function readOfx(bytes) {
    const tags = tagsOf(bodyOf(decoded(bytes)));
    checkAccount(tags);
    const sections = sectionsOf(tags);
    checkStrays(sections);
    const notes = [];
    const lines = checked(linesOf(sections), notes);
    const pending = sections.filter(({ name }) => name === PENDING).length;
    if (pending) notes.push(notBooked(pending));
    return { lines, notes, known: known(lines, sections) };
}
