// Reads camt.053, a bank's statement by ISO 20022, in any of its versions: names are taken without their namespace.

import { checkBalances, checked, knownOf, notBooked, totalOf } from './statement.js';
import { NotUnderstood, amountText, bankRefOf, centsOf, dayAfter, dayOf, quoted, stripped, withNumber, within, wordsOf }
    from './values.js';
import { readXml } from './xml.js';

const TIME = /^([0-9]{4})-([0-9]{2})-([0-9]{2})(T[0-9:.]+)?(Z|[-+][0-9]{2}:[0-9]{2})?$/;
const SIGNS = { CRDT: 1n, DBIT: -1n };
const BOOKED = 'BOOK';
const NOT_BOOKED = new Set(['PDNG', 'INFO', 'FUTR']);
// The standard's own word for a reference that nobody gave.
const NO_REFERENCE = 'NOTPROVIDED';

// The text at the first of these paths that has one, else empty.
const textAt = (element, ...paths) =>
    paths.map((path) => stripped(element.first(path)?.text ?? '')).find(Boolean) ?? '';

// The only element at this path.
function oneOf(element, path) {
    const found = element.all(path);
    if (found.length !== 1) throw new NotUnderstood(`${element.tag} has ${found.length} ${path}, not one`);
    return found[0];
}

const currencyOf = (amount) => amount.attributes.get('Ccy') ?? '';

// The cents of an amount, which has no sign of its own.
function amountOf(amount, currency) {
    const cents = centsOf(stripped(amount.text));
    if (cents < 0n) throw new NotUnderstood(`the amount ${amountText(cents)} has a sign`);
    if (currencyOf(amount) !== currency) {
        throw new NotUnderstood(
            `an amount is in ${quoted(currencyOf(amount))}, and the first one in ${quoted(currency)}`);
    }
    return cents;
}

// 1 of a credit, -1 of a debit.
function signOf(element) {
    const indicator = stripped(oneOf(element, 'CdtDbtInd').text);
    if (!Object.hasOwn(SIGNS, indicator)) throw new NotUnderstood(`${quoted(indicator)} is neither CRDT nor DBIT`);
    return SIGNS[indicator];
}

// The cents of an entry or a balance: above 0 of a credit, below of a debit.
const signed = (element, currency) => signOf(element) * amountOf(oneOf(element, 'Amt'), currency);

// The day that stands at this path, as a day or as a time: the bank's own, whatever the hour and the zone.
function dayAt(element, path) {
    const text = textAt(element, `${path}/Dt`, `${path}/DtTm`);
    const parts = TIME.exec(text);
    if (!parts) throw new NotUnderstood(`${path} is ${quoted(text)}, and no day`);
    return dayOf(Number(parts[1]), Number(parts[2]), Number(parts[3]));
}

// Whether the bank has booked an entry.
function isBooked(entry) {
    const element = oneOf(entry, 'Sts');
    const status = textAt(element, 'Cd') || stripped(element.text);
    if (status !== BOOKED && !NOT_BOOKED.has(status)) {
        throw new NotUnderstood(`the status ${quoted(status)} is none of an entry's`);
    }
    return status === BOOKED;
}

// The transactions of an entry with their cents, where their amounts make the entry's; else none.
function partsOf(entry, total, currency) {
    const parts = [];
    for (const transaction of entry.all('NtryDtls/TxDtls')) {
        const amount = transaction.first('Amt') ?? transaction.first('AmtDtls/TxAmt/Amt');
        if (!amount || currencyOf(amount) !== currency) return [];
        const owner = transaction.first('CdtDbtInd') ? transaction : entry;
        parts.push({ transaction, cents: signOf(owner) * amountOf(amount, currency) });
    }
    const sum = parts.reduce((cents, part) => cents + part.cents, 0n);
    return parts.length > 1 && sum === total ? parts : [];
}

// The bank's words of some transactions of an entry, or of an entry that has none.
function textOf(entry, transactions) {
    const words = [textAt(entry, 'AddtlNtryInf')];
    for (const transaction of transactions) {
        for (const { text } of transaction.all('RmtInf/Ustrd')) words.push(text);
        for (const party of ['RltdPties/Dbtr', 'RltdPties/Cdtr']) {
            words.push(textAt(transaction, `${party}/Nm`, `${party}/Pty/Nm`));
        }
        const reference = textAt(transaction, 'Refs/EndToEndId');
        words.push(reference === NO_REFERENCE ? '' : reference);
    }
    return transactions.reduce((text, each) => withNumber(text, textAt(each, 'Refs/ChqNb')), wordsOf(words));
}

// The lines of an entry: one, or where it is a sum that the bank parts, one for each transaction.
function linesOfEntry(entry, currency) {
    const reference = textAt(entry, 'AcctSvcrRef', 'NtryRef');
    if (!reference) throw new NotUnderstood("it has no reference of the bank's (AcctSvcrRef or NtryRef)");
    const [day, total] = [dayAt(entry, 'BookgDt'), signed(entry, currency)];
    const parts = partsOf(entry, total, currency);
    if (!parts.length) {
        return [{ day, bankRef: bankRefOf(reference), cents: total,
            text: textOf(entry, entry.all('NtryDtls/TxDtls')) }];
    }
    return parts.map(({ transaction, cents }, i) =>
        ({ day, bankRef: bankRefOf(`${reference}/${i + 1}`), cents, text: textOf(entry, [transaction]) }));
}

// The lines of all entries that are booked. How many are not is noted.
function linesOf(statement, currency, notes) {
    let open = 0;
    const lines = statement.all('Ntry').flatMap((entry, i) => within(`entry ${i + 1}`, () => {
        if (isBooked(entry)) return linesOfEntry(entry, currency);
        open += 1;
        return [];
    }));
    if (open) notes.push(notBooked(open));
    return lines;
}

// The statement's balances by their codes.
function balancesOf(statement, currency) {
    const balances = new Map();
    for (const balance of statement.all('Bal')) {
        const code = textAt(balance, 'Tp/CdOrPrtry/Cd');
        if (!['OPBD', 'PRCD', 'CLBD'].includes(code)) continue;
        if (balances.has(code)) throw new NotUnderstood(`the file has the balance ${code} twice`);
        balances.set(code, { day: dayAt(balance, 'Dt'), cents: signed(balance, currency) });
    }
    return balances;
}

// The balance as the first day opens. That at which the statement before closed is the next day's.
function openingOf(balances) {
    const before = balances.get('PRCD');
    if (balances.has('OPBD') || !before) return balances.get('OPBD');
    return { day: dayAfter(before.day), cents: before.cents };
}

// The currency of the file's first amount.
function firstCurrency(statement) {
    const [first] = [...statement.all('Bal/Amt'), ...statement.all('Ntry/Amt')];
    return first ? currencyOf(first) : '';
}

// What the file tells of its balances, where it tells one. The other one is that with its lines.
function known(lines, opening, closing) {
    const first = opening?.day ?? lines[0]?.day ?? null;
    const last = closing?.day ?? null;
    if (!opening && !closing) return knownOf({ first, last, why: 'the file tells no balance' });
    return knownOf({ first, last, opening: opening ? opening.cents : closing.cents - totalOf(lines) });
}

// The statement of a camt.053 file, with the balances that it tells.
export function readCamt(bytes) {
    const element = oneOf(readXml(bytes), 'BkToCstmrStmt/Stmt');
    const currency = firstCurrency(element);
    const booked = [];
    const notes = [];
    const lines = checked(linesOf(element, currency, booked), notes);
    notes.push(...booked);
    const balances = balancesOf(element, currency);
    const [opening, closing] = [openingOf(balances), balances.get('CLBD')];
    const statement = { lines, notes, opening, closing, known: known(lines, opening, closing) };
    checkBalances(statement);
    return statement;
}

// Refuses another day than that of the closing balance.
export function checkClose({ closing }, close) {
    if (closing?.day === close) return;
    throw new NotUnderstood(`the file's closing balance is of ${closing?.day ?? 'no day'}, not of ${close}`);
}
