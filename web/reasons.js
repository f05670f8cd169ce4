// Why a line of the bank's is an exception, and what to do with one that has to be looked at.

import { isMore } from './amounts.js';
import { label, money, number, referenceLink } from './elements.js';

const LOOK = "Look at the slip, the check or the bank's own list";
const ONCE = "The bank shows an entry once. Compare these lines with the bank's own list.";
const MEND = 'As it stands it would be an exception. Look at the reference, and mend it.';
const NO_OWN = "As it stands it would be an exception. FIRM is the firm's own money alone. Name its entry, or leave "
    + 'it.';
const OTHER_CHECK = 'the check was paid for another amount than was approved: have the payment voided, propose it anew '
    + 'with the check\u2019s amount, have that approved, and match again; or call the bank, if it misread the check.';
const OTHER_DEPOSIT = 'the bank misread it, or the entry was mistyped: a held deposit can be cancelled and booked '
    + 'anew; or call the bank.';
const MISSING = "Book what is missing and match again, or type FIRM if it is the firm's own money.";

// How many are not listed, if any.
const more = ({ count, listed }) => (count > listed.length ? `; and ${count - listed.length} more` : '');

const parted = (all) => all.map((each, at) => [at > 0 && '; ', each]);

// An entry: its state, the day of that, the bank's reference, and the source or payee; and its amount, where asked for.
const stateOf = ({ state, day, bank_ref: bankRef, party }) =>
    [` ${state} `, number(day), bankRef && [' ', label(bankRef)], ' ', label(party)];
const amountBehind = ({ amount }) => [' ', money(amount)];
const entryOf = (entry) => [referenceLink(entry.reference), stateOf(entry)];
const wholeEntryOf = (entry) => [entryOf(entry), amountBehind(entry)];

const listOf = (entries, shown = entryOf) => [parted(entries.listed.map(shown)), more(entries)];

// Words and entries, or nothing where there are none.
const ifAny = (words, entries) => (entries.listed.length > 0 ? [words, listOf(entries)] : []);

// Two or more numbers of records.
function numbersOf({ count, listed }) {
    const last = count > listed.length ? `${count - listed.length} more` : String(listed.at(-1));
    const front = count > listed.length ? listed : listed.slice(0, -1);
    return `${front.join(', ')} and ${last}`;
}

// Why an exception matches nothing now, given the entry of its reference.
const MISFITS = {
    NoEntry: () => 'no deposit or payment has it',
    OfNoEntry: () => 'no reference of an entry; the report exceptions says why',
    Again: () => 'the book has the line for it already',
    DatedAfter: () => 'dated after the business day',
    TakesBack: (entry) => ['it would take back a deposit:', stateOf(entry)],
    NotWaiting: (entry) => ['not waiting for the bank:', stateOf(entry)],
    OfAnotherAmount: (entry) => ['of another amount:', stateOf(entry), amountBehind(entry)],
    Fits: (entry) => ['an import would apply it:', stateOf(entry)],
};

// A name that the page does not know is shown itself.
const misfitOf = ({ misfit, entry }) => (Object.hasOwn(MISFITS, misfit) ? MISFITS[misfit](entry) : misfit);
const exceptionOf = (exception) => [referenceLink(exception.reference), ' (', misfitOf(exception), ')'];

// Of each name that the desk's reason of a line has (docs/HTTP.md) the words, given the reason, and the advice.
const LEFT = {
    Unreadable: [() => 'no line of a statement', "Compare it with the bank's own list, and mend it in the file."],
    DatedAfter: [({ today }) => ['dated after ', number(today)], 'Match it again on that day or later.'],
    Doubled: [({ records, booked }) => `${records} records have this day, bank reference and amount`
        + (booked > 0 ? `; the book has ${booked}` : ''),
    `${LOOK}: is it one movement, or two? Name each that is one.`],
    BesideBooked: [() => 'the book has a line of its day and bank reference',
        'A part of it may be in the book already. Compare the two before you name it.'],
    FitsSeveral: [({ entries }) => [`${entries.count} entries have its amount and number: `, listOf(entries)],
        'Ask which of them it is, and type that one.'],
    Claimed: [({ reference }) => ['it shows ', referenceLink(reference), ', which another record names'], ONCE],
    Shared: [({ records, reference }) => [`records ${numbersOf(records)} show `, referenceLink(reference)], ONCE],
    OtherBusiness: [({ entries }) => ['its words tell of a charge, a return or a correction',
        ifAny('; it may be a return of ', entries)],
    "FIRM pays the bank's charges. For a deposit that came back, type that deposit's reference."],
    NotWaiting: [({ entries }) => ['the entry that it shows is not waiting for the bank: ', listOf(entries)],
        'Look at the entry before you name it. A check that no lawyer approved, that was voided, or that comes a '
        + 'second time is for the bank to explain.'],
    IssuedAfter: [({ entries }) => ['it shows an entry that was issued after it: ', listOf(entries)],
        'The bank had it before a lawyer approved it. Look at the entry first.'],
    OfAnotherAmount: [({ entries }) => ['it shows an entry of another amount: ', listOf(entries, wholeEntryOf)],
        ({ entries: { listed } }) => 'Is it one of several that the bank shows in one line? Then split the line. Else '
            + `${listed.some(({ amount }) => amount.startsWith('-')) ? OTHER_CHECK : OTHER_DEPOSIT}`],
    OfItsAmount: [({ entries }) => ['nothing in its words tells which entry; of its amount: ', listOf(entries)],
        `An equal amount does not tell whose it is. ${LOOK}, then use the entry.`],
    MaybeReturned: [({ entries }) => ['no payment of its amount; it may be a return of ', listOf(entries)],
        'If the bank took a deposit back, use that deposit.'],
    Together: [({ day, entries }) => ['no entry of its amount; the deposits of ', number(day),
        ' are together its amount: ', listOf(entries)],
    'The bank shows a slip with several checks in one line. If the slip has these, use them.'],
    NoneOfItsAmount: [() => 'no entry of its amount', MISSING],
    NamedOfAnotherAmount: [({ entries }) => ['its reference is that of an entry of another amount: ',
        listOf(entries, wholeEntryOf)], MEND],
    NamesNone: [() => 'the book has no deposit or payment of its reference', MEND],
    IsException: [({ exceptions, entries }) => ['it is an exception under ', listOf(exceptions, exceptionOf),
        '; dismiss takes an exception away', ifAny('; of its amount: ', entries)],
    'It was imported before, and matched nothing. Mend the entry of that reference, or use another, and dismiss each '
        + 'of these exceptions that is a slip.'],
    OwnMoney: [({ sum }) => ["the firm's own money would be ", money(sum), ' with it, and stays from 0.00 to 500.00'],
        NO_OWN],
    MovesNothing: [() => 'an amount of 0.00 moves nothing', NO_OWN],
    // The page's own, of a line that the desk does not leave.
    Decided: [() => 'Decided here. It would be imported so.', ''],
};

// A name that the page does not know is shown itself, without advice.
const leftFor = ({ name }) => (Object.hasOwn(LEFT, name) ? LEFT[name] : [() => name, '']);
export const whyLeft = (reason) => [leftFor(reason)[0](reason)];
export function adviceOn(reason) {
    const [, advice] = leftFor(reason);
    return typeof advice === 'function' ? advice(reason) : advice;
}

// Of each name that the desk's reason of an exception has (docs/HTTP.md) the words, given the reason and the line.
const EXCEPTIONS = {
    Applies: () => 'it would be applied now; import the same file again',
    Repeat: () => 'the book has it already; import the same file again, and it is no exception any more',
    Stray: (reason, { reference }) => (reference ? 'its reference names no entry' : 'it has no reference'),
    Future: () => 'it is dated after the business day',
    NoMatter: () => 'the book has no matter of its reference',
    NoEntry: () => 'the book has no entry of its reference',
    WrongKind: ({ kind }) => `its reference is that of a ${kind}, which no line of the bank clears`,
    WrongState: ({ state }) => `its reference is that of an entry that is ${state}`,
    WrongAmount: ({ amount }) => ['its reference is that of an entry of another amount, ', money(amount)],
    // The amount of such a line is below zero.
    Uncovered: ({ available }, { amount }) => (isMore(amount.slice(1), available)
        ? ['it takes a deposit back, and only ', money(available), ' is available in the matter']
        : 'it takes a deposit back, and the business day is before the last day of its matter'),
    Zero: () => 'an amount of 0.00 moves nothing',
    Beyond: ({ balance }) =>
        ['the firm\u2019s own money is ', money(balance), ', and would not stay from 0.00 to 500.00 with it'],
    OtherBalance: ({ kept }) => ['another balance of its kind and day is kept, ', money(kept)],
};

// A name that the page does not know is shown itself.
export const whyException = (line) => (Object.hasOwn(EXCEPTIONS, line.reason.name)
    ? EXCEPTIONS[line.reason.name](line.reason, line) : line.reason.name);
