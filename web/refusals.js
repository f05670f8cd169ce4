// What a refusal means and what to do next, in words.

import { grouped } from './amounts.js';

const FIELDS = {
    amount: 'The amount has to be dollars and cents, such as 120.00, up to 999,999,999.99.',
    body: 'The page and the desk do not fit together. Load the page again; if it stays, tell the operator.',
    claimant: 'The claimant needs a name of 1 to 80 bytes.',
    client: 'The client needs a name of 1 to 80 bytes.',
    day: 'That is no day of the calendar. Write it as 2024-01-31.',
    description: 'What it is for has to have 1 to 80 bytes.',
    entry: 'An entry has four digits, from 0001 to 9999.',
    from: 'Choose what the payment is drawn on.',
    header: 'This is no statement: its first line has to be date,reference,bank_ref,amount,text.',
    instrument: 'The check or transfer number has to have 1 to 80 bytes.',
    lawyer: 'A person has 1 to 32 of a to z, 0 to 9, point and hyphen, and is not called cashier.',
    matter: 'A matter has six digits, from 000001 to 999999.',
    of: 'Choose the fee or the claim.',
    on: 'Choose what is claimed.',
    payee: 'The payee needs a name of 1 to 80 bytes.',
    person: 'A person has 1 to 32 of a to z, 0 to 9, point and hyphen, and is not called cashier.',
    purpose: 'The purpose has to have 1 to 80 bytes.',
    reason: 'The reason has to have 1 to 80 bytes.',
    role: 'Choose client or lawyer.',
    source: 'Who paid it in has to have 1 to 80 bytes.',
    to_client: "The client's part has to be dollars and cents, such as 20.00, or 0.00.",
};

const RULES = {
    read: 'Access to the matter is needed to read it.',
    dispute: 'Only a client of the matter disputes a fee or accepts an offer.',
    claim: 'Only a lawyer of the matter or the cashier holds a part of the general fund for a claim.',
    propose: 'Only a lawyer of the matter or the cashier proposes a payment, or withdraws it.',
    sign: 'Only a lawyer of the matter approves, declines and voids payments, earns fees and makes offers.',
    office: 'Only the cashier does that.',
    firm: "Only the cashier reads the firm's reports, imports statements and dismisses exceptions.",
};

const LOAD_AGAIN = 'Load the page again. If it stays, tell the operator.';
const LOOK_AT_NUMBER = 'Look at the number.';
const SEND_AGAIN = 'Send it again: what was booked is booked once. Tell the operator.';
const IN_PARTS = 'Import the statement in parts, each with the first line.';
const STATEMENT_TOO_LARGE = 'That is too large: a statement has at most 4,194,304 bytes.';

// What is asked before its time, by its verb.
const NOT_YET = {
    propose: ['The claim is not settled yet.', 'Have it awarded, or an offer accepted, first.'],
    purge: ['The matter is not closed.', 'Close it first.'],
};

// Of each refusal of docs/REFUSALS.md what it means, and what to do next. `told` is the refusal's object, with the verb
// and the entry of what was asked.
const REFUSALS = {
    BadMessage: () => ['The desk did not understand the request.', LOAD_AGAIN],
    LengthRequired: () => ['The desk was not told how long the request is.', LOAD_AGAIN],
    TooLarge: () => [STATEMENT_TOO_LARGE, IN_PARTS],
    NoRoute: () => ['The desk does not know this path.', LOAD_AGAIN],
    BadMethod: () => ['The desk does not know this request.', LOAD_AGAIN],
    NoCaller: () => ['The desk does not take your user name as a name.',
        'The operator has to give you one of a to z, 0 to 9, point and hyphen.'],
    BadField: (told) => ['Something is not of its form.', FIELDS[told.field] ?? `Mend this: ${told.field}.`],
    NoMatter: (told, role) => (role === 'cashier'
        ? ['No matter has this number.', 'Look at the number, or open the matter.']
        : ['There is no such matter for you.', 'Look at the number. The cashier gives access to a matter.']),
    Purged: () => ["This matter's records were taken away after their five years.", 'Its number is not used again.'],
    NotAllowed: (told) => ['You may not do this.', RULES[told.rule] ?? 'Have it asked by one who may.'],
    AlreadyOpen: () => ['A matter with this number was opened before.', 'Take the next free number.'],
    Closed: () => ['The matter is closed. It can be read.', 'What comes later needs a new matter.'],
    DateBackwards: (told) => [`The business day is before the last change of this matter (${told.last}).`,
        'The operator has to begin the desk with the right day.'],
    WrongNumber({ next, entry }) {
        if (next && entry > next) {
            return [`The number leaves a gap: the next free one is ${next}.`,
                'Nothing was booked. If something before it was refused, mend and send that first.'];
        }
        return ['Another entry has this number.', next
            ? `Nothing of yours was booked. Look at that entry; if yours is another one, book it as ${next}.`
            : 'The matter is full (9,999 entries): open a new one.'];
    },
    NoEntry: ({ verb }) => (verb === 'dismiss'
        ? ['The list of exceptions has no such line.',
            'It was dismissed or found its place meanwhile, or one of its five fields is another.']
        : ['There is no such entry.', LOOK_AT_NUMBER]),
    WrongKind: () => ['The entry is of another kind.', 'Look at the entry.'],
    WrongState: ({ verb }) => NOT_YET[verb]
        ?? ['It is past that: somebody was quicker, or the bank was.', 'Look at the entry: it says what became of it.'],
    PayeeIsCash: () => ['Nobody is paid in cash from a trust account.', 'Name the payee.'],
    WrongPayee: () => ['What the payment is drawn on does not pay this payee.',
        'A fee pays FIRM alone, a settled claim its claimant alone, the general fund never FIRM: earn a fee first.'],
    BadSplit: () => ["The client's part is more than the claim, or no longer what was offered.",
        'Look at the claim: the part that is offered now is shown there.'],
    Short: (told) => [`Only ${grouped(told.left)} is there for this.`,
        'Take at most that, or wait for the statement: a deposit counts once the bank has shown it.'],
    SeatTaken: () => ['This person has access to the matter.',
        'To change the role, take the access away and give the other.'],
    NoSeat: () => ['This person has no access to the matter.', 'Look at the name.'],
    LastLawyer: () => ['A matter keeps at least one lawyer.', 'Give the other lawyer access first.'],
    NotEmpty: () => ['The matter holds money, or a payment waits for a lawyer or the bank.',
        'Pay out what is left, decline or void what waits, and import the statement that shows the payments.'],
    TooEarly: (told) => ['The records of a closed matter are kept for five years.',
        `They may go from ${told.day} on.`],
    NoStatement: () => ['No closing balance of that day was imported.',
        'Import the statement that ends on the day, or ask for a day on which one ended.'],
    PeriodPurged: () => ["A matter that was open then was purged, so that time can't be told whole.",
        'Use what was printed or kept then.'],
    Store: () => ['The disk of the desk failed.', SEND_AGAIN],
    Memory: () => ['The desk has no room left.', SEND_AGAIN],
};

// The front end's own answers go by their status.
const STATUSES = {
    0: ['No answer came.', 'Look at your connection, and send it again: what was booked is booked once.'],
    400: ['The request was not understood.', LOAD_AGAIN],
    401: ['You are not signed on.', 'Load the page again and sign on.'],
    403: ['The front end refused this.', 'Open the page by its own address, not from another site.'],
    413: [STATEMENT_TOO_LARGE, IN_PARTS],
    414: ['The address is too long.', LOAD_AGAIN],
    429: ['Too much was asked at once.', 'Wait a minute, and ask again.'],
    502: ['The desk is not open.',
        'It opens on working days in the morning. What was not answered can be sent again then: it is booked once.'],
    503: ['The desk failed.', 'Wait a moment, and send it again: it is booked once.'],
    504: ['The desk is busy and did not answer in time.', 'Wait a moment, and send it again: it is booked once.'],
};

// The verb and the entry of a path; the entry is empty where the path has none.
const askedBy = (path) => ({ verb: path.split('/').at(-1), entry: /\/entries\/(\d{4})\//.exec(path)?.[1] ?? '' });

// What the answer means, what to do next, and its status and name.
export function wordsOf(answer, person) {
    const told = answer.body;
    if (answer.isOld) {
        return { what: 'The page is older than the desk.', next: 'Nothing was sent. Load the page again.', name: '' };
    }
    if (answer.other) {
        const what = `This browser is signed on as ${answer.other} now.`;
        return { what, next: 'Nothing was sent. Load the page again.', name: '' };
    }
    if (told?.refusal) {
        const role = answer.role ?? person;
        const [what, next] = REFUSALS[told.name]?.({ ...told, ...askedBy(answer.path) }, role)
            ?? ['The desk refused this.', 'Tell the operator.'];
        return { what, next, name: `${answer.status} ${told.name}` };
    }
    const [what, next] = STATUSES[answer.status] ?? ['The answer was not understood.', 'Tell the operator.'];
    return { what, next, name: answer.status ? String(answer.status) : '' };
}

// The field of a form that a refusal speaks of.
export function fieldOf(answer) {
    const told = answer.body ?? {};
    const fields = {
        BadField: told.field,
        NoMatter: 'matter',
        Purged: 'matter',
        AlreadyOpen: 'matter',
        PayeeIsCash: 'payee',
        WrongPayee: 'payee',
        BadSplit: 'to_client',
        Short: 'amount',
        SeatTaken: 'person',
        NoSeat: 'person',
    };
    return fields[told.name];
}
