// The words of kinds, states and balances.

export const KINDS = { deposit: 'Deposit', payment: 'Payment', fee: 'Fee', claim: 'Claim' };

// In a list, and where there is room.
export const STATES = {
    held: ['held', 'held: the bank has not shown it yet'],
    cleared: ['cleared', 'cleared by the bank'],
    cancelled: ['cancelled', 'cancelled'],
    returned: ['returned', 'returned by the bank'],
    proposed: ['waits for a lawyer', 'waits for a lawyer'],
    declined: ['declined', 'declined by a lawyer, or withdrawn'],
    issued: ['issued', 'issued: the bank has not shown it yet'],
    voided: ['voided', 'voided'],
    earned: ['earned', 'earned'],
    open: ['open', 'open'],
    settled: ['settled', 'settled'],
};

// What moved the account, in the words of receipts, disbursements and outstanding items.
export const MOVED = {
    DEPOSIT: 'deposit',
    CANCELLED: 'cancelled',
    RETURNED: 'returned',
    PAYMENT: 'payment',
    VOIDED: 'voided',
    OWN: 'the firm\u2019s own',
};

// What was done, in the words of the trail.
const DEEDS = {
    OPENED: 'opened the matter, with this lawyer:',
    SEATED: 'gave a seat to',
    UNSEATED: 'removed the seat of',
    CLOSED: 'closed the matter',
    DEPOSITED: 'booked a deposit',
    CANCELLED: 'cancelled the deposit',
    CLEARED: 'cleared it by a line of the bank',
    RETURNED: 'took the deposit back by a line of the bank',
    PROPOSED: 'proposed the payment',
    APPROVED: 'approved the payment',
    DECLINED: 'declined the payment',
    WITHDRAWN: 'withdrew the payment',
    VOIDED: 'voided the payment',
    EARNED: 'booked a fee',
    DISPUTED: 'raised a claim on a fee',
    CLAIMED: 'raised a claim on the general fund',
    OFFERED: 'offered the client this part:',
    ACCEPTED: 'accepted the offer',
    AWARDED: 'settled the claim by an award',
};

// With whose seat it is, and as what, or the part that was offered.
export const deedWords = (deed, [whose, role]) =>
    [DEEDS[deed], whose, role && `as ${role.toLowerCase()}`].filter(Boolean).join(' ');

// The same of an act as a matter's own list has it. Who opens a matter gives the first seat to a lawyer.
export const actWords = ({ deed, person, role, to_client: part }) =>
    deedWords(deed.toUpperCase(), [person, deed === 'opened' ? null : role, part].filter(Boolean));

export const BALANCES = [
    ['available', 'Available', 'can be paid out'],
    ['held', 'Held', 'paid in, not yet shown by the bank'],
    ['fees', 'Fees', 'earned, not yet paid to the firm'],
    ['disputed', 'Disputed', 'of fees, kept until settled'],
    ['claims', 'Claims', 'kept apart for others'],
    ['total', 'Total', 'cleared and not paid out; without what is held'],
];

// What a payment is drawn on, or a claim is on, as an entry tells it.
export const fundOf = ({ from, on, of }) =>
    ({ general: 'the general fund', fee: `fee ${of}`, claim: `claim ${of}` })[from ?? on];

const TEXTS = {
    deposit: ({ source, description }) => [source, description],
    payment: ({ payee, purpose, instrument }) => [payee, purpose, instrument],
    fee: ({ description }) => [description],
    claim: ({ claimant, reason }) => [claimant, reason],
};

// What somebody typed of an entry, in a line.
export const textsOf = (entry) => TEXTS[entry.kind](entry).filter(Boolean).join(' | ');

// What the words of forms, cards and reports mean.
const MEANS = {
    'General fund': 'the client\u2019s money to which no fee and no claim has a right',
    'Earned fee': 'set apart for the firm, and paid to it by a payment of its own',
    CLOSING: 'what the bank had as the day closed, by its statement',
    'IN TRANSIT': 'deposits that are booked, and that the bank has not shown by that day',
    OUTSTANDING: 'payments that are issued, and that the bank has not shown by that day',
    'ADJUSTED BANK': 'the closing balance with what is in transit and outstanding',
    JOURNAL: 'the account by the journal, up to that day',
    LEDGERS: 'all clients\u2019 ledgers and the firm\u2019s own, up to that day',
    DIFFERENCE: 'the adjusted bank less the journal',
    EXCEPTIONS: 'lines of the bank that match nothing: each has to be given its entry, or be dismissed',
    EARLY: 'lines that the bank had before the books: the entry was booked on a later day than the bank\u2019s',
    GAP: 'what is left of the difference, and explained by nothing: a mistake that has to be found',
    DOUBLE: 'two payments with the same check number: one of them may be a mistake',
    HELD: 'paid in, and not shown by the bank yet: it can\u2019t be paid out',
    ISSUED: 'approved and out, and not shown by the bank yet',
    OPENING: 'a statement opened with another balance than the one before closed with: a part is missing',
};

export const meansOf = (names) => names.map((name) => [name, MEANS[name]]);
