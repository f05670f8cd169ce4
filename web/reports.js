// What the page takes out of the firm's reports. What somebody typed stands behind the first bar of its line, or, of an
// exception, is left as it is.

const linesOf = (text) => text.trimEnd().split('\n');

// The business day stands at the end of each report's first line.
export const dayOf = (text) => linesOf(text)[0].slice(-10);

export function readTrial(text) {
    const rows = linesOf(text).slice(1).map((line) => line.split(/ +/));
    const isMatter = ([name]) => /^\d{6}$/.test(name);
    return {
        matters: rows.filter(isMatter).map(([matter, ledger]) => ({ matter, ledger })),
        firm: rows.at(-2)[1],
        total: rows.at(-1)[1],
    };
}

// The ledgers as of a day, each with its client.
export function readClients(text) {
    const matters = linesOf(text).map((line) => /^(\d{6}) +(-?\d+\.\d\d) \| (.*)$/.exec(line)).filter(Boolean);
    const [firm, total] = linesOf(text).slice(-2).map((line) => line.split(/ +/)[1]);
    return { matters: matters.map(([, matter, ledger, client]) => ({ matter, ledger, client })), firm, total };
}

export const readRetention = (text) =>
    linesOf(text).slice(1).map((line) => {
        const [matter, , closed, , , until] = line.split(' ');
        return { matter, closed, until, mayGo: line.endsWith(' MAY PURGE') };
    });

export const readJournal = (text) =>
    linesOf(text).slice(1).map((line) => {
        const [day, reference, amount, sum] = line.split(' ');
        return { day, reference, amount, sum };
    });

export const countLines = (text) => linesOf(text).length - 1;

// The opening balances that break with the closing one before: those up to the day of the report, in its last lines.
export const readBreaks = (text) => linesOf(text)
    .map((line) => /^OPENING (\S+) (-?\d+\.\d\d) AFTER (\S+) (-?\d+\.\d\d)$/.exec(line)).filter(Boolean)
    .map(([, day, opening, before, closing]) => ({ day, opening, before, closing }));

// The lines of a reconciliation that no other part of the packet has.
export const readRemarks = (text) => linesOf(text).slice(11).filter((line) => !/^(TRANSIT|OUT|OPENING) /.test(line))
    .map((line) => {
        const [, name, rest] = /^(\S+) (.*)$/su.exec(line);
        const [, reference, day, amount, instrument] =
            /^(M\d{6}-\d{4}) (\S+) (-?\d+\.\d\d)(?: (.*))?$/su.exec(name === 'EXCEPTION' ? '' : rest) ?? [];
        return { name, rest, reference, day, amount, instrument };
    });

const MOVEMENT = /^(\d{4}-\d\d-\d\d) (FIRM|M\d{6}-\d{4}) (-?\d+\.\d\d) ([A-Z]+)$/;
const SUM = /^([A-Z ]+?) +(-?\d+\.\d\d)$/;

function readMovement(line) {
    const bar = line.indexOf(' | ');
    const [, day, reference, amount, kind] = MOVEMENT.exec(line.slice(0, bar));
    return { day, reference, amount, kind, words: line.slice(bar + 3) };
}

// The sums of receipts, disbursements or outstanding items, each with the movements above it.
export function readMovements(text) {
    const lists = [];
    let movements = [];
    for (const line of linesOf(text).slice(1)) {
        const sum = SUM.exec(line);
        if (sum) {
            lists.push({ name: sum[1], sum: sum[2], movements });
            movements = [];
        } else movements.push(readMovement(line));
    }
    return lists;
}

const APPROVAL = new RegExp('^(\\d{4}-\\d\\d-\\d\\d) (M\\d{6}-\\d{4}) (\\d+\\.\\d\\d) (\\S+)'
    + '(?: (CLEARED|VOIDED) (\\d{4}-\\d\\d-\\d\\d)(?: (.*?))?)? \\| (.*)$', 'su');

// The approvals of a period: each issued payment, who approved it (`-` if no act says so, `?` if that may be unread), and
// what became of it.
export const readApprovals = (text) => linesOf(text).slice(1).map((line) => {
    const [, day, reference, amount, approver, end, endDay, bankRef, words] = APPROVAL.exec(line);
    return { day, reference, amount, approver, end, endDay, bankRef, words };
});

const DISMISSED = /^(\d{4}-\d\d-\d\d) - (\S+) DISMISSED (.*)$/su;

// A line of the firm's trail: an act, or, where it has a line of the bank, an exception that was dismissed.
function readDone(text) {
    const dismissed = DISMISSED.exec(text);
    if (dismissed) {
        const [, day, caller, line] = dismissed;
        return { day, caller, line };
    }
    const [day, reference, caller, deed, ...more] = text.split(' ');
    return { day, reference, caller, deed, more };
}

// Whether the firm's trail begins later than a matter.
export const beginsLate = (text) => linesOf(text)[1] === 'EARLIER ACTS ARE NOT RECORDED';

// What was done, by the business day, of one day the acts first.
export const readTrail = (text) => linesOf(text).slice(beginsLate(text) ? 2 : 1).map(readDone)
    .sort((one, other) => one.day.localeCompare(other.day));

const BALANCED = /^(\d{4}-\d\d-\d\d) (M\d{6}-\d{4}) (-?\d+\.\d\d) (-?\d+\.\d\d) ([A-Z]+)$/;

// A statement of account: its first sum, each movement with the ledger behind it, and its last sum.
export function readAccount(text) {
    const [, , opening, ...lines] = linesOf(text);
    const sumOf = (line) => SUM.exec(line)[2];
    const movements = lines.slice(0, -1).map((line) => {
        const bar = line.indexOf(' | ');
        const [, day, reference, amount, sum, kind] = BALANCED.exec(line.slice(0, bar));
        return { day, reference, amount, sum, kind, words: line.slice(bar + 3) };
    });
    return { opening: sumOf(opening), movements, closing: sumOf(lines.at(-1)) };
}

// The reports of a packet by the names in their first lines.
export const readPacket = (text) => Object.fromEntries(
    text.split('\n\n').map((part) => [/^[A-Z ]+(?= \d)/.exec(part)[0], part]));

// The figures of a reconciliation by their names, which stand in its first lines.
export function readFigures(text) {
    const figures = linesOf(text).slice(1, 11).map((line) => /^([A-Z ]+?) +(-?\d+\.\d\d)$/.exec(line));
    return Object.fromEntries(figures.map(([, name, amount]) => [name, amount]));
}
