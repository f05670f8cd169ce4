// The bank's lines that match nothing, each with why, as the desk lists them; and such a line as a report prints it.

// A line as it is printed. Where a reference has a space nobody can say where it ends: such a line is not read.
const LINE = /^(\d{4}-\d\d-\d\d) (\S+) (\S+) (-?\d+\.\d\d) (.*)$/su;

// An empty field is printed so.
const fieldOf = (printed) => (printed === '-' ? '' : printed);

// The fields of a printed line; null where it can't be taken apart.
export function readPrinted(whole) {
    const found = LINE.exec(whole);
    if (!found) return null;
    const [date, reference, bankRef, amount, text] = found.slice(1);
    return { date, reference: fieldOf(reference), bank_ref: fieldOf(bankRef), amount, text: fieldOf(text) };
}

// All of them in their order: each has its fields, and its `reason`.
export const askExceptions = (page) => page.desk.read('/firm/exceptions/reasons');

export const isEntry = (reference) => /^M\d{6}-\d{4}$/.test(reference);

// Lines of one day and bank reference are of one movement of the bank's: that line itself, or its parts.
export const movementOf = ({ date, bank_ref: number }) => JSON.stringify([date, number]);

// The lines that are exceptions, by their movements; none where the desk does not tell.
export async function readByMovement(page) {
    const answer = await askExceptions(page);
    const byMovement = new Map();
    for (const each of answer.isDone ? answer.body.exceptions : []) {
        const key = movementOf(each);
        byMovement.set(key, [...(byMovement.get(key) ?? []), each]);
    }
    return byMovement;
}

// The line alone, as it is sent to be dismissed.
export const fieldsOf = ({ date, reference, bank_ref: number, amount, text }) =>
    ({ date, reference, bank_ref: number, amount, text });
