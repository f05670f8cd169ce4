// What the page tells of a reconciliation's remarks, beyond its text: of an early line whose it is, with its words; and
// of payments with one number those alone that may still be a mistake.

import { entryPath, matterPath } from './desk.js';
import { textsOf } from './words.js';

// So many entries are asked for.
const MOST = 200;

const placeOf = (reference) => [reference.slice(1, 7), reference.slice(8)];

// The entries of these references, by them; those that the desk does not tell are left out.
async function readEntries(page, references) {
    const asked = [...new Set(references)].slice(0, MOST);
    const answers = await Promise.all(asked.map((each) => page.desk.read(entryPath(...placeOf(each)))));
    return new Map(asked.map((each, i) => [each, answers[i]]).filter(([, { isDone }]) => isDone)
        .map(([each, { body }]) => [each, body]));
}

async function readClients(page, references) {
    const matters = [...new Set(references.map((each) => placeOf(each)[0]))].slice(0, MOST);
    const answers = await Promise.all(matters.map((each) => page.desk.read(matterPath(each))));
    return new Map(matters.map((each, i) => [each, answers[i].body?.client]));
}

// The payments of one number, by it.
function byInstrument(remarks) {
    const groups = new Map();
    for (const each of remarks.filter(({ name }) => name === 'DOUBLE')) {
        groups.set(each.instrument, [...(groups.get(each.instrument) ?? []), each]);
    }
    return [...groups.values()];
}

// Whether one line of the bank's shows all of them.
function areOneLine(group, entries) {
    const lines = group.map(({ reference }) => entries.get(reference))
        .map((entry) => entry?.bank_day && JSON.stringify([entry.bank_day, entry.bank_ref]));
    return lines.every(Boolean) && new Set(lines).size === 1;
}

// The remarks that are told, each early one with its `client` and `words`. Payments of one number are told where the
// bank had not shown all of them on the day of the reconciliation, unless one line of the bank's has by now.
export async function toldRemarks(page, remarks, outstanding) {
    const open = byInstrument(remarks).filter((group) => group.some(({ reference }) => outstanding.has(reference)));
    const early = remarks.filter(({ name, reference }) => name === 'EARLY' && reference).map((each) => each.reference);
    const entries = await readEntries(page, [...early, ...open.flat().map(({ reference }) => reference)]);
    const clients = await readClients(page, early);
    const told = new Set(open.filter((group) => !areOneLine(group, entries)).flat());
    return remarks.filter((each) => each.name !== 'DOUBLE' || told.has(each)).map((each) => (each.name === 'EARLY'
        && entries.has(each.reference) ? { ...each, client: clients.get(placeOf(each.reference)[0]),
            words: textsOf(entries.get(each.reference)) } : each));
}
