// A file of records, as a day sheet has them: each record is a request to the desk.

import { NAMES } from './bank/statement.js';
import { readPart } from './amounts.js';
import { recordsOf, textOf, wordsOf } from './csv.js';
import { entryPath, matterPath } from './desk.js';

// The fields of each verb behind the matter and the entry, and what is asked of what.
const ofMatter = (path) => ({ matter }) => `${matterPath(matter)}/${path}`;
const ofEntry = (path) => ({ matter, entry }) => `${entryPath(matter, entry)}/${path}`;

const VERBS = {
    open: { fields: ['client', 'lawyer'], path: ofMatter('open') },
    seat: { fields: ['person', 'role'], path: ofMatter('seats') },
    drop: { fields: ['person'], path: ofMatter('seats/drop') },
    close: { fields: [], path: ofMatter('close') },
    purge: { fields: [], path: ofMatter('purge') },
    deposit: { fields: ['amount', 'source', 'description'], path: ofEntry('deposit') },
    cancel: { fields: [], path: ofEntry('cancel') },
    propose: { fields: ['amount', 'from', 'of', 'payee', 'purpose', 'instrument'], path: ofEntry('propose') },
    withdraw: { fields: [], path: ofEntry('withdraw') },
    claim: { fields: ['amount', 'claimant', 'reason'], path: ofEntry('claim'), more: { on: 'general' } },
    award: { fields: ['to_client'], path: ofEntry('award') },
    entry: { fields: [], path: ({ matter, entry }) => entryPath(matter, entry), isRead: true },
    show: { fields: [], path: ({ matter }) => matterPath(matter), isRead: true },
    dismiss: { fields: NAMES, path: () => '/firm/exceptions/dismiss' },
};
const WITHOUT_ENTRY = new Set(['open', 'seat', 'drop', 'close', 'purge', 'show', 'dismiss']);

// What can't be taken back.
export const UNDONE_BY_NOTHING = new Set(['drop', 'close', 'purge', 'cancel', 'withdraw', 'award', 'dismiss']);

// What a spreadsheet makes of a number that has zeros in front, or of an amount, is read as it was meant.
const widened = (value, digits) => (/^\d+$/.test(value.trim()) ? value.trim().padStart(digits, '0') : value);
const AMOUNTS = new Set(['amount', 'to_client']);

function meantBy([verb, matter = '', entry = '', ...more]) {
    if (verb === 'dismiss' || !Object.hasOwn(VERBS, verb)) return [verb, matter, entry, ...more];
    const { fields } = VERBS[verb];
    return [verb, widened(matter, 6), entry === '' ? '' : widened(entry, 4), ...more.map((value, at) => {
        if (AMOUNTS.has(fields[at])) return readPart(value) ?? value;
        return fields[at] === 'of' && value !== '' ? widened(value, 4) : value;
    })];
}

const isUtf8 = (value) => !wordsOf(value).includes('\ufffd');

// What is wrong with a record before it is sent; empty where nothing is. The desk looks at all else.
function wrongWith(verb, values, fields) {
    const form = Object.hasOwn(VERBS, verb) ? VERBS[verb] : null;
    if (!form) return `there is no verb ${verb || '(empty)'}: write ${Object.keys(VERBS).join(', ')}`;
    const wanted = form.fields.length + 3;
    if (values.length !== wanted && !(form.fields.length === 0 && values.length === 2 && WITHOUT_ENTRY.has(verb))) {
        return `${verb} has ${wanted} fields, and here are ${values.length}`;
    }
    const [, matter, entry = ''] = values;
    if (verb !== 'dismiss' && !/^\d{6}$/.test(matter)) return `${matter || '(empty)'} is no matter: write six digits`;
    if (WITHOUT_ENTRY.has(verb) && entry !== '') return `${verb} takes no entry`;
    if (!WITHOUT_ENTRY.has(verb) && !/^\d{4}$/.test(entry)) {
        return `${entry || '(empty)'} is no entry: write four digits`;
    }
    return fields.every(({ value }) => isUtf8(value)) ? '' : 'a field is not UTF-8';
}

function recordOf(fields, i) {
    const values = meantBy(fields.map(({ value }) => wordsOf(value)));
    const [verb, matter, entry = ''] = values;
    const wrong = wrongWith(verb, values, fields);
    const record = { number: i + 1, verb, matter, entry, words: values.join(', '), wrong };
    if (wrong) return record;
    const { fields: names, path, more = {}, isRead = false } = VERBS[verb];
    const all = names.map((name, at) => [name, values[at + 3]]);
    const told = all.filter(([name, value]) => name !== 'of' || value !== '');
    const body = names.length ? JSON.stringify({ ...more, ...Object.fromEntries(told) }) : undefined;
    return { ...record, path: path({ matter, entry }), body, isRead };
}

// Whether it begins as a record of a day sheet does.
export const hasVerb = ({ verb }) => Object.hasOwn(VERBS, verb);

export const readRecords = (bytes) => recordsOf(textOf(bytes)).map(recordOf);

// Sends one; sent again it is booked once.
export const sendRecord = (desk, { path, body, isRead }) => (isRead ? desk.read(path) : desk.post(path, body));
