// Forms. A field has its name, its words, how what is typed is read (null where it is not of its form), and what is
// said then.

import { readAmount, readPart } from './amounts.js';
import { failedBox } from './boxes.js';
import { el } from './elements.js';
import { readLabel, readMatter, readPerson } from './names.js';

export const labelField = (name, words, more = {}) => ({
    name,
    words,
    read: readLabel,
    wrong: 'Write 1 to 80 bytes: a letter with an accent takes two or more.',
    ...more,
});

export const amountField = (more = {}) => ({
    name: 'amount',
    words: 'Amount',
    keys: 'decimal',
    read: readAmount,
    hint: 'Dollars and cents, such as 120.00',
    wrong: 'Write dollars and cents, such as 120.00, up to 999,999,999.99.',
    ...more,
});

export const partField = (done) => ({
    name: 'to_client',
    words: "The client's part",
    keys: 'decimal',
    read: readPart,
    hint: `What the client ${done}; the rest stays with the other side. 0.00 is a part too.`,
    wrong: 'Write dollars and cents, such as 20.00.',
});

export const personField = (name, words) => ({
    name,
    words,
    read: readPerson,
    hint: 'As this person signs on: a to z, 0 to 9, point, hyphen',
    wrong: 'Write 1 to 32 of a to z, 0 to 9, point and hyphen.',
});

export const matterField = (more = {}) => ({
    name: 'matter',
    words: "The matter's number",
    keys: 'numeric',
    read: readMatter,
    wrong: 'Write up to six digits.',
    ...more,
});

export const choiceField = (name, words, choices, value = null) =>
    ({ name, words, choices, value, read: (typed) => typed });

const choiceOf = ({ name, choices, value: chosen }) =>
    el('select', { id: name, name, 'aria-describedby': `${name}-error` },
        choices.map(([value, words]) => el('option', { value, selected: value === chosen }, words)));

const inputOf = (field) => el('input', {
    id: field.name,
    name: field.name,
    type: field.type ?? 'text',
    inputmode: field.keys,
    value: field.value ?? '',
    autocomplete: 'off',
    spellcheck: 'false',
    class: field.keys === 'decimal' ? 'amount' : null,
    'aria-describedby': `${field.hint ? `${field.name}-hint ` : ''}${field.name}-error`,
});

const fieldOf = (field) => el('div', { class: 'field' },
    el('label', { for: field.name }, field.words),
    field.hint && el('p', { class: 'hint', id: `${field.name}-hint` }, field.hint),
    field.choices ? choiceOf(field) : inputOf(field),
    el('p', { class: 'error', id: `${field.name}-error`, 'aria-live': 'polite' }));

// What was typed, or null where something of it is not of its form: that is said, and the first has the focus.
function valuesOf(made, fields) {
    const values = {};
    let wrong = null;
    for (const field of fields) {
        const input = made.elements.namedItem(field.name);
        const value = field.read(input.value);
        input.setAttribute('aria-invalid', String(value === null));
        made.querySelector(`#${field.name}-error`).textContent = value === null ? field.wrong : '';
        if (value === null) wrong ??= input;
        values[field.name] = value;
    }
    wrong?.focus();
    return wrong ? null : values;
}

// Says of a field of the form around the place what is wrong with it.
export function tellWrong(place, name, words) {
    const made = place.closest('form');
    for (const each of made.elements) each.disabled = false;
    const input = made.elements.namedItem(name);
    input.setAttribute('aria-invalid', 'true');
    made.querySelector(`#${name}-error`).textContent = words;
    input.focus();
}

// A field by which rows are looked for: `find` gets the words, in small letters, as they are typed.
export const findField = ({ id, words, hint, value = '', find }) => el('div', { class: 'field find' },
    el('label', { for: id }, words),
    el('input', { id, type: 'search', value, autocomplete: 'off', spellcheck: 'false', 'aria-describedby': `${id}-hint`,
        input: ({ target }) => find(target.value.trim().toLowerCase()) }),
    el('p', { class: 'hint', id: `${id}-hint` }, hint));

// `submit` gets the values, and the place where a refusal is told, by which the form can be sent again.
export function form({ title, before, fields, action, submit }) {
    const place = el('div', {});
    const sender = el('button', { type: 'submit' }, action);
    const head = title && el('h2', {}, title);
    const made = el('form', { class: 'form' }, head, before, fields.map(fieldOf), place, sender);
    made.addEventListener('submit', async (event) => {
        event.preventDefault();
        place.replaceChildren();
        const values = valuesOf(made, fields);
        if (!values) return;
        sender.disabled = true;
        try {
            await submit(values, place);
        } catch (fault) {
            console.error(fault);
            place.replaceChildren(failedBox(fault));
        }
    });
    return made;
}
