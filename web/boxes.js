// Boxes that tell what became of an ask: done, noted, refused.

import { button, el, p, strong } from './elements.js';
import { fieldOf, wordsOf } from './refusals.js';

const box = (kind, role, ...inside) => el('div', { class: `box ${kind}`, role, tabindex: '-1' }, ...inside);

export const doneBox = (words, ...more) => box('done', 'status', p(strong(words)), ...more);
export const noteBox = (...inside) => box('note', 'status', ...inside);
export const warningBox = (words, ...more) => box('refused', 'status', p(strong(words)), ...more);

// A button of what can't be taken back. It asks first, naming what it does, and only then does it.
export function askFirst(words, { question, yes, act }) {
    const place = el('div', { class: 'asks' });
    const first = button(words, () => {
        place.replaceChildren(asked);
        asked.focus();
    });
    const keep = () => {
        place.replaceChildren(first);
        first.focus();
    };
    const asked = noteBox(p(question), el('div', { class: 'buttons' }, button(yes, act, ''),
        button('Leave it as it is', keep)));
    place.append(first);
    return place;
}

// Asks beside a form about doubts, before anything is sent: `act` sends it all the same. The form can be changed; then
// what was asked is gone, since `act` has what stood there before.
export function askAbout(place, doubts, action, act) {
    const asked = noteBox(doubts.map((each) => p(each)), el('div', { class: 'buttons' }, button(action, act, '')));
    const made = place.closest('form');
    place.replaceChildren(asked);
    for (const each of made.elements) each.disabled = false;
    made.addEventListener('input', () => asked.remove());
    made.addEventListener('change', ({ target }) => target.tagName === 'SELECT' && asked.remove());
    asked.focus();
}

// The words of a refusal; its status and name stand small below, for the telephone.
export function refusedBox(answer, person, ...more) {
    const { what, next, name } = wordsOf(answer, person);
    return box('refused', 'alert', p(strong(what)), p(next), name && el('p', { class: 'small' }, name), ...more);
}

export const failedBox = (fault) => box(
    'refused',
    'alert',
    p(strong('The page failed.')),
    p('Load it again. If it stays, tell the operator: ', String(fault)),
);

// Tells a refusal beside the form, at the field that it speaks of. As long as nobody knows whether what was sent was
// done, the form takes nothing else.
export function tellRefusal(place, answer, person, ...more) {
    const told = refusedBox(answer, person, ...more);
    place.replaceChildren(told);
    const fields = place.closest('form')?.elements ?? [];
    for (const each of fields) each.disabled = answer.isUnknown && !place.contains(each);
    const field = fields[fieldOf(answer)];
    if (field) field.setAttribute('aria-invalid', 'true');
    (field || told).focus();
}
