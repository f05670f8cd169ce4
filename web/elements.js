// Elements of the page. What is put inside one is an element or becomes text, never HTML.

import { grouped, isNothing } from './amounts.js';
import { isMixed, shown } from './names.js';

const ATTRIBUTES = new Set([
    'class', 'id', 'href', 'for', 'type', 'name', 'value', 'role', 'scope', 'tabindex', 'inputmode', 'autocomplete',
    'accept', 'max', 'download', 'hidden', 'spellcheck', 'selected', 'data-label', 'data-state', 'data-kind',
    'aria-label', 'aria-labelledby', 'aria-describedby', 'aria-current', 'aria-live', 'aria-busy',
]);
const DRAWN = new Set([
    'class', 'viewBox', 'preserveAspectRatio', 'x', 'y', 'x1', 'y1', 'x2', 'y2', 'dy', 'width', 'height', 'd',
    'text-anchor', 'aria-hidden',
]);
const EVENTS = new Set(['click', 'submit', 'change', 'input', 'toggle', 'drop', 'dragover']);

const isThere = (part) => part !== null && part !== undefined && part !== false;

function fill(made, attributes, allowed, inside) {
    for (const [name, value] of Object.entries(attributes)) {
        if (EVENTS.has(name)) made.addEventListener(name, value);
        else if (!allowed.has(name)) throw new Error(`no attribute ${name}`);
        else if (isThere(value)) made.setAttribute(name, value === true ? '' : value);
    }
    made.append(...inside.flat(Infinity).filter(isThere));
    return made;
}

export const el = (tag, attributes = {}, ...inside) =>
    fill(document.createElement(tag), attributes, ATTRIBUTES, inside);

// An element of a picture.
export const drawn = (tag, attributes = {}, ...inside) =>
    fill(document.createElementNS('http://www.w3.org/2000/svg', tag), attributes, DRAWN, inside);

export const p = (...inside) => el('p', {}, ...inside);
export const quiet = (...inside) => el('p', { class: 'quiet' }, ...inside);
export const strong = (...inside) => el('strong', {}, ...inside);
export const link = (href, ...inside) => el('a', { href }, ...inside);

// As long as what a click began is under way, another one does nothing: what is done twice is refused as done already.
export function button(words, click, kind = 'plain') {
    let isBusy = false;
    const once = async (event) => {
        if (isBusy) return;
        isBusy = true;
        try {
            await click(event);
        } finally {
            isBusy = false;
        }
    };
    return el('button', { type: 'button', class: kind, click: once }, words);
}

export const money = (amount) => el('span', { class: isNothing(amount) ? 'money nothing' : 'money' }, grouped(amount));
export const number = (text) => el('span', { class: 'number' }, text);

// A text that some user wrote: set apart in its direction, with what can't be seen named.
export const label = (text) => [
    el('bdi', { class: 'label' }, shown(text)),
    isMixed(text) && el('span', { class: 'warning' }, ' (letters of two alphabets)'),
];

// An entry's reference leads to it, FIRM to the lines of the firm's own money.
export function referenceLink(reference) {
    if (reference === 'FIRM') return link('#/own', number(reference));
    const at = /^M(\d{6})-(\d{4})$/.exec(reference);
    return at ? link(`#/m/${at[1]}/e/${at[2]}`, number(reference)) : reference && label(reference);
}

// A list of names and values; a pair without a value is left out.
export const facts = (pairs) => el('dl', { class: 'facts' }, pairs.filter((pair) => pair && isThere(pair[1])).map(
    ([name, ...value]) => el('div', {}, el('dt', {}, name), el('dd', {}, ...value)),
));

// What words mean, on a tap.
export const explained = (pairs) => el('details', { class: 'explained' },
    el('summary', {}, 'What do these words mean?'), facts(pairs));

// Sums side by side: for each a name, words, the sum, and what it means.
export const sums = (all, kind = '') => el('dl', { class: `sums ${kind}` }, all.map(([name, words, sum, means]) =>
    el('div', { 'data-kind': name },
        el('dt', {}, words), el('dd', {}, sum), means && el('dd', { class: 'hint' }, means))));

const clockTime = () => new Date().toTimeString().slice(0, 5);

// No view reads itself again: it says how old it is.
export const readAgain = (page, ...more) => el('div', { class: 'buttons' },
    button('Read again', () => page.draw()),
    el('span', { class: 'quiet' }, `as of ${clockTime()}`),
    ...more);

// A report as the desk printed it. `path` is where it is asked for, `name` that of the file that it is saved as.
export const printed = (text, path, name) => [
    el('pre', { class: 'report', tabindex: '0', role: 'region', 'aria-label': 'The report' },
        text.split('\n').map(shown).join('\n')),
    el('p', { class: 'tools' },
        button('Print', () => window.print()),
        el('a', { href: path, download: name }, 'Save as text')),
];
