// Tables. On a phone each row becomes a card, which takes the elements' own roles away: so the roles are written out.

import { button, el, p } from './elements.js';

// A column: what stands above it, and its kind, which is `right` for amounts and `tight` for what is never broken.
export const column = (name, kind = null) => ({ name, kind });

const headOf = (columns) => el('thead', { role: 'rowgroup' }, el('tr', { role: 'row' }, columns.map(({ name, kind }) =>
    el('th', { scope: 'col', role: 'columnheader', class: kind }, name))));

// What stands in a cell is one element, since on a phone the cell is a grid: texts and several parts get one.
const oneOf = (inside) => (inside instanceof HTMLSpanElement ? inside : el('span', {}, inside));

function cellOf(inside, { name, kind }, isFirst) {
    const attributes = { 'data-label': name, class: kind };
    return isFirst
        ? el('th', { ...attributes, scope: 'row', role: 'rowheader' }, oneOf(inside))
        : el('td', { ...attributes, role: 'cell' }, oneOf(inside));
}

export const rowOf = (columns, cells) =>
    el('tr', { role: 'row' }, cells.map((inside, i) => cellOf(inside, columns[i], i === 0)));

// Nothing where there are no rows and no foot, which is the row of the sum. A row is a list of what stands in its
// cells, or an element of `rowOf`.
export function table(caption, columns, rows, foot = null) {
    if (!rows.length && !foot) return null;
    const body = rows.map((row) => (Array.isArray(row) ? rowOf(columns, row) : row));
    return el('table', { role: 'table' }, el('caption', {}, caption), headOf(columns),
        el('tbody', { role: 'rowgroup' }, body),
        foot && el('tfoot', { role: 'rowgroup' }, rowOf([{ ...columns[0], name: '' }, ...columns.slice(1)], foot)));
}

// So many rows are drawn first where a list may have thousands.
const STEP = 100;

// A list as a table that draws its next rows as its end comes into view, in few steps, since all of it is laid out anew
// each time; or all of them when asked for.
export function growingTable({ caption, columns, items, cells }) {
    if (!items.length) return null;
    let count = 0;
    const made = table(caption, columns, [[]]);
    const [body] = made.tBodies;
    const end = p(button(`Show all ${items.length}`, () => grow(items.length)));
    const watch = new IntersectionObserver((seen) => {
        if (seen.some(({ isIntersecting }) => isIntersecting)) grow(10 * count);
    }, { rootMargin: '600px' });
    function grow(to) {
        const more = items.slice(count, to).map((each) => rowOf(columns, cells(each)));
        if (count === 0) body.replaceChildren(...more);
        else body.append(...more);
        count += more.length;
        made.caption.textContent = `${caption}: ${count < items.length ? `${count} of ` : ''}${items.length}`;
        watch.disconnect(); // and watched anew, since the end may be in view still
        if (count < items.length) watch.observe(end);
        else end.remove();
    }
    const whole = el('div', { class: 'grown' }, made, end);
    grow(STEP);
    return whole;
}

// A table that shows so many of its rows, and all of them when asked for. Ten thousand take a browser seconds to draw.
export function longTable({ caption, columns, items, cells, first, foot = null }) {
    if (!items.length && !foot) return null;
    const place = el('div', {});
    const show = (count) => {
        const isCut = items.length > count;
        const words = isCut ? `${caption}: ${count} of ${items.length}` : caption;
        const more = isCut && p(button(`Show all ${items.length}`, () => show(items.length)));
        place.replaceChildren(...[table(words, columns, items.slice(0, count).map(cells), foot), more].filter(Boolean));
    };
    show(first);
    return place;
}
