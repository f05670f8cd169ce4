// What a browser was told of the columns of the bank's CSV is saved as a file, by which every browser knows them.

import { button, el } from '../elements.js';
import { columnsText } from '../shared-columns.js';

const NAME = 'columns.txt';
const LATER = 60_000; // milliseconds, until the file is surely saved

function save(text) {
    const href = URL.createObjectURL(new Blob([text], { type: 'text/plain' }));
    el('a', { href, download: NAME }).click();
    setTimeout(() => URL.revokeObjectURL(href), LATER);
}

// Nothing where this browser knows no columns.
export function savingColumns(page) {
    if (!columnsText(page.shelf)) return null;
    return el('p', { class: 'hint' }, button('Save the bank\u2019s columns', () => save(columnsText(page.shelf))),
        ` Put behind the lines of FIRM.txt by the operator, ${NAME} has every browser know them.`);
}
