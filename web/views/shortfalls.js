// A returned deposit whose money is spent: what the firm owes to that ledger, and the way out.

import { grouped } from '../amounts.js';
import { book, isUnanswered, newAsk } from '../asks.js';
import { warningBox } from '../boxes.js';
import { button, el, label, link, money, p, referenceLink } from '../elements.js';
import { entryAfter } from '../names.js';

// The deposit of the firm's own money that makes the ledger whole.
function bookOwn(page, { matter, deposit, missing }, place) {
    const reference = `M${matter.matter}-${deposit.entry}`;
    return book(page, newAsk({
        matter: matter.matter,
        entry: entryAfter(matter.entries),
        verb: 'deposit',
        kind: 'deposit',
        fields: { amount: missing, source: 'The firm', description: `for ${reference}, which the bank took back` },
        what: `deposit of ${grouped(missing)} by the firm`,
    }), place);
}

function stepsOf(page, shortfall, place) {
    const { matter, missing, waiting } = shortfall;
    const references = waiting.map(({ entry }) => referenceLink(`M${matter.matter}-${entry}`));
    const booking = waiting.length ? el('li', {}, 'A deposit that waits for the bank may be that of the firm: ',
        references.map((each, i) => [i > 0 && ', ', each]), '.')
        : el('li', {}, `The firm pays ${grouped(missing)} of its own money into the trust account, today, and it is `
            + 'booked into this matter. ', isUnanswered(page, matter.matter)
            ? 'First send again what was not answered, above.'
            : button(`Book the firm\u2019s ${grouped(missing)}`, () => bookOwn(page, shortfall, place), ''));
    return el('ol', {},
        booking,
        el('li', {}, 'The bank shows that deposit: its line is imported.'),
        el('li', {}, 'Then this file is imported again: the line takes the deposit back, and nothing is left over.'));
}

const shortfallOf = (page, leave) => (shortfall) => {
    const { line, matter, deposit, available, missing } = shortfall;
    const reference = `M${matter.matter}-${deposit.entry}`;
    const place = el('div', {});
    return warningBox(`The firm owes ${grouped(missing)} to matter ${matter.matter}.`,
        p('The bank takes back the deposit ', referenceLink(reference), ' of ', money(deposit.amount), ', ',
            label(matter.client), ', and ', money(available), ' of it is left. No other client\u2019s money may stand '
            + 'in for the rest. Imported now, the line is an exception.'),
        stepsOf(page, shortfall, place),
        el('div', { class: 'buttons' },
            button(`Leave the line of ${grouped(line.amount)} until then`, () => leave(line)),
            link(`#/m/${matter.matter}`, 'Look at the matter')),
        place);
};

export const shortfallBoxes = (page, shortfalls, leave) => shortfalls.map(shortfallOf(page, leave));
