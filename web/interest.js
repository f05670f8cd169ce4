// Interest of the trust account. It is the bar foundation's, so a matter of its own takes it in and passes it on.

import { entriesPath } from './desk.js';
import { readMatters } from './lists.js';
import { matterAfter } from './names.js';

// By these words in its client's name the matter is known again.
export const NAME = 'IOLTA interest';

const isOfInterest = ({ client, closed }) => !closed && client.toLowerCase().includes(NAME.toLowerCase());

// Whether the bank's words tell of interest, and the line moves something.
export const isInterest = ({ text, amount }) => /\binterest\b/iu.test(text) && /^-?\d+\.\d\d$/.test(amount);

// The matter with its entries; where there is none, the number that it may have.
export async function readInterest(page) {
    const matters = await readMatters(page);
    const matter = matters.find(isOfInterest) ?? null;
    if (!matter) return { matter: null, next: matterAfter(matters.map((each) => each.matter)) };
    return { matter, entries: (await page.desk.get(entriesPath(matter.matter))).body.entries };
}

// Whom it is passed on to: the client, without the words by which the matter is known.
export const foundationOf = ({ client }) =>
    client.replace(new RegExp(`[ ,:(-]*${NAME}[) ]*`, 'iu'), '').trim() || client;
