// What a lawyer or a client sees first: what waits in the matters to which there is access, and these matters.

import { quiet, readAgain } from '../elements.js';
import { readMatters, readWaiting } from '../lists.js';
import { matterLists, waitingTables } from './lists.js';
import { showMatter } from './matter.js';

// A client with one matter is taken to it as the page is opened.
function onlyOne(page, { matter }) {
    history.replaceState(null, '', `#/m/${matter}`);
    return showMatter(page, matter);
}

const NONE = 'There is no matter to which you have access. The cashier gives access to a matter.';

export async function myMatters(page) {
    const [matters, waiting] = await Promise.all([readMatters(page), readWaiting(page)]);
    if (matters.length === 1 && !location.hash) return onlyOne(page, matters[0]);
    const parts = [
        matters.length ? waitingTables(waiting) : quiet(NONE),
        matterLists(matters),
        readAgain(page),
    ];
    return { title: 'My matters', parts };
}
