// Reads a bank's file beside the page, which stays alive. Each ask has a number, which its answer has too.

import { Reading } from './reading.js';

let reading = null;

addEventListener('message', ({ data: { number, bytes, columns, known } }) => {
    if (bytes) reading = new Reading(bytes);
    postMessage({ number, told: reading.look(columns, known) });
});
