// Has a bank's file read by a worker, so that the page stays alive; where a browser begins none, by the page itself.

import { Reading } from './bank/reading.js';

const WORKER = '/page/bank/worker.js';
// Milliseconds until a file counts as one that can't be read. A good one takes less than a second.
const MOST = 30_000;

const TOO_LONG = 'it takes too long to be read: ask the bank for a shorter one';

// The worker's address, as the front end's `trusted-types bank` wants it.
const address = globalThis.trustedTypes?.createPolicy
    ? () => trustedTypes.createPolicy('bank', { createScriptURL: () => WORKER }).createScriptURL(WORKER)
    : () => WORKER;

let made = null;

// Null where the browser begins none.
function begunWorker() {
    try {
        made ??= address();
        return new Worker(made, { type: 'module' });
    } catch {
        return null;
    }
}

const refused = (words) => ({ kind: null, columns: null, refused: words, read: null });

export class Reader {
    constructor(bytes) {
        Object.assign(this, { bytes, worker: begunWorker(), number: 0, isKnown: false, isTooLong: false, own: null });
    }

    // What `Reading` looks at, of these columns or those that it guesses.
    async look(columns, known) {
        if (this.isTooLong) return refused(TOO_LONG);
        if (this.worker) {
            const told = await this.ask(columns, known);
            if (told) return told;
        }
        this.own ??= new Reading(this.bytes);
        return this.own.look(columns, known);
    }

    // Null where the worker could not be begun.
    ask(columns, known) {
        this.number += 1;
        const { number, worker } = this;
        const bytes = this.isKnown ? null : this.bytes;
        this.isKnown = true;
        return new Promise((tell) => {
            const end = setTimeout(() => {
                this.end();
                this.isTooLong = true;
                tell(refused(TOO_LONG));
            }, MOST);
            worker.onmessage = ({ data }) => {
                if (data.number !== number) return;
                clearTimeout(end);
                tell(data.told);
            };
            worker.onerror = () => {
                clearTimeout(end);
                this.end();
                tell(null);
            };
            worker.postMessage({ number, bytes, columns, known });
        });
    }

    end() {
        this.worker?.terminate();
        this.worker = null;
        this.isKnown = false;
    }
}
