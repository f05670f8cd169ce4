// The desk: what is asked of it, and what it answers.

// The desk hears one request after another, so more than a few that wait gain nothing.
const AT_ONCE = 4;

const TOO_MUCH = 429;
const SELDOM = 60_000; // milliseconds
const second = () => new Promise((go) => setTimeout(go, 1000));

// A statement, or a file of records, has at most so many bytes.
export const GREATEST = 4194304;

// Thrown where a view can't be shown, since the desk refused what it reads.
export class Refused extends Error {
    constructor(answer) {
        super(`refused: ${answer.status}`);
        this.answer = answer;
    }
}

// What is answered to a view that was left: what waits for it is forgotten.
const never = () => new Promise(() => {});

// Lets so many go at a time, in the order in which they came.
class Turns {
    constructor(free) {
        this.free = free;
        this.waiting = [];
    }

    take() {
        if (this.free === 0) return new Promise((begin) => this.waiting.push(begin));
        this.free -= 1;
        return Promise.resolve();
    }

    give() {
        const begin = this.waiting.shift();
        if (begin) begin();
        else this.free += 1;
    }
}

// Who is signed on, and as what: `cashier`, or null for whoever has no more than seats. A front end that tells no role
// names a cashier so. Behind a wrong password it is a claim.
function whoOf({ status, headers }) {
    const person = status === 401 ? null : headers.get('x-person');
    return { person, role: headers.get('x-role') || (person === 'cashier' ? person : null) };
}

// `path` is what was asked. `page` names the page that the front end has now. `isUnknown`: nobody can say whether it
// was done. `body` is the object of a JSON answer, `bytes` are those of any answer.
function answerOf(path, reply, bytes) {
    const text = new TextDecoder().decode(bytes);
    return {
        path,
        status: reply.status,
        isDone: reply.ok,
        isUnknown: reply.status >= 500 || reply.status === 408,
        ...whoOf(reply),
        page: reply.headers.get('etag'),
        body: reply.headers.get('content-type') === 'application/json' ? JSON.parse(text) : null,
        text,
        bytes,
    };
}

const NO_ANSWER = { path: '', status: 0, isDone: false, isUnknown: true, person: null, role: null, page: null,
    body: null, text: '', bytes: new Uint8Array() };

// An address that was opened with a password in it can't be a base for paths, hence the origin.
async function ask(method, path, body, signal) {
    try {
        const headers = body === undefined ? {} : { 'content-type': 'text/plain' };
        const options = { method, body, headers, signal, cache: 'no-store', redirect: 'error' };
        const reply = await fetch(location.origin + path, options);
        return answerOf(path, reply, new Uint8Array(await reply.arrayBuffer()));
    } catch {
        return NO_ANSWER;
    }
}

// The firm's name, its bank and account: the lines of a file beside the page. None where there is no such file.
export async function askFirm() {
    const { status, text } = await ask('GET', '/page/firm.txt');
    return status === 200 ? text.split('\n').map((line) => line.trim()).filter(Boolean) : [];
}

// Who is signed on is told by the front end, with each answer. This one never reaches the desk.
export const askWho = () => ask('HEAD', '/');

export class Desk {
    constructor({ person, role = null, page = null }) {
        Object.assign(this, { person, role, page });
        this.asked = Date.now(); // when it was last asked who is signed on
        this.day = null; // the business day, once an answer has told it
        this.turns = new Turns(AT_ONCE);
        this.view = new AbortController(); // of the view that is read or shown now
    }

    // The view is left: what it still reads is asked no more, and waits for no turn.
    leave() {
        this.view.abort();
        this.view = new AbortController();
    }

    // What a view reads. Once the view is left nobody waits for the answer, and none comes.
    async read(path) {
        const { signal } = this.view;
        const answer = await this.readToTheEnd(path, signal);
        return signal.aborted ? never() : answer;
    }

    // What is read whether a view is left or not; asked twice where no answer came.
    async readToTheEnd(path, signal = undefined) {
        const answer = await this.inTurn('GET', path, undefined, signal);
        if (answer.person && !this.isOf(answer)) location.reload();
        return answer.status === 0 ? this.inTurn('GET', path, undefined, signal) : answer;
    }

    // What a view needs: the answer, or the view is the refusal.
    async get(path) {
        const answer = await this.read(path);
        if (!answer.isDone) throw new Refused(answer);
        return answer;
    }

    // What a view needs of each of many matters. The front end bounds how often a person asks in a second: a firm of
    // thousands of matters is read over some seconds.
    async getPatiently(path) {
        let answer = await this.read(path);
        while (answer.status === TOO_MUCH) {
            await second();
            answer = await this.read(path);
        }
        if (!answer.isDone) throw new Refused(answer);
        return answer;
    }

    isOf({ person, role }) {
        return person === this.person && role === this.role;
    }

    // Whether the front end has another page by now.
    isOld({ isDone, page }) {
        return isDone && page !== this.page;
    }

    // Asked now and then as views are drawn: whether a newer page has to be loaded.
    async isOldNow() {
        if (Date.now() - this.asked < SELDOM) return false;
        this.asked = Date.now();
        return this.isOld(await askWho());
    }

    // What changes something. A browser has one password for a site: where somebody else has signed on in another
    // window meanwhile, or nobody can say who it is, nothing is sent. Neither does an old page send to a newer desk.
    // Where no answer came it can be sent again, as what was sent and not answered.
    async post(path, body) {
        const now = await askWho();
        if (now.person && !this.isOf(now)) return { ...NO_ANSWER, isUnknown: false, other: now.person };
        if (!now.person) return { ...now, path };
        if (this.isOld(now)) return { ...NO_ANSWER, isUnknown: false, isOld: true };
        return this.inTurn('POST', path, body);
    }

    async inTurn(method, path, body, signal = undefined) {
        await this.turns.take();
        try {
            return signal?.aborted ? NO_ANSWER : await ask(method, path, body, signal);
        } finally {
            this.turns.give();
        }
    }
}

export const matterPath = (matter) => `/matters/${matter}`;
export const cardPath = (matter) => `/matters/${matter}/accounting`;
export const accountPath = (matter, from, to) => `/matters/${matter}/accounting/${from}/${to}`;
export const actsPath = (matter) => `/matters/${matter}/trail`;
export const entriesPath = (matter) => `/matters/${matter}/entries`;
export const entryPath = (matter, entry) => `/matters/${matter}/entries/${entry}`;
