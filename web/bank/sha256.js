// SHA-256 of bytes, in hexadecimal digits. The browser's own is not there on an address without TLS.

// The first bits of the parts behind the point of roots of primes, as the standard has it.
const PRIMES = [];
for (let at = 2; PRIMES.length < 64; at += 1) if (PRIMES.every((each) => at % each)) PRIMES.push(at);
const bitsOf = (root) => Math.floor((root - Math.floor(root)) * 2 ** 32);
const START = PRIMES.slice(0, 8).map((each) => bitsOf(Math.sqrt(each)));
const ROUNDS = PRIMES.map((each) => bitsOf(Math.cbrt(each)));

const turned = (word, by) => (word >>> by) | (word << (32 - by));

function padded(bytes) {
    const length = Math.ceil((bytes.length + 9) / 64) * 64;
    const made = new Uint8Array(length);
    made.set(bytes);
    made[bytes.length] = 0x80;
    const view = new DataView(made.buffer);
    view.setUint32(length - 8, Math.floor(bytes.length / 2 ** 29));
    view.setUint32(length - 4, (bytes.length * 8) >>> 0);
    return view;
}

function wordsOf(view, at) {
    const words = [];
    for (let i = 0; i < 16; i += 1) words.push(view.getUint32(at + i * 4));
    for (let i = 16; i < 64; i += 1) {
        const [near, far] = [words[i - 15], words[i - 2]];
        const one = turned(near, 7) ^ turned(near, 18) ^ (near >>> 3);
        const other = turned(far, 17) ^ turned(far, 19) ^ (far >>> 10);
        words.push((words[i - 16] + one + words[i - 7] + other) | 0);
    }
    return words;
}

function mixed(state, words) {
    let [a, b, c, d, e, f, g, h] = state;
    for (let i = 0; i < 64; i += 1) {
        const chosen = (e & f) ^ (~e & g);
        const most = (a & b) ^ (a & c) ^ (b & c);
        const one = (h + (turned(e, 6) ^ turned(e, 11) ^ turned(e, 25)) + chosen + ROUNDS[i] + words[i]) | 0;
        const other = ((turned(a, 2) ^ turned(a, 13) ^ turned(a, 22)) + most) | 0;
        [a, b, c, d, e, f, g, h] = [(one + other) | 0, a, b, c, (d + one) | 0, e, f, g];
    }
    return [a, b, c, d, e, f, g, h].map((each, i) => (each + state[i]) | 0);
}

export function sha256(bytes) {
    const view = padded(bytes);
    let state = START;
    for (let at = 0; at < view.byteLength; at += 64) state = mixed(state, wordsOf(view, at));
    return state.map((each) => (each >>> 0).toString(16).padStart(8, '0')).join('');
}
