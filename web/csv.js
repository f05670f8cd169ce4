// The records of a file in CSV, as the desk reads them: an empty line is none, and a double quote opens a field at its
// first byte alone. A text here has a character for each byte of the file, so it goes back as the bytes that it was.

const MARK = '\u00ef\u00bb\u00bf'; // the byte order mark
const AT_ONCE = 0x8000;

export function textOf(bytes) {
    const parts = [];
    for (let at = 0; at < bytes.length; at += AT_ONCE) {
        parts.push(String.fromCharCode(...bytes.subarray(at, at + AT_ONCE)));
    }
    return parts.join('');
}

export function bytesOf(text) {
    const bytes = new Uint8Array(text.length);
    for (let at = 0; at < text.length; at += 1) bytes[at] = text.charCodeAt(at);
    return bytes;
}

const decoder = new TextDecoder('utf-8', { ignoreBOM: true });

// The words of a field, for a person.
export const wordsOf = (value) => (/^[\0-\x7f]*$/.test(value) ? value : decoder.decode(bytesOf(value)));

// What stands between double quotes from here on, and where it ends: behind them, or at the end of the text.
function quotedAt(text, from) {
    const parts = [];
    let at = from + 1;
    for (;;) {
        const quote = text.indexOf('"', at);
        if (quote === -1) return { value: parts.join('') + text.slice(at), to: text.length };
        parts.push(text.slice(at, quote));
        if (text[quote + 1] !== '"') return { value: parts.join(''), to: quote + 1 };
        parts.push('"');
        at = quote + 2;
    }
}

// The field that begins here: its value, and its place in the text.
function fieldAt(text, from) {
    const quoted = text[from] === '"' ? quotedAt(text, from) : { value: '', to: from };
    const end = /[,\r\n]/g;
    end.lastIndex = quoted.to;
    const to = end.exec(text)?.index ?? text.length;
    return { value: quoted.value + text.slice(quoted.to, to), from, to };
}

function recordAt(text, from) {
    const fields = [fieldAt(text, from)];
    while (text[fields.at(-1).to] === ',') fields.push(fieldAt(text, fields.at(-1).to + 1));
    return fields;
}

// A record is a list of its fields.
export function recordsOf(text) {
    const records = [];
    let at = text.startsWith(MARK) ? MARK.length : 0;
    while (at < text.length) {
        if (text[at] === '\n' || text[at] === '\r') at += 1;
        else {
            const fields = recordAt(text, at);
            records.push(fields);
            at = fields.at(-1).to;
        }
    }
    return records;
}
