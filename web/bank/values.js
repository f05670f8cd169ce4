// The values of a statement's lines, from the texts of a bank's file: amounts, days, references and words. All of this
// folder reads a bank's file as examples/operations/bank-to-statement does, and tools/bank-files compares the two.

import { sha256 } from './sha256.js';

// What an import takes at most: cents with 16 digits before the point, years, bytes of a reference and of a text.
const MAX_CENTS = 10n ** 18n - 1n;
const MIN_YEAR = 2000;
const MAX_YEAR = 2199;
const MAX_REFERENCE_BYTES = 64;
const MAX_TEXT_BYTES = 1000;

// White space, as in the script; what JavaScript calls so is a little else.
export const SPACE = '[\\t-\\r\\x1c-\\x20\\x85\\xa0\\u1680\\u2000-\\u200a\\u2028\\u2029\\u202f\\u205f\\u3000]';
const IS_SPACE = new RegExp(`^${SPACE}$`, 'u');
// What stands between white space and control characters.
const WORD = new RegExp(`[^\\x00-\\x1f\\x7f-\\x9f${SPACE.slice(1, -1)}]+`, 'gu');
// Of four decimals or more those behind the second are zeros. Of three nobody can say: they may be thousands.
const AMOUNT = /^([-+]?)([0-9]{1,16})(?:[.,](?:([0-9]{0,2})|([0-9]{2})0{2,}))?$/;
// What a check's or a slip's number stands behind, in a bank's words.
const NUMBER_WORDS =
    '(?<![\\p{L}\\p{N}_])(check|chk|ck|cheque|slip|id number)[^a-z0-9]*((no|num|number)[^a-z0-9]*)?';

const encoder = new TextEncoder();

// What in the bank's file is not understood. Nothing is taken of it then.
export class NotUnderstood extends Error {}

// Has what is not understood tell this place of the file.
export function within(place, read) {
    try {
        return read();
    } catch (fault) {
        if (!(fault instanceof NotUnderstood)) throw fault;
        throw new NotUnderstood(`${place}: ${fault.message}`);
    }
}

// Without the white space at both ends. From there on, since a form that looks for the last of it begins anew at each.
export function stripped(text) {
    let [from, to] = [0, text.length];
    while (from < to && IS_SPACE.test(text[from])) from += 1;
    while (to > from && IS_SPACE.test(text[to - 1])) to -= 1;
    return text.slice(from, to);
}

// The words of a text with one blank between them, until they have more than so many letters.
export function inOneLine(text, most = Infinity) {
    const words = [];
    let length = 0;
    for (const [word] of text.matchAll(WORD)) {
        words.push(word);
        length += word.length + 1;
        if (length > most) break;
    }
    return words.join(' ');
}

// The characters of Windows-1252 from 0x80 on; five bytes are none.
const FROM_80 = '\u20ac\0\u201a\u0192\u201e\u2026\u2020\u2021\u02c6\u2030\u0160\u2039\u0152\0\u017d\0'
    + '\0\u2018\u2019\u201c\u201d\u2022\u2013\u2014\u02dc\u2122\u0161\u203a\u0153\0\u017e\u0178';

// Null where a byte is none of them.
export function fromWindows(bytes) {
    const parts = [];
    for (const byte of bytes) {
        const character = byte >= 0x80 && byte < 0xa0 ? FROM_80[byte - 0x80] : String.fromCharCode(byte);
        if (character === '\0' && byte !== 0) return null;
        parts.push(character);
    }
    return parts.join('');
}

// The text of a file: in UTF-8, or else in Windows-1252.
export function decoded(bytes) {
    try {
        return new TextDecoder('utf-8', { fatal: true }).decode(bytes);
    } catch {
        const text = fromWindows(bytes);
        if (text === null) throw new NotUnderstood('the text is neither UTF-8 nor Windows-1252');
        return text;
    }
}

const hexadecimal = (code, digits) => code.toString(16).padStart(digits, '0');

function escaped(letter) {
    const code = letter.codePointAt(0);
    if (code <= 0xff) return `\\x${hexadecimal(code, 2)}`;
    return code <= 0xffff ? `\\u${hexadecimal(code, 4)}` : `\\U${hexadecimal(code, 8)}`;
}

// A text of the bank's file as a message shows it: in one line, and no more than its front.
export function quoted(text) {
    const letters = [...inOneLine(text)];
    const front = letters.length <= 40 ? letters.join('') : `${letters.slice(0, 40).join('')}..`;
    const mark = front.includes("'") && !front.includes('"') ? '"' : "'";
    const inside = front.replaceAll('\\', '\\\\').replaceAll(mark, `\\${mark}`)
        .replace(/(?! )[\p{C}\p{Z}]/gu, escaped);
    return `${mark}${inside}${mark}`;
}

// The cents of an amount, which has a point or a comma before at most two digits, and no other mark.
export function centsOf(text) {
    const parts = AMOUNT.exec(text);
    if (!parts) throw new NotUnderstood(`${quoted(text)} is no amount`);
    const [, sign, dollars, rest, front] = parts;
    const cents = BigInt(dollars) * 100n + BigInt((rest ?? front ?? '').padEnd(2, '0'));
    return sign === '-' ? -cents : cents;
}

// The text of an amount, as the statement has it.
export function amountText(cents) {
    const size = cents < 0n ? -cents : cents;
    if (size > MAX_CENTS) throw new NotUnderstood(`an amount of ${size / 100n} has more than 16 digits`);
    return `${cents < 0n ? '-' : ''}${size / 100n}.${String(size % 100n).padStart(2, '0')}`;
}

// The text of a day, as the statement has it.
export function dayOf(year, month, day) {
    const text = `${String(year).padStart(4, '0')}-${String(month).padStart(2, '0')}-${String(day).padStart(2, '0')}`;
    const date = new Date(0);
    date.setUTCFullYear(year, month - 1, day);
    const isDay = date.getUTCFullYear() === year && date.getUTCMonth() === month - 1 && date.getUTCDate() === day;
    if (!isDay || year < MIN_YEAR || year > MAX_YEAR) {
        throw new NotUnderstood(`${text} is no day from ${MIN_YEAR} to ${MAX_YEAR}`);
    }
    return text;
}

function dayBeside(day, by) {
    const [year, month, date] = day.split('-').map(Number);
    const next = new Date(Date.UTC(year, month - 1, date + by));
    return dayOf(next.getUTCFullYear(), next.getUTCMonth() + 1, next.getUTCDate());
}

export const dayAfter = (day) => dayBeside(day, 1);
export const dayBefore = (day) => dayBeside(day, -1);

export const sumText = (text, digits) => sha256(encoder.encode(text)).slice(0, digits);

// A reference of the bank; where a statement can't have it, a sum of it, which is the same each time.
export const bankRefOf = (text) => (text.length <= MAX_REFERENCE_BYTES && /^[ -~]*$/.test(text) ? text
    : `sha256:${sumText(text, 40)}`);

// No more bytes of a text than a statement has, and no part of a character.
function cut(text) {
    const bytes = encoder.encode(text);
    if (bytes.length <= MAX_TEXT_BYTES) return text;
    let end = MAX_TEXT_BYTES;
    while ((bytes[end] & 0xc0) === 0x80) end -= 1;
    return new TextDecoder('utf-8', { ignoreBOM: true }).decode(bytes.subarray(0, end));
}

// The bank's words in one line. What stands in a part before is not said again, nor what is behind the end.
export function wordsOf(parts) {
    const told = [];
    let length = 0;
    for (const part of parts) {
        const words = inOneLine(part ?? '', MAX_TEXT_BYTES + 1);
        if (!told.some((other) => other.includes(words))) {
            told.push(words);
            length += words.length;
        }
        if (length > MAX_TEXT_BYTES) break;
    }
    return stripped(cut(told.filter(Boolean).join(' ')));
}

const literally = (text) => text.replace(/[\\^$.*+?()[\]{}|/]/g, '\\$&');

// The words with the number of the check or slip behind a word that says so, unless it stands there already.
export function withNumber(text, told) {
    const number = stripped(told).replace(/^0+/, '');
    if (!number) return text;
    if (number.length > MAX_TEXT_BYTES) return wordsOf([text, `check ${number}`]);
    const isThere = new RegExp(`${NUMBER_WORDS}0*${literally(number)}(?![0-9])`, 'iu').test(text);
    return isThere ? text : wordsOf([text, `check ${number}`]);
}
