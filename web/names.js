// Labels, persons, numbers and days: what was typed as the desk takes it (or null), and how a label is shown.

// A label has 1 to 80 bytes and no control character. It is sent again as it was, so its form is fixed here.
export function readLabel(typed) {
    const text = typed.normalize('NFC').trim();
    const bytes = new TextEncoder().encode(text).length;
    const isWhole = !/[\u0000-\u001f\u007f-\u009f]|\p{Surrogate}/u.test(text);
    return bytes >= 1 && bytes <= 80 && isWhole ? text : null;
}

// No more of a text than a label has, and no part of a character.
export function cutLabel(text) {
    let cut = text;
    while (new TextEncoder().encode(cut).length > 80) cut = [...cut].slice(0, -1).join('');
    return cut.trim();
}

export function readPerson(typed) {
    const text = typed.trim();
    return /^[a-z0-9.-]{1,32}$/.test(text) && text !== 'cashier' ? text : null;
}

// `12` is matter 000012.
export function readMatter(typed) {
    const text = typed.trim();
    return /^\d{1,6}$/.test(text) && /[1-9]/.test(text) ? text.padStart(6, '0') : null;
}

export function readDay(typed) {
    const text = typed.trim();
    return /^2[01]\d\d-\d\d-\d\d$/.test(text) ? text : null;
}

const FIRST_DAY = '2000-01-01'; // of the desk's calendar

// The number of the entry behind so many.
export const entryAfter = (count) => String(count + 1).padStart(4, '0');

// The first number behind all that are taken; empty where there is none left.
export function matterAfter(taken) {
    const next = Math.max(0, ...taken.map(Number)) + 1;
    return next > 999999 ? '' : String(next).padStart(6, '0');
}

export function dayBefore(day) {
    const date = new Date(`${day}T00:00:00Z`);
    date.setUTCDate(date.getUTCDate() - 1);
    return date.toISOString().slice(0, 10);
}

export const dayNumber = (day) => Date.parse(`${day}T00:00:00Z`) / 86400000;
export const daysBetween = (one, other) => Math.abs(dayNumber(one) - dayNumber(other));

// The first and the last day of the five years up to a day. No matter that was closed in them can be purged yet.
export function fiveYearsTo(day) {
    const [year, month, date] = day.split('-').map(Number);
    const from = new Date(Date.UTC(year - 5, month - 1, date)).toISOString().slice(0, 10);
    return [from > FIRST_DAY ? from : FIRST_DAY, day];
}

// Today by the browser's clock.
export const clockDay = () => new Intl.DateTimeFormat('sv-SE').format(new Date());

// A name without marks and capitals, and without the form of a firm behind it: two writings of one name are one then.
const plainName = (name) => name.normalize('NFKD').toLowerCase().replaceAll('&', ' and ')
    .replace(/[^\p{L}\p{N}]+/gu, ' ').trim().replace(/ (p ?l ?l ?c|l ?l ?p|l ?l ?c|l ?p|p ?c|p ?a|ltd|inc)$/u, '');

export const isSameName = (one, other) => plainName(one) !== '' && plainName(one) === plainName(other);

const codePoint = (letter) => letter.codePointAt(0).toString(16).toUpperCase().padStart(4, '0');

// A label as it is shown: characters that draw nothing, or turn the text around, are named instead.
export const shown = (label) =>
    label.replace(/[\p{Cf}\p{Zl}\p{Zp}\p{Co}\p{Cn}]/gu, (letter) => `\u2039U+${codePoint(letter)}\u203a`);

// Whether Latin letters stand beside letters that can look like them.
export const isMixed = (label) =>
    /\p{Script=Latin}/u.test(label) && /[\p{Script=Cyrillic}\p{Script=Greek}\p{Script=Armenian}]/u.test(label);
