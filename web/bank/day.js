// A day as a person types it.

import { NotUnderstood, dayOf } from './values.js';

const MONTHS = ['january', 'february', 'march', 'april', 'may', 'june', 'july', 'august', 'september', 'october',
    'november', 'december'];
const MONTH = '(?<name>[a-z]{3,9})[.]?';
const YEAR = '(?<year>[0-9]{4})';

// With numbers alone the month stands first, as in the United States, unless the year does.
const FORMS = [
    `${YEAR}([-/.])(?<month>[0-9]{1,2})\\2(?<day>[0-9]{1,2})`,
    `(?<month>[0-9]{1,2})([-/])(?<day>[0-9]{1,2})\\2${YEAR}`,
    '(?<month>[0-9]{1,2})/(?<day>[0-9]{1,2})/(?<short>[0-9]{2})',
    `${YEAR}(?<month>[0-9]{2})(?<day>[0-9]{2})`,
    `${MONTH} (?<day>[0-9]{1,2})(?:st|nd|rd|th)?,? ${YEAR}`,
    `(?<day>[0-9]{1,2})[- ]${MONTH}[- ,]+${YEAR}`,
].map((form) => new RegExp(`^${form}$`, 'u'));

// `aug`, `sept` and `august` are months by their beginning.
const monthOf = (name) => MONTHS.findIndex((month) => month.startsWith(name)) + 1;

// Such as 2026-08-01 of `8/1/2026`, `Aug 1, 2026` or `2026-8-1`; null where it is no day.
export function readTypedDay(typed) {
    const text = typed.trim().replace(/\s+/g, ' ').toLowerCase();
    const parts = FORMS.map((form) => form.exec(text)?.groups).find(Boolean);
    if (!parts) return null;
    const { year, short, month, name, day } = parts;
    try {
        return dayOf(Number(year ?? `20${short}`), month ? Number(month) : monthOf(name), Number(day));
    } catch (fault) {
        if (fault instanceof NotUnderstood) return null;
        throw fault;
    }
}
