// Forms that ask for a day, or for the first and the last day of a period.

import { form, tellWrong } from '../forms.js';
import { readDay } from '../names.js';
import { knownClosings } from './closings.js';

export const dayField = (name, words, value) =>
    ({ name, words, type: 'date', value, read: readDay, wrong: 'Choose a day.' });

// The month up to the last closing balance that this browser knows, else to today; empty where neither is known.
export function lastPeriod(page) {
    const last = knownClosings(page)[0] ?? page.desk.day ?? '';
    return [last && `${last.slice(0, 8)}01`, last];
}

// The view of a period stands at the address, before its days.
export const periodForm = ({ page, from, to, action, address }) => form({
    fields: [dayField('from', 'The first day', from), dayField('to', 'The last day', to)],
    action,
    submit(values, place) {
        if (values.to < values.from) return tellWrong(place, 'to', 'That is before the first day.');
        return page.go(`${address}/${values.from}/${values.to}`);
    },
});
