// The seats of a matter, which the cashier gives and takes.

import { change } from '../asks.js';
import { askAbout, askFirst } from '../boxes.js';
import { matterPath } from '../desk.js';
import { doubtsOfLawyer } from '../doubts.js';
import { el, p } from '../elements.js';
import { choiceField, form, personField } from '../forms.js';
import { readMatters } from '../lists.js';
import { column, table } from '../tables.js';
import { backTo } from './matter.js';

const GIVE = 'Give access';

// A client may have access to this matter alone; a lawyer mostly has it to others.
async function doubtsOf(page, no, { person, role }) {
    if (role !== 'lawyer') return [];
    const others = (await readMatters(page)).filter(({ matter, closed }) => !closed && matter !== no);
    return doubtsOfLawyer(page, person, others.map(({ matter }) => matter));
}

export async function seats(page, no) {
    const { body: matter } = await page.desk.get(matterPath(no));
    const path = `${matterPath(no)}/seats`;
    const then = `#/m/${no}/seats`;
    const place = el('div', {});
    const drop = (person) => change(page,
        { path: `${path}/drop`, fields: { person }, done: `${person} has no access any more.`, then, place });
    const take = (person) => askFirst(`Take the access of ${person} away`, {
        question: `Take the access of ${person} to matter ${no} away? ${person} sees nothing of it any more.`,
        yes: 'Take it away',
        act: () => drop(person),
    });
    const roles = [['client', 'client'], ['lawyer', 'lawyer']];
    const give = form({
        title: GIVE,
        fields: [personField('person', 'Person'), choiceField('role', 'Role', roles)],
        action: GIVE,
        async submit(fields, at) {
            page.say('Reading');
            const doubts = await doubtsOf(page, no, fields);
            page.say('');
            const send = () => change(page,
                { path, fields, done: `${fields.person} has access as ${fields.role}.`, then, place: at });
            if (doubts.length) askAbout(at, doubts, `${GIVE} all the same`, send);
            else await send();
        },
    });
    const parts = [
        place,
        table('Who has access', [column('Person', 'tight'), column('Role', 'tight'), column('Change')],
            matter.seats.map(({ person, role }) => [person, role, take(person)])),
        give,
        p('Send the person this address: ', el('code', {}, `${location.origin}/#/m/${no}`)),
        backTo(no),
    ];
    return { title: `Access to matter ${no}`, parts };
}
