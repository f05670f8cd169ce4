// A new matter. The next number that is not listed is proposed; a purged one is not listed, and is refused.

import { change } from '../asks.js';
import { askAbout } from '../boxes.js';
import { matterPath } from '../desk.js';
import { doubtsOfLawyer } from '../doubts.js';
import { link, p } from '../elements.js';
import { form, labelField, matterField, personField } from '../forms.js';
import { readMatters } from '../lists.js';
import { matterAfter } from '../names.js';

export async function openMatter(page) {
    const matters = await readMatters(page);
    const open = matters.filter(({ closed }) => !closed).map(({ matter }) => matter);
    const made = form({
        fields: [
            matterField({
                words: 'Number',
                value: matterAfter(matters.map(({ matter }) => matter)),
                hint: 'Six digits; a purged number is not used again',
            }),
            labelField('client', 'Client'),
            personField('lawyer', 'First lawyer'),
        ],
        action: 'Open it',
        async submit({ matter, client, lawyer }, place) {
            page.say('Reading');
            const doubts = await doubtsOfLawyer(page, lawyer, open);
            page.say('');
            const send = () => change(page, { path: `${matterPath(matter)}/open`, fields: { client, lawyer },
                done: `Matter ${matter} is open.`, then: `#/m/${matter}`, place });
            if (doubts.length) askAbout(place, doubts, 'Open it all the same', send);
            else await send();
        },
    });
    const more = p('Many at once, or a day\u2019s deposits and payments: ',
        link('#/records', 'send a file of records'), '.');
    return { title: 'New matter', parts: [made, more] };
}
