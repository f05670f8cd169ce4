// The page before the desk: what stands behind # in the address is the view, which is read anew each time.

import { unanswered } from './asks.js';
import { failedBox, refusedBox } from './boxes.js';
import { Desk, Refused, askFirm, askWho } from './desk.js';
import { button, el, label, link, p } from './elements.js';
import { shown } from './names.js';
import { isColumns, keepShared } from './shared-columns.js';
import { Shelf } from './shelf.js';
import { account } from './views/account.js';
import { accounts } from './views/accounts.js';
import { another, anotherOfFirm, ownLines } from './views/another.js';
import { approvals } from './views/approvals.js';
import { clients } from './views/clients.js';
import { showEntry } from './views/entry.js';
import { showCard, showMatter } from './views/matter.js';
import { myMatters } from './views/matters.js';
import { month } from './views/month.js';
import { journalOf, outstanding } from './views/movements.js';
import { move, moveOn } from './views/moving.js';
import { newEntry } from './views/new-entry.js';
import { openMatter } from './views/opening.js';
import { overview } from './views/overview.js';
import { reconciliation } from './views/reconciliation.js';
import { records } from './views/records.js';
import { REPORT_NAMES, report } from './views/report.js';
import { seats } from './views/seats.js';
import { statement } from './views/statement.js';
import { matterTrail } from './views/trail.js';

// A matter whose number was typed without its zeros.
function showShort(page, short) {
    const no = short.padStart(6, '0');
    history.replaceState(null, '', `#/m/${no}`);
    return showMatter(page, no);
}

// A view is given the page and what its address names. It returns its title and parts, and may have something to do
// once it is drawn.
const VIEWS = [
    [/^#?\/?$/, (page) => (page.isCashier ? overview(page) : myMatters(page))],
    [/^#\/m\/(\d{6})$/, showMatter],
    [/^#\/m\/(\d{1,5})$/, showShort],
    [/^#\/m\/(\d{6})\/card$/, showCard],
    [/^#\/m\/(\d{6})\/account(?:\/(\d{4}-\d\d-\d\d)\/(\d{4}-\d\d-\d\d))?$/, account],
    [/^#\/m\/(\d{6})\/seats$/, seats],
    [/^#\/m\/(\d{6})\/e\/(\d{4})$/, showEntry],
    [/^#\/m\/(\d{6})\/e\/(\d{4})\/another$/, another],
    [/^#\/m\/(\d{6})\/move$/, move],
    [/^#\/m\/(\d{6})\/e\/(\d{4})\/move$/, moveOn],
    [/^#\/own$/, ownLines],
    [/^#\/own\/(\d{4}-\d\d-\d\d)\/(-?\d+\.\d\d)\/(.*)$/, anotherOfFirm],
    [/^#\/m\/(\d{6})\/(deposit|propose|fee|claim|dispute)(?:\/(fee|claim)\/(\d{4}))?$/, newEntry],
    [/^#\/open$/, openMatter],
    [/^#\/statement$/, statement],
    [/^#\/records$/, records],
    [new RegExp(`^#/report/(${REPORT_NAMES.join('|')})$`, 'u'), report],
    [/^#\/report\/(receipts|disbursements)(?:\/(\d{4}-\d\d-\d\d)\/(\d{4}-\d\d-\d\d))?$/, journalOf],
    [/^#\/report\/approvals(?:\/(\d{4}-\d\d-\d\d)\/(\d{4}-\d\d-\d\d))?$/, approvals],
    [/^#\/m\/(\d{6})\/trail$/, matterTrail],
    [/^#\/report\/outstanding(?:\/(\d{4}-\d\d-\d\d))?$/, outstanding],
    [/^#\/month(?:\/(\d{4}-\d\d-\d\d))?$/, month],
    [/^#\/reconciliation(?:\/(\d{4}-\d\d-\d\d))?$/, reconciliation],
    [/^#\/clients(?:\/(\d{4}-\d\d-\d\d))?$/, clients],
    [/^#\/accounts(?:\/(\d{4}-\d\d-\d\d)\/(\d{4}-\d\d-\d\d))?$/, accounts],
];

const PLACES = [
    ['#/', 'Overview'],
    ['#/open', 'New matter'],
    ['#/statement', 'Bank statement'],
    ['#/reconciliation', 'Reconciliation'],
    ['#/month', 'Month\u2019s end'],
    ['#/report/trial-balance', 'Reports'],
];

const nowhere = () => ({ title: 'No such page', parts: [p(link('#/', 'To the overview'))] });

const byId = (id) => document.getElementById(id);

// What stands at the foot of each sheet of paper, so that one alone says whose it is and what of.
const foot = new CSSStyleSheet();
document.adoptedStyleSheets = [foot];

const cssText = (text) => `"${text.replace(/["\\\p{Cc}]/gu, (each) => `\\${each.codePointAt(0).toString(16)} `)}"`;

const tellAtFoot = (text) =>
    foot.replaceSync(`@media print { @page { @bottom-left { content: ${cssText(text)}; font-size: 8pt; } } }`);

class Page {
    constructor(who) {
        this.person = who.person;
        this.isCashier = who.role === 'cashier'; // one of several, maybe
        this.desk = new Desk(who);
        this.shelf = new Shelf(who.person);
        this.firm = []; // its name, its bank and account, for what is printed
        this.sought = ''; // what was last looked for among receipts and disbursements
        this.draws = 0;
        this.told = null; // what the last change was answered, for the next view
    }

    say(words) {
        byId('said').textContent = words;
    }

    go(address, told = null) {
        this.told = told;
        if (location.hash === address) this.draw();
        else location.hash = address;
    }

    // A view that was left while it was read is not drawn, and reads no more.
    async draw() {
        this.draws += 1;
        const mine = this.draws;
        const isStill = () => mine === this.draws;
        this.desk.leave();
        byId('main').setAttribute('aria-busy', 'true');
        const late = setTimeout(() => isStill() && this.say('Reading'), 400);
        const [view, isOld] = await Promise.all([this.viewOf(location.hash), mine > 1 && this.desk.isOldNow()]);
        clearTimeout(late);
        if (!isStill()) return;
        if (isOld) {
            location.reload();
            return;
        }
        this.show(view, mine > 1);
        try {
            await view.later?.(isStill);
        } catch (fault) {
            if (isStill()) this.show(this.failed(fault), true);
        }
    }

    async viewOf(address) {
        const views = VIEWS.map(([form, view]) => [view, form.exec(address)]);
        const [make, found] = views.find(([, match]) => match) ?? [nowhere, []];
        try {
            return await make(this, ...found.slice(1));
        } catch (fault) {
            return this.failed(fault);
        }
    }

    // What is shown in the place of a view that was refused, or that has a fault.
    failed(fault) {
        const isRefused = fault instanceof Refused;
        if (!isRefused) console.error(fault);
        const box = isRefused ? refusedBox(fault.answer, this.person) : failedBox(fault);
        return { title: 'Not shown', parts: [box, p(button('Read again', () => this.draw()))] };
    }

    // The heading has the focus, or the box that tells what was done.
    show({ title, parts }, isMoved) {
        const { told } = this;
        this.told = null;
        const head = el('h1', { tabindex: '-1' }, title);
        const main = byId('main');
        main.replaceChildren(head, ...[told, unanswered(this), parts].flat(Infinity).filter(Boolean));
        main.setAttribute('aria-busy', 'false');
        document.title = `${head.textContent} \u2013 Gekuipo`;
        tellAtFoot([...this.firm.slice(0, 1).map(shown), head.textContent].join(' \u00b7 '));
        this.showPlaces();
        this.say('');
        if (isMoved) (told ?? head).focus();
    }

    showPlaces() {
        const at = location.hash || '#/';
        const isHere = (href) => at === href || (href !== '#/' && at.startsWith(href.replace('trial-balance', '')));
        const places = this.isCashier ? PLACES : [['#/', 'My matters']];
        byId('nav').replaceChildren(el('ul', {}, places.map(([href, name]) =>
            el('li', {}, el('a', { href, 'aria-current': isHere(href) ? 'page' : null }, name)))));
        const { day } = this.desk;
        const as = this.isCashier && this.person !== 'cashier' ? ', cashier' : '';
        byId('who').replaceChildren(this.person, as, day ? ` \u00b7 ${day}` : '');
        byId('printed').textContent = `Printed by ${this.person}${day ? `, business day ${day}` : ''}`;
    }
}

function skip(event) {
    event.preventDefault();
    byId('main').focus();
}

const UNNAMED = { status: 401, isDone: false, body: { name: 'NoCaller', refusal: 6 } };

async function begin() {
    document.documentElement.dataset.begun = ''; // for whole.js: all files are there
    const answer = await askWho();
    if (!answer.isDone || !answer.person) {
        // The front end names nobody whose user name is none of a person; the desk would refuse whatever is asked so.
        const told = answer.isDone ? { ...answer, ...UNNAMED } : answer;
        byId('main').replaceChildren(el('h1', {}, 'Gekuipo'), refusedBox(told, ''));
        byId('main').setAttribute('aria-busy', 'false');
        return;
    }
    const page = new Page(answer);
    const told = await askFirm();
    page.firm = told.filter((line) => !isColumns(line));
    keepShared(page.shelf, told);
    byId('firm').replaceChildren(...page.firm.map((line) => el('span', {}, label(line))));
    window.addEventListener('hashchange', () => page.draw());
    byId('skip').addEventListener('click', skip);
    await page.draw();
}

begin().catch((fault) => {
    console.error(fault);
    byId('main').replaceChildren(el('h1', {}, 'Gekuipo'), failedBox(fault));
    byId('main').setAttribute('aria-busy', 'false');
});
