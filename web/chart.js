// The picture of a balance by day: a line in steps, since a balance stays as it is until the next movement.

import { amountOf, grouped } from './amounts.js';
import { greatestOf, sumText } from './balance.js';
import { drawn, el, money, p } from './elements.js';
import { dayNumber } from './names.js';
import { column, table } from './tables.js';

const ROWS = 100;
const TOP = '16';
const HEIGHT = '150';
const BOTTOM = '185';

// Between the lines across: 1, 2 or 5 times a power of ten, in cents, so that there are three to six lines.
function stepBelow(most) {
    const power = 10n ** BigInt(Math.max(0, String(most).length - 2));
    return [1n, 2n, 5n, 10n, 20n].map((times) => times * power).find((step) => step * 5n >= most);
}

function linesOf(most) {
    const step = stepBelow(most);
    const lines = [];
    for (let at = 0n; at <= most; at += step) lines.push(at);
    return lines;
}

// Where a day begins and a sum lies, in thousandths of the picture's width and height. Each day has its width, the last
// one too.
function scaleOf(points, until) {
    const first = dayNumber(points[0].day);
    const days = dayNumber(until) - first + 1;
    const most = greatestOf(points).sum;
    return {
        most,
        x: (day) => Math.round(((dayNumber(day) - first) * 1000) / days),
        y: (sum) => Number(most > 0n ? ((most - sum) * 1000n) / most : 1000n),
    };
}

function stepsOf(points, scale) {
    const [first, ...rest] = points;
    const steps = rest.map(({ day, sum }) => `H${scale.x(day)}V${scale.y(sum)}`);
    return `M0 ${scale.y(first.sum)}${steps.join('')}H1000`;
}

const PLOT = {
    x: '0', y: TOP, width: '100%', height: HEIGHT, viewBox: '0 0 1000 1000', preserveAspectRatio: 'none', class: 'plot',
};

// The line stretches with the page; what is written does not, so the two are drawn apart.
function plotOf(points, scale) {
    const steps = stepsOf(points, scale);
    return drawn('svg', PLOT,
        drawn('path', { class: 'area', d: `${steps}V1000H0Z` }),
        drawn('path', { class: 'line', d: steps }));
}

const OVER_PLOT = { x: '0', y: TOP, width: '100%', height: HEIGHT, class: 'over' };

const heightsOf = ({ most, y }) => linesOf(most).map((sum) => ({ sum, at: `${y(sum) / 10}%` }));

const rulesOf = (scale) => drawn('svg', OVER_PLOT, heightsOf(scale).map(({ at }) =>
    drawn('line', { class: 'rule', x1: '0', x2: '100%', y1: at, y2: at })));

const sumsOf = (scale) => drawn('svg', OVER_PLOT, heightsOf(scale).map(({ sum, at }) =>
    drawn('text', { x: '0', y: at, dy: '-4' }, grouped(amountOf(sum)).replace('.00', ''))));

function pictureOf(points, until) {
    const scale = scaleOf(points, until);
    const first = points[0].day;
    return drawn('svg', { class: 'chart', 'aria-hidden': 'true', width: '100%', height: '190' },
        rulesOf(scale),
        plotOf(points, scale),
        sumsOf(scale),
        drawn('text', { x: '0', y: BOTTOM }, first),
        until !== first && drawn('text', { x: '100%', y: BOTTOM, 'text-anchor': 'end' }, until));
}

// The same for those who don't look at pictures; a screen reader is given this and the words below the picture.
const figuresOf = (points) => el('details', {}, el('summary', {}, 'The same in figures'),
    table(points.length > ROWS ? `The last ${ROWS} days with a movement` : 'Days with a movement',
        [column('Day', 'tight'), column('Balance behind it', 'right')],
        points.slice(-ROWS).reverse().map((point) => [point.day, money(sumText(point))])));

// `until` is the day up to which the last sum stands. Nothing is drawn where nothing moved.
export function chart(title, points, until) {
    if (!points.length) return null;
    const last = points.at(-1);
    const end = until && until > last.day ? until : last.day;
    const most = greatestOf(points);
    const words = `From ${points[0].day} to ${end}: at most ${grouped(sumText(most))} (${most.day}), `
        + `at last ${grouped(sumText(last))}.`;
    return el('figure', {}, el('figcaption', {}, title), pictureOf(points, end), p(words), figuresOf(points));
}
