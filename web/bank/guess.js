// What the columns of a bank's CSV may be, by its heading and its cells. A person looks at it, and says if it is so.

import { textOf } from '../csv.js';
import { CREDIT, DEBIT, FORMATS, NO_COLUMNS, dayOfCell, isSummary } from './columns.js';
import { NotUnderstood, stripped } from './values.js';

export const SEPARATORS = [[',', 'comma'], [';', 'semicolon'], ['\t', 'tab'], ['|', 'bar']];

const WITH_YEAR = /^[0-9]{4}[-/.][0-9]{1,2}[-/.][0-9]{1,2}$/;
const AMOUNT = /^[-+(]?\s*[$]?[-+]?[0-9][0-9.,]*[-)]?$/;

// What a column is, by its heading; the first that fits.
const HEADINGS = [
    ['date', /date|posted|booked/i],
    ['number', /check|cheque|slip|serial/i],
    ['reference', /reference|fitid|transaction id|bank ref/i],
    ['sign', /^\s*(dr|d)\s*[/|]?\s*(cr|c)\s*$|debit\s*(\/|or)\s*credit|credit\s*(\/|or)\s*debit/i],
    ['balance', /balance|running bal/i],
    ['out', /debit|withdraw|paid out|money out/i],
    ['in', /credit|deposit|paid in|money in/i],
    ['amount', /amount/i],
    ['descriptions', /desc|memo|payee|text|details|narrative|name/i],
];

// The separator that stands the most often in one of the first lines.
export function separatorOf(bytes) {
    const lines = textOf(bytes.subarray(0, 20000)).split(/[\r\n]+/).slice(0, 20);
    const widthBy = ([separator]) => Math.max(...lines.map((line) => line.split(separator).length));
    return SEPARATORS.reduce((best, each) => (widthBy(each) > widthBy(best) ? each : best))[0];
}

const isDay = (cell) => WITH_YEAR.test(cell) || /^[0-9]{1,2}[-/.][0-9]{1,2}[-/.][0-9]{2,4}$/.test(cell)
    || /^[0-9]{8}$/.test(cell) || /^[0-9]{1,2}[- ][a-z]{3}[- ][0-9]{2,4}$/i.test(cell)
    || /^[a-z]{3} [0-9]{1,2}, [0-9]{4}$/i.test(cell);

// The first row that has a day and an amount: those before are no lines.
const skipOf = (rows) => Math.max(0, rows.findIndex(({ cells }) =>
    cells.some((cell) => isDay(stripped(cell))) && cells.some((cell) => AMOUNT.test(stripped(cell)))));

// The row whose day is none in this way, by its place, or Infinity where all are days.
function rowWithoutDay(rows, place, format) {
    const at = rows.findIndex((row) => {
        if (isSummary(row)) return false;
        try {
            dayOfCell(stripped(row.cells[place] ?? ''), format);
            return false;
        } catch (fault) {
            if (fault instanceof NotUnderstood) return true;
            throw fault;
        }
    });
    return at === -1 ? Infinity : at;
}

// The ways in which all days of the file may be written; where there is none, that in which the most are.
export function formatsOf(rows, { skip, date }) {
    const lines = rows.slice(skip);
    const ways = ['', ...FORMATS].map((format) => ({ format, row: rowWithoutDay(lines, date, format) }));
    const most = ways.reduce((best, { row }) => Math.max(best, row), 0);
    const best = ways.filter(({ row }) => row === most).map(({ format }) => format);
    return most === Infinity ? best : best.slice(0, 1);
}

const hasCommaFor = (rows, places) => rows.some(({ cells }) =>
    places.some((place) => place !== null && /,[0-9]{1,2}[-)]?$/.test(stripped(cells[place] ?? ''))));

// The heading by which the columns of a file are kept: that of its last row before the lines.
export const headingOf = (rows, skip) => (skip > 0 ? (rows[skip - 1]?.cells ?? []).map(stripped).join('|')
    : `${rows[0]?.cells.length ?? 0} columns`);

// The column that says of each line whether it is a debit or a credit, where no amount has a sign.
function signOf(lines, { amount }) {
    const told = lines.filter((row) => !isSummary(row)).map(({ cells }) => cells.map(stripped));
    if (amount === null || !told.length || told.some((cells) => /[-(]/.test(cells[amount] ?? ''))) return null;
    const width = told[0].length;
    const places = Array.from({ length: width }, (_, place) => place).filter((place) => place !== amount);
    return places.find((place) => told.every((cells) =>
        DEBIT.test(cells[place] ?? '') || CREDIT.test(cells[place] ?? ''))) ?? null;
}

// The columns of a file without a heading, by their cells: the amount has cents, the number of a check digits alone.
function guessByCells(lines, columns) {
    const told = lines.map(({ cells }) => cells.map(stripped));
    const cellsAt = (place) => told.map((cells) => cells[place] ?? '');
    const places = Array.from({ length: told[0]?.length ?? 0 }, (_, place) => place)
        .filter((place) => !cellsAt(place).every((cell) => isDay(cell)));
    const isAmount = (cell) => AMOUNT.test(cell) && /[.,][0-9]{2}[-)]?$/.test(cell);
    columns.amount = places.find((place) => cellsAt(place).every(isAmount)) ?? null;
    columns.number = places.find((place) => cellsAt(place).some(Boolean)
        && cellsAt(place).every((cell) => /^[0-9]{0,8}$/.test(cell))) ?? null;
    columns.descriptions = places.filter((place) => cellsAt(place).some((cell) => /\p{L}{2}/u.test(cell)));
}

export function guessColumns(rows, separator) {
    const skip = skipOf(rows);
    const columns = { ...NO_COLUMNS, separator, skip, descriptions: [] };
    const heads = skip > 0 ? rows[skip - 1].cells : [];
    heads.forEach((head, place) => {
        const [name] = HEADINGS.find(([, form]) => form.test(head)) ?? [];
        if (name === 'descriptions') columns.descriptions.push(place);
        else if (name && columns[name] === null) columns[name] = place;
    });
    if (columns.amount !== null) Object.assign(columns, { out: null, in: null });
    const lines = rows.slice(skip);
    if (!heads.length) guessByCells(lines, columns);
    columns.sign = signOf(lines, columns);
    columns.descriptions = columns.descriptions.filter((place) => place !== columns.sign);
    columns.mark = hasCommaFor(lines, [columns.amount, columns.out, columns.in]) ? ',' : '.';
    const first = rows[skip]?.cells ?? [];
    columns.date ??= first.findIndex((cell) => isDay(stripped(cell)));
    columns.date = columns.date === -1 ? null : columns.date;
    if (columns.date !== null) columns.format = formatsOf(rows, columns)[0] ?? '';
    return columns;
}
