// The columns of a bank's CSV, for every browser of a firm: each is a line of FIRM.txt, behind the firm's name.

import { COLUMNS } from './shelf.js';

const MARK = 'columns ';

export const isColumns = (line) => line.startsWith(MARK);

// A heading and its columns; null where the line was changed by hand and is none.
function readLine(line) {
    try {
        const [heading, columns] = JSON.parse(line.slice(MARK.length));
        return typeof heading === 'string' && Array.isArray(columns?.descriptions) ? [heading, columns] : null;
    } catch {
        return null;
    }
}

// What this browser was told of a heading goes before what the firm's file has.
export function keepShared(shelf, lines) {
    const shared = lines.filter(isColumns).map(readLine).filter(Boolean);
    if (shared.length) shelf.write(COLUMNS, [...new Map([...shared, ...shelf.read(COLUMNS)])]);
}

// The lines that the operator puts behind those of FIRM.txt; empty where this browser knows no columns.
export const columnsText = (shelf) => shelf.read(COLUMNS).map((each) => `${MARK}${JSON.stringify(each)}\n`).join('');
