// A bank's file as the page asks about it: what it is, what its columns may be, and what is read by them. All that is
// answered can be sent from one thread to another.

import { NO_COLUMNS, readRows } from './columns.js';
import { kindOf, readLines, unreadFormat } from './file.js';
import { formatsOf, guessColumns, headingOf, separatorOf } from './guess.js';
import { rowsOf } from './table.js';
import { NotUnderstood, decoded } from './values.js';

// So much of a CSV is shown for its columns to be named.
const ROWS = 3;
const LOOKED_AT = 20;

function check({ date, amount, out, in: paidIn }) {
    if (date === null) throw new NotUnderstood('no column is the day');
    if ([amount, out, paidIn].every((place) => place === null)) throw new NotUnderstood('no column is an amount');
}

export class Reading {
    constructor(bytes) {
        const kind = unreadFormat(bytes) ?? kindOf(bytes);
        Object.assign(this, { bytes, kind, rows: [], separator: null, fault: null });
    }

    // The rows by a separator; none where they can't be read, and why.
    part(separator) {
        if (this.separator === separator) return;
        Object.assign(this, { separator, rows: [], fault: null });
        try {
            this.rows = rowsOf(decoded(this.bytes), separator);
        } catch (fault) {
            if (!(fault instanceof NotUnderstood)) throw fault;
            this.fault = fault;
        }
    }

    // The columns as they were told of another file with this heading, or a guess.
    begin(known) {
        this.part(separatorOf(this.bytes));
        const guessed = guessColumns(this.rows, this.separator);
        const kept = known.get(headingOf(this.rows, guessed.skip));
        return kept ? { ...NO_COLUMNS, ...kept } : guessed;
    }

    // What the page shows of a CSV. `columns` are null at first; then they are guessed, or `known` by their heading.
    look(columns, known) {
        if (this.kind !== 'csv') return this.answer({}, () => readLines(this.bytes));
        const own = columns ?? this.begin(known);
        this.part(own.separator);
        const { rows } = this;
        const isSkipped = own.skip > 0;
        return this.answer({
            columns: own,
            heading: headingOf(rows, own.skip),
            isKept: columns === null && known.has(headingOf(rows, own.skip)),
            heads: isSkipped ? rows[own.skip - 1]?.cells ?? [] : [],
            width: rows.slice(0, LOOKED_AT).reduce((width, { cells }) => Math.max(width, cells.length), 0),
            examples: rows.slice(own.skip, own.skip + ROWS).map(({ cells }) => cells),
            formats: own.date === null ? [] : formatsOf(rows, own),
        }, () => {
            if (this.fault) throw this.fault;
            check(own);
            return readRows(rows, own);
        });
    }

    // With what is read, or why nothing is.
    answer(told, read) {
        const whole = { columns: null, ...told, kind: this.kind, refused: null, read: null };
        try {
            return { ...whole, read: read() };
        } catch (fault) {
            if (!(fault instanceof NotUnderstood)) throw fault;
            return { ...whole, refused: fault.message };
        }
    }
}
