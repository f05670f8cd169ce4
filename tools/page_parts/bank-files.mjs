// What the page's reader makes of bank's files: for each line of standard input, {"data": BASE64, "close": DAY or null,
// "balance": CENTS or null, "columns": COLUMNS, `true` for those that the page guesses, or null}, a line
// {"text": STATEMENT, "notes": NOTES} or {"refused": REASON}.

import { createInterface } from 'node:readline';

import { readBankFile } from '../../web/bank/file.js';
import { Reading } from '../../web/bank/reading.js';
import { csvOf } from '../../web/bank/statement.js';
import { NotUnderstood } from '../../web/bank/values.js';

function answerTo({ data, close, balance, columns }) {
    const bytes = new Uint8Array(Buffer.from(data, 'base64'));
    try {
        const own = columns === true ? new Reading(bytes).look(null, new Map()).columns : columns;
        const read = readBankFile(bytes, { close, balance: balance === null ? null : BigInt(balance), columns: own });
        return { text: csvOf(read), notes: read.notes };
    } catch (fault) {
        return fault instanceof NotUnderstood ? { refused: fault.message } : { fault: String(fault.stack) };
    }
}

for await (const line of createInterface({ input: process.stdin })) {
    process.stdout.write(`${JSON.stringify(answerTo(JSON.parse(line)))}\n`);
}
