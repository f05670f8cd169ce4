// Amounts are texts, as the desk writes them: `18000.00`. They are compared as whole cents (BigInt), never as numbers
// with a point. Each sum is one that the desk told, but for those in the picture of a matter's ledger, of what is held
// together, and of what else is proposed from a fund.

export const cents = (amount) => BigInt(amount.replace('.', ''));

export const isMore = (one, other) => cents(one) > cents(other);

export const isNothing = (amount) => cents(amount) === 0n;

// Whole cents as the desk writes an amount.
export function amountOf(count) {
    const digits = String(count < 0n ? -count : count).padStart(3, '0');
    return `${count < 0n ? '-' : ''}${digits.slice(0, -2)}.${digits.slice(-2)}`;
}

// The opposite of an amount, which moves as much the other way.
export const opposite = (amount) => amountOf(-cents(amount));

export const sumOf = (amounts) => amountOf(amounts.reduce((sum, each) => sum + cents(each), 0n));

// `18000.00` as `18,000.00`.
export const grouped = (amount) => amount.replace(/\d(?=(\d{3})+\.)/g, '$&,');

// What was typed as the desk writes it, or null: `1,234.50`, `$20` and ` 20.00 ` are amounts, `1,50` and `.5` are not.
export function readPart(typed) {
    let text = typed.trim().replace(/^\$\s*/, '');
    if (/^\d{1,3}(,\d{3})+(\.\d\d)?$/.test(text)) text = text.replaceAll(',', '');
    if (/^\d+$/.test(text)) text += '.00';
    return /^(0|[1-9]\d{0,8})\.\d\d$/.test(text) ? text : null;
}

// The same, without 0.00.
export function readAmount(typed) {
    const amount = readPart(typed);
    return amount === '0.00' ? null : amount;
}
