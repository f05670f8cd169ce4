// What the page makes of a matter by its own modules, beside what the desk lists of it.

async function told(path) {
    const reply = await fetch(path);
    return reply.headers.get('content-type') === 'application/json' ? reply.json() : reply.text();
}

const LONG = '2000-01-01/2199-12-31';

async function compare(matter) {
    const { unshownIn, waitingOf } = await import('/page/lists.js');
    const { balanceOfMatter } = await import('/page/balance.js');
    const { readAccount } = await import('/page/reports.js');
    const { textsOf } = await import('/page/words.js');
    const head = await told(`/matters/${matter}`);
    const { entries } = await told(`/matters/${matter}/entries`);
    const alone = [];
    for (const { entry } of entries) alone.push(await told(`/matters/${matter}/entries/${entry}`));
    const { matters } = await told('/matters');
    const { waiting } = await told('/waiting');
    const end = balanceOfMatter(head, entries).at(-1);
    return {
        head,
        entries,
        alone,
        listed: matters.find((each) => each.matter === matter),
        waiting: waiting.filter(({ entry }) => entry.matter === matter),
        own: waitingOf(head, entries),
        end: end ? String(end.sum) : null,
        isUnshown: unshownIn(matters, waiting).matters.some((each) => each.matter === matter),
        account: readAccount(await told(`/matters/${matter}/accounting/${LONG}`)),
        texts: Object.fromEntries(entries.map((each) => [`M${matter}-${each.entry}`, textsOf(each)])),
    };
}
