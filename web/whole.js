// Plain and alone, so that it runs where a file of the page did not come: it says that the page is not whole, and loads
// it again, a few times by itself. `begun` is set by page.js once all files are there.

(() => {
    const QUIET = 20; // seconds in which nothing came
    const TIMES = 3; // how often it is loaded again without being asked
    const COUNT = 'gekuipo.loads';
    const isWhole = () => 'begun' in document.documentElement.dataset;
    const filesHere = () => performance.getEntriesByType('resource').length;
    let seen = 0;
    let quiet = 0;
    let failed = false;

    function count() {
        try {
            return Number(sessionStorage.getItem(COUNT) ?? 0);
        } catch {
            return TIMES; // a browser that keeps nothing would go on for ever
        }
    }

    function keep(loads) {
        try {
            sessionStorage.setItem(COUNT, String(loads));
        } catch {
            // nothing is kept
        }
    }

    function paragraph(...parts) {
        const made = document.createElement('p');
        made.append(...parts);
        return made;
    }

    function tell() {
        const again = document.createElement('a');
        again.href = '/';
        again.textContent = 'Load it again';
        again.addEventListener('click', (event) => {
            event.preventDefault();
            location.reload();
        });
        const box = document.createElement('div');
        box.className = 'box refused';
        box.setAttribute('role', 'alert');
        const loads = count();
        box.append(paragraph('The page is not whole: one of its files did not come. Nothing was sent.'),
            paragraph(loads < TIMES ? 'It is loaded again now. ' : 'It was loaded again some times. If it stays so, '
                + 'look at your connection, or tell the operator. ', again));
        const main = document.getElementById('main');
        main.replaceChildren(box);
        if (loads >= TIMES) {
            main.setAttribute('aria-busy', 'false');
            return;
        }
        keep(loads + 1);
        setTimeout(() => isWhole() || location.reload(), 3000);
    }

    // A file that was refused fails at once; one that does not come is waited for as long as others come.
    addEventListener('error', ({ target }) => { failed ||= target instanceof HTMLScriptElement; }, true);
    const clock = setInterval(() => {
        const now = filesHere();
        quiet = now === seen ? quiet + 1 : 0;
        seen = now;
        if (!isWhole() && !failed && quiet < QUIET) return;
        clearInterval(clock);
        if (isWhole()) keep(0);
        else tell();
    }, 1000);
})();
