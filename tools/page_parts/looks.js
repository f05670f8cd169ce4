// What is looked at in a view, in the browser: each function gives a list of what is not as it should be.

function linear(part) {
    const share = part / 255;
    return share <= 0.04045 ? share / 12.92 : ((share + 0.055) / 1.055) ** 2.4;
}

const light = ([red, green, blue]) => 0.2126 * linear(red) + 0.7152 * linear(green) + 0.0722 * linear(blue);

// Nothing for a colour that lets through what is behind it.
function colour(text) {
    const parts = text.match(/[\d.]+/g).map(Number);
    return parts.length < 4 || parts[3] > 0 ? parts.slice(0, 3) : null;
}

function groundOf(element) {
    for (let behind = element; behind; behind = behind.parentElement) {
        const found = colour(getComputedStyle(behind).backgroundColor);
        if (found) return found;
    }
    return [255, 255, 255];
}

function contrastOf(element) {
    const style = getComputedStyle(element);
    const ink = light(colour(element.namespaceURI.endsWith('svg') ? style.fill : style.color));
    const ground = light(groundOf(element));
    return (Math.max(ink, ground) + 0.05) / (Math.min(ink, ground) + 0.05);
}

// Texts with less contrast than 4.5 (WCAG 2.1, 1.4.3).
function paleTexts() {
    const pale = [];
    const texts = document.createTreeWalker(document.body, NodeFilter.SHOW_TEXT);
    while (texts.nextNode()) {
        const { parentElement: element, data } = texts.currentNode;
        const isSeen = data.trim() && element.checkVisibility() && !element.closest('.skip, script');
        if (isSeen && contrastOf(element) < 4.5) pale.push(data.slice(0, 30));
    }
    return pale;
}

function idsThatStandTwice() {
    const ids = [...document.querySelectorAll('[id]')].map(({ id }) => id);
    return ids.filter((id, i) => ids.indexOf(id) !== i);
}

// What is lower than 24 px, but for links within a text (WCAG 2.2, 2.5.8).
function smallControls() {
    const controls = [...document.querySelectorAll('a, button, input, select, summary')];
    return controls.filter((each) => each.checkVisibility() && each.getBoundingClientRect().height < 24
        && getComputedStyle(each).display !== 'inline').map((each) => each.textContent);
}

// What no person has written: how a script shows a value that is no text. It may stand in a text, a field or a name.
function rawValues() {
    const shown = [...document.querySelectorAll('input, textarea, [aria-label], a[href]')]
        .flatMap((each) => [each.value, each.getAttribute('aria-label'), each.getAttribute('href')]);
    return [document.title, document.body.textContent, ...shown].filter(Boolean)
        .flatMap((text) => text.match(/.{0,30}(\[object|\bundefined\b|\bNaN\b|\bnull\b).{0,20}/g) ?? []);
}

// The kinds of fields that there are, by HTML. As they stand here none is a label, which begins with a capital letter.
const KINDS = ['button', 'checkbox', 'color', 'date', 'datetime-local', 'email', 'file', 'hidden', 'image', 'month',
    'number', 'password', 'radio', 'range', 'reset', 'search', 'submit', 'tel', 'text', 'time', 'url', 'week'];

// Fields whose label is a kind of field, or whose kind is none.
function mislabelledFields() {
    const nameOf = (field) => field.getAttribute('aria-label') ?? field.labels?.[0]?.textContent ?? '';
    return [...document.querySelectorAll('input, select, textarea')]
        .map((field) => [nameOf(field).trim(), field.getAttribute('type') ?? 'text'])
        .filter(([name, kind]) => KINDS.includes(name) || !KINDS.includes(kind));
}

// By how many pixels the page is wider than the window.
const widthAside = () => Math.max(0, document.documentElement.scrollWidth - document.documentElement.clientWidth);

// How many reports are wider than their box.
const cutReports = () => [...document.querySelectorAll('.report')]
    .filter(({ scrollWidth, clientWidth }) => scrollWidth > clientWidth).length;

// How many rows of the list of matters are drawn.
function rowsOfMatters() {
    const tables = [...document.querySelectorAll('table')];
    const list = tables.find(({ caption }) => caption.textContent.startsWith('Matters'));
    return list ? list.tBodies[0].rows.length : 0;
}
