// Reads XML as far as a bank's statement has it: a tree of elements by their names without a namespace. What is not
// well-formed is refused, and so is a document type, which no bank's file has.

import { NotUnderstood, fromWindows } from './values.js';

const NAME_START = ':A-Z_a-z\\xc0-\\xd6\\xd8-\\xf6\\xf8-\\u02ff\\u0370-\\u037d\\u037f-\\u1fff\\u200c\\u200d'
    + '\\u2070-\\u218f\\u2c00-\\u2fef\\u3001-\\ud7ff\\uf900-\\ufdcf\\ufdf0-\\ufffd';
const NAME = `[${NAME_START}][${NAME_START}\\-.0-9\\xb7\\u0300-\\u036f\\u203f\\u2040]*`;
const SPACE = '[ \\t\\n]';
const ATTRIBUTE = new RegExp(`${SPACE}+(${NAME})${SPACE}*=${SPACE}*(?:"([^"<]*)"|'([^'<]*)')`, 'uy');
const OPEN = new RegExp(`<(${NAME})`, 'uy');
const OPEN_END = new RegExp(`${SPACE}*(/?)>`, 'uy');
const CLOSE = new RegExp(`</(${NAME})${SPACE}*>`, 'uy');
const VERBATIM = /<!\[CDATA\[([\s\S]*?)\]\]>/uy;
const INSTRUCTION = new RegExp(`<\\?(${NAME})(?:${SPACE}[\\s\\S]*?)?\\?>`, 'uy');
const TEXT = /[^<]+/uy;
const DECLARATION = new RegExp(`^<\\?xml${SPACE}+version${SPACE}*=${SPACE}*("[A-Za-z0-9._-]+"|'[A-Za-z0-9._-]+')`
    + `(?:${SPACE}+encoding${SPACE}*=${SPACE}*(?:"([A-Za-z][A-Za-z0-9._-]*)"|'([A-Za-z][A-Za-z0-9._-]*)'))?`
    + `(?:${SPACE}+standalone${SPACE}*=${SPACE}*(?:"(?:yes|no)"|'(?:yes|no)'))?${SPACE}*\\?>`, 'u');
const IS_NAME = new RegExp(`^${NAME}$`, 'u');
const ENTITY = /&(?:#([0-9]+)|#x([0-9a-fA-F]+)|([^;&\s]*));?/gu;
const NAMED = { amp: '&', lt: '<', gt: '>', quot: '"', apos: "'" };
// Characters that no XML has.
const FORBIDDEN = /[\x00-\x08\x0b\x0c\x0e-\x1f\ufffe\uffff]/u;
// So many elements a file may have.
const MOST = 200_000;
const XML_SPACE = 'http://www.w3.org/XML/1998/namespace';
const XMLNS_SPACE = 'http://www.w3.org/2000/xmlns/';

const isCharacter = (code) => code <= 0x10ffff && !(code >= 0xd800 && code < 0xe000)
    && !FORBIDDEN.test(String.fromCodePoint(code));

function ascii(bytes, most) {
    for (const byte of bytes) if (byte > most) throw new Error('a byte that is none');
    let text = '';
    for (let at = 0; at < bytes.length; at += 0x8000) text += String.fromCharCode(...bytes.subarray(at, at + 0x8000));
    return text;
}

// The text of the bytes by the encoding that they declare.
function textOf(bytes) {
    const front = String.fromCharCode(...bytes.subarray(0, 400)).replace(/^\u00ef\u00bb\u00bf/, '');
    const declared = DECLARATION.exec(front.replace(/\r\n?/g, '\n'));
    const encoding = (declared?.[2] ?? declared?.[3] ?? 'utf-8').toLowerCase();
    if (encoding === 'utf-8' || encoding === 'utf8') return new TextDecoder('utf-8', { fatal: true }).decode(bytes);
    if (encoding === 'us-ascii') return ascii(bytes, 0x7f);
    if (encoding === 'iso-8859-1') return ascii(bytes, 0xff);
    const text = encoding === 'windows-1252' ? fromWindows(bytes) : null;
    if (text === null) throw new Error(`the text is not of the encoding ${encoding}`);
    return text;
}

export class Element {
    constructor(tag, attributes) {
        Object.assign(this, { tag, attributes, text: '', children: [] });
    }

    // The elements at a path of names, in their order.
    all(path) {
        return path.split('/').reduce((found, name) =>
            found.flatMap(({ children }) => children.filter(({ tag }) => tag === name)), [this]);
    }

    first(path) {
        return this.all(path)[0] ?? null;
    }
}

class Reader {
    constructor(text) {
        this.text = text;
        this.at = 0;
        this.count = 0;
        this.spaces = new Map([['xml', [XML_SPACE]]]); // of each prefix those that are declared, the innermost last
    }

    fail(what) {
        const line = this.text.slice(0, this.at).split('\n').length;
        throw new NotUnderstood(`the file is no XML: ${what}: line ${line}`);
    }

    take(form) {
        form.lastIndex = this.at;
        const found = form.exec(this.text);
        if (found) this.at = form.lastIndex;
        return found;
    }

    starts(words) {
        return this.text.startsWith(words, this.at);
    }

    // A text with its entities read.
    plain(text) {
        return text.replace(ENTITY, (entity, decimal, hexadecimal, name) => {
            if (!entity.endsWith(';')) return this.fail('an ampersand without its end');
            if (name !== undefined) {
                return Object.hasOwn(NAMED, name) ? NAMED[name] : this.fail(`the entity ${entity} is not known`);
            }
            const code = decimal ? parseInt(decimal, 10) : parseInt(hexadecimal, 16);
            return isCharacter(code) ? String.fromCodePoint(code) : this.fail(`${entity} is no character`);
        });
    }

    // What may stand before and behind the outermost element.
    passOver() {
        for (;;) {
            const text = this.take(TEXT);
            if (text && !/^[ \t\n]*$/.test(text[0])) this.fail('text outside of the document');
            if (!text && !this.note()) return;
        }
    }

    // A comment or an instruction; whether there is one.
    note() {
        if (this.starts('<!--')) return this.comment();
        if (!this.starts('<?')) return false;
        const found = this.take(INSTRUCTION);
        if (!found || /^xml$/i.test(found[1]) || found[1].includes(':')) this.fail('an instruction that is none');
        return true;
    }

    comment() {
        const end = this.text.indexOf('--', this.at + 4);
        if (end === -1 || this.text[end + 2] !== '>') this.fail('a comment without its end');
        this.at = end + 3;
        return true;
    }

    document() {
        const declared = DECLARATION.exec(this.text);
        if (declared) this.at = declared[0].length;
        this.passOver();
        const root = this.element();
        this.passOver();
        if (this.at < this.text.length) this.fail('something behind the document');
        return root;
    }

    // The attributes of a tag, and the prefixes that it declares.
    attributesOf() {
        const told = [];
        for (let found = this.take(ATTRIBUTE); found; found = this.take(ATTRIBUTE)) {
            told.push([found[1], this.plain((found[2] ?? found[3]).replace(/[\t\n]/g, ' '))]);
        }
        if (new Set(told.map(([name]) => name)).size !== told.length) this.fail('an attribute that stands twice');
        return { told, prefixes: told.filter((each) => this.declare(...each)).map(([name]) => name.slice(6)) };
    }

    // Whether an attribute declares a prefix, which is empty for `xmlns` itself.
    declare(name, value) {
        if (name !== 'xmlns' && !name.startsWith('xmlns:')) return false;
        const prefix = name.slice(6);
        const isXml = prefix === 'xml';
        if (name === 'xmlns' ? value === XML_SPACE || value === XMLNS_SPACE
            : prefix === 'xmlns' || value === '' || isXml !== (value === XML_SPACE) || value === XMLNS_SPACE
            || prefix.includes(':') || !prefix) this.fail('a namespace that is none');
        if (this.spaces.has(prefix)) this.spaces.get(prefix).push(value);
        else this.spaces.set(prefix, [value]);
        return true;
    }

    // A name's part behind its prefix, which has to be declared.
    local(name) {
        const parts = name.split(':');
        if (parts.length === 1) return { space: null, local: name };
        const [prefix, local] = parts;
        if (parts.length > 2 || !prefix || !IS_NAME.test(local)) this.fail(`the name ${name}`);
        const space = prefix === 'xmlns' ? undefined : this.spaces.get(prefix)?.at(-1);
        if (space === undefined) this.fail(`the prefix ${prefix} is not declared`);
        return { space, local };
    }

    open() {
        this.count += 1;
        if (this.count > MOST) throw new NotUnderstood(`the file has more than ${MOST} elements`);
        const found = this.take(OPEN);
        if (!found) this.fail('no tag begins here');
        const { told, prefixes } = this.attributesOf();
        const end = this.take(OPEN_END);
        if (!end) this.fail(`the tag ${found[1]} does not end`);
        const attributes = new Map();
        for (const [name, value] of told.filter(([each]) => each !== 'xmlns' && !each.startsWith('xmlns:'))) {
            const { space, local } = this.local(name);
            const key = space === null ? local : `{${space}}${local}`;
            if (attributes.has(key)) this.fail('an attribute that stands twice');
            attributes.set(key, value);
        }
        const made = { name: found[1], prefixes, isWhole: end[1] === '/',
            element: new Element(this.local(found[1]).local, attributes) };
        if (made.isWhole) this.forget(made);
        return made;
    }

    // What an element declares ends with it.
    forget({ prefixes }) {
        for (const prefix of prefixes) this.spaces.get(prefix).pop();
    }

    // The document's outermost element. The elements that are open are in a list, so that a deep file is no deep call.
    element() {
        const first = this.open();
        const opened = first.isWhole ? [] : [first];
        while (opened.length) {
            const inside = opened.at(-1);
            if (this.at >= this.text.length) this.fail(`${inside.name} does not end`);
            if (this.starts('</')) {
                const end = this.take(CLOSE);
                if (!end || end[1] !== inside.name) this.fail(`${inside.name} does not end`);
                this.forget(opened.pop());
            } else if (this.starts('<![CDATA[')) {
                const verbatim = this.take(VERBATIM) ?? this.fail('a verbatim part without its end');
                this.say(inside.element, verbatim[1]);
            } else if (!this.note()) this.inside(inside, opened);
        }
        return first.element;
    }

    inside({ element }, opened) {
        const text = this.take(TEXT);
        if (text) {
            if (text[0].includes(']]>')) this.fail(']]> outside of a verbatim part');
            this.say(element, this.plain(text[0]));
            return;
        }
        const made = this.open();
        element.children.push(made.element);
        if (!made.isWhole) opened.push(made);
    }

    // What stands before an element's first child is its text.
    say(element, text) {
        if (!element.children.length) element.text += text;
    }
}

export function readXml(bytes) {
    let text;
    try {
        text = textOf(bytes);
    } catch (fault) {
        throw new NotUnderstood(`the file is no XML: ${fault.message}`);
    }
    if (FORBIDDEN.test(text)) throw new NotUnderstood('the file is no XML: it has a character that no XML has');
    return new Reader(text.replace(/\r\n?/g, '\n')).document();
}
