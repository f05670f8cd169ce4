// What the browser keeps for a person: the days of the last statements, asks that were not answered, a bank's file that
// is not imported yet, and which columns a bank's CSV has. Nothing else stays.

export const ASKS = 'asks';
export const STATEMENT = 'statement';
export const FILE = 'file';
export const TYPED = 'typed';
export const PARTS = 'parts';
export const LEFT = 'left';
export const COLUMNS = 'columns';

// What an earlier page kept: numbers of matters, of which the desk has a list by now.
const OLD = 'matters';

export class Shelf {
    constructor(person) {
        this.person = person;
        this.unkept = new Map(); // what the browser did not take: it lasts as long as the page is open
        this.write(OLD, []);
    }

    read(name) {
        if (this.unkept.has(name)) return this.unkept.get(name);
        try {
            return JSON.parse(localStorage.getItem(this.key(name))) ?? [];
        } catch {
            return []; // a browser that keeps nothing
        }
    }

    write(name, list) {
        try {
            if (list.length) localStorage.setItem(this.key(name), JSON.stringify(list));
            else localStorage.removeItem(this.key(name));
            this.unkept.delete(name);
        } catch {
            this.unkept.set(name, list); // a browser that keeps nothing, or not so much
        }
    }

    key(name) {
        return `gekuipo.${this.person}.${name}`;
    }
}
