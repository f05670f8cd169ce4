// Reads modules of JavaScript without running them: whether each can be read, and whether what it imports is there. To
// `node --check` a module whose name ends in .js is no fault, whatever stands in it.
//
//   node --experimental-vm-modules tools/lint.mjs FILE..

import { readFileSync } from 'node:fs';
import { dirname, resolve } from 'node:path';
import { SourceTextModule, SyntheticModule } from 'node:vm';

const modules = new Map();

// A module of node itself, which has what is asked of it.
async function ofNode(name) {
    const names = Object.keys(await import(name));
    return new SyntheticModule(names, () => {});
}

function read(path) {
    if (!modules.has(path)) {
        modules.set(path, new SourceTextModule(readFileSync(path, 'utf8'), { identifier: path }));
    }
    return modules.get(path);
}

function imported(name, from) {
    return name.startsWith('node:') ? ofNode(name) : read(resolve(dirname(from.identifier), name));
}

for (const file of process.argv.slice(2)) {
    try {
        const module = read(resolve(file));
        if (module.status === 'unlinked') await module.link(imported);
    } catch (fault) {
        console.log(`${file}: ${fault.stack.split('\n').slice(0, 3).join('\n')}`);
        process.exitCode = 1;
    }
}
