// The guests of a set: what each line of the plan adds to a component (`crates/cm_live_plan`).
import { readFileSync } from 'node:fs';
import { limited } from './modules.mjs';
import { Rooms } from './rooms.mjs';
import { Signatures } from './types.mjs';

const text = (hex) => (hex === '-' ? '' : Buffer.from(hex, 'hex').toString());
const named = (items, of) => Object.fromEntries(items.map((item) => {
    const [name, ...what] = item.split(/[=:]/);
    return [text(name), of(...what)];
}));

// A component: its core functions, tables and so on by index, its imports and exports by name. The
// engine makes the calls of its lowered imports; `code` answers, for its types, a function that
// answers what stands for the items of a core instance, where JavaScript is its code.
export class Guest {
    constructor(engine, index, hex, code) {
        Object.assign(this, { engine, index, code, file: text(hex) });
        this.name = this.file.replace(/^.*\//, '').replace(/\.wasm$/, '');
        this.signatures = new Signatures();
        this.encodings = []; // of strings, by core function
        this.modules = [];
        this.instances = [];
        Object.assign(this, { func: [], table: [], memory: [], global: [] });
        this.calls = new Map(); // what calls an import, by name
        this.exports = new Map(); // core functions that are lifted, by name
        this.lifts = new Map(); // names and types that core functions are lifted with
        this.rooms = new Rooms();
        this.room = undefined; // the memory in which values pass
        this.pages = 0; // those that the machine knows of
        this.most = 0; // those that the machine's memory may have
    }

    // What stands for the items of a core instance, where JavaScript is the code of this component.
    provide(exports, imports) {
        this.provided ??= this.code?.(this.signatures);
        return this.provided?.(exports, imports);
    }

    add(kind, ...words) { ADDED[kind](this, ...words); }

    addCall(name, func, signature) {
        const call = (...values) => this.engine.call(this, +func, values, name, signature);
        this.func.push(call);
        return call;
    }
}

const ADDED = {
    pages: (guest, count, most) => Object.assign(guest, { pages: +count, most: +most }),
    type: (guest, ...row) => guest.signatures.add(JSON.parse(row.join(' '))),
    func: (guest, ...row) => guest.signatures.add(JSON.parse(row.join(' '))),
    module(guest, at, size) {
        guest.bytes ??= readFileSync(guest.file);
        const bytes = guest.bytes.subarray(+at, +at + +size);
        guest.modules.push(new WebAssembly.Module(limited(bytes, guest.most)));
    },
    instance(guest, module, ...args) {
        const imports = named(args, (instance) => guest.instances[instance]);
        const { exports } = new WebAssembly.Instance(guest.modules[module], imports);
        guest.instances.push({ ...exports, ...guest.provide(exports, imports) });
    },
    inline: (guest, ...items) => guest.instances.push(named(items, (sort, i) => guest[sort][i])),
    alias: (guest, sort, i, name) => guest[sort].push(guest.instances[i][text(name)]),
    lower(guest, func, hex, params, results, encoding) {
        const name = text(hex), signature = guest.signatures.imports.get(name);
        guest.encodings[func] = encoding;
        guest.calls.set(name, guest.addCall(name, func, signature));
    },
    resource: (guest, what, func) => guest.addCall(`resource ${what}`, func),
    lift(guest, func, hex, params, results, encoding) {
        const name = text(hex), signature = guest.signatures.exports.get(name);
        guest.encodings[func] = encoding;
        guest.exports.set(name, +func);
        guest.lifts.set(+func, [...guest.lifts.get(+func) ?? [], { name, signature }]);
    },
    memory(guest, i) { guest.room = guest.memory[i]; },
};
