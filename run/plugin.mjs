// A plug-in that JavaScript calls by plain values: a set of its own, of the plug-in and of a caller
// (`hux stub --caller`), whose core code this is. Where it traps, this plug-in is over, and no other,
// since each set has a `hux live` of its own.
import { mkdtempSync, rmSync } from 'node:fs';
import { tmpdir } from 'node:os';
import { join } from 'node:path';
import { start } from './engine.mjs';
import { Heap } from './host.mjs';
import { ask } from './hux.mjs';
import { Failure, Values } from './values.mjs';

// Handles are numbers: the caller has no objects of its own.
const HANDLES = { take: (type, index) => index, give: (type, index) => index };

export class Plugin {
    // Makes a plug-in of a component file, which imports nothing.
    static async load(hux, file, how) {
        const room = mkdtempSync(join(tmpdir(), 'hux-plugin-')), caller = join(room, 'caller.wasm');
        const plugin = new Plugin();
        try {
            await ask(hux, 'stub', '--caller', file, '-o', caller);
            const codes = [undefined, () => ({ memory }) => plugin.code(memory)];
            plugin.engine = await start(hux, [file, caller], { ...how, codes });
        } finally {
            rmSync(room, { recursive: true });
        }
        return plugin;
    }

    // What stands for the items of a core instance of the caller.
    code(memory) {
        this.heap ??= memory && new Heap(memory);
        this.values ??= memory
            && new Values(memory, (align, size) => this.heap.allocate(align, size), HANDLES);
        return { cabi_realloc: (...sizes) => this.heap.reallocate(...sizes) };
    }

    // Calls `interface#function`, as a root call of its own: its result; a result's error is thrown.
    call(name, ...args) {
        const guest = this.engine.guests[1], { params } = guest.signatures.imports.get(name);
        const given = Object.fromEntries(params.fields.map((f, i) => [f.name, args[i]]));
        const answer = this.engine.root(guest, name, () => this.pass(guest, name, given));
        if (answer instanceof Failure) throw answer;
        return answer;
    }

    pass(guest, name, given) {
        const { params, paramsFar, result, resultFar } = guest.signatures.imports.get(name);
        this.heap?.clear();
        const flat = paramsFar
            ? [this.store(params, given)] : this.values.flatten(params, given);
        const back = resultFar ? [this.heap.allocate(result.align, result.size)] : [];
        const answer = guest.calls.get(name)(...flat, ...back);
        if (resultFar) return this.values.load(result, back[0]);
        return result && this.values.lift(result, () => answer);
    }

    store(type, value) {
        const at = this.heap.allocate(type.align, type.size);
        this.values.store(type, value, at);
        return at;
    }

    end() { return this.engine.end(); }
}
