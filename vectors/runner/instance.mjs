import { lowered } from './calls.mjs';
import { fault, trapIf, trapping } from './faults.mjs';
import { Handles } from './handles.mjs';
import { Reader } from './reader.mjs';
import { skipDesc, typeOf } from './types.mjs';

const SORT = { 1: 'func', 3: 'type', 4: 'component', 5: 'instance' };
const CORE = { 0: 'func', 1: 'table', 2: 'memory', 3: 'global', 0x11: 'module', 0x12: 'instance' };
const ENCODINGS = ['utf8', 'utf16', 'latin1+utf16'];
const anything = { trapped: false }; // has anything of this component trapped?

// Core modules by their files and places: a file may be run many times, with other faults.
const known = new WeakMap();
function compiled(data) {
    if (!known.has(data.buffer)) known.set(data.buffer, new Map());
    const modules = known.get(data.buffer);
    if (!modules.has(data.byteOffset)) modules.set(data.byteOffset, new WebAssembly.Module(data));
    return modules.get(data.byteOffset);
}

// An instance of a component: reads its sections one after the other (Binary.md), and does what
// they say.
export class Instance {
    constructor(data, args) {
        Object.assign(this, { args, func: [], type: [], component: [], instance: [], exports: {} });
        Object.assign(this, { mayLeave: true, closed: false, handles: new Handles() });
        this.core = { func: [], table: [], memory: [], global: [], module: [], instance: [] };
        const r = new Reader(data, 8);
        while (r.at < data.length) this.section(r.byte(), new Reader(r.take(r.u32())));
    }

    static root(data) {
        anything.trapped = false;
        return new Instance(data, {});
    }

    section(id, r) {
        const items = { 2: this.coreInstance, 5: this.makeInstance, 6: this.alias, 7: this.typeDef,
            8: this.canon, 10: this.import, 11: this.export };
        if (id === 1) this.core.module.push(compiled(r.data));
        else if (id === 4) this.component.push(r.data);
        else if (id !== 0) r.vec(() => items[id].call(this, r));
    }

    coreInstance(r) {
        if (r.byte() === 0) {
            const module = this.core.module[r.u32()];
            const given = r.vec(() => [r.text(), r.byte(), this.core.instance[r.u32()]]);
            const imports = Object.fromEntries(given.map(([name, _, exports]) => [name, exports]));
            this.core.instance.push(new WebAssembly.Instance(module, imports).exports);
        } else {
            const items = r.vec(() => [r.text(), this.core[CORE[r.byte()]][r.u32()]]);
            this.core.instance.push(Object.fromEntries(items));
        }
    }

    makeInstance(r) {
        const isOfComponent = r.byte() === 0, component = isOfComponent && this.component[r.u32()];
        const name = () => isOfComponent ? r.text() : r.name();
        const given = Object.fromEntries(r.vec(() => [name(), this[SORT[r.byte()]][r.u32()]]));
        this.instance.push(isOfComponent ? new Instance(component, given).exports : given);
    }

    alias(r) {
        const sort = r.byte(), core = sort === 0 && CORE[r.byte()];
        if (r.byte() === 2) throw new Error('an outer alias outside of a type');
        const index = r.u32(), name = r.text();
        if (core) this.core[core].push(this.core.instance[index][name]);
        else this[SORT[sort]].push(this.instance[index][name]);
    }

    typeDef(r) {
        const code = r.byte();
        this.type.push(code === 0x3f ? this.resource(r) : typeOf(code, this.type, r));
    }
    resource(r) {
        r.byte();
        return { impl: this, dtor: r.byte() ? this.core.func[r.u32()] : undefined };
    }

    import(r) {
        const name = r.name(), sort = SORT[skipDesc(r)];
        if (!(name in this.args)) throw new Error(`nothing is given for ${name}`);
        this[sort].push(this.args[name]);
    }

    export(r) {
        const name = r.name(), sort = SORT[r.byte()], item = this[sort][r.u32()];
        if (r.byte()) skipDesc(r);
        this[sort].push(item);
        this.exports[name] = item;
    }

    canon(r) {
        const code = r.byte();
        if (code > 1) return this.core.func.push(this.ofResource(code, this.type[r.u32()]));
        r.byte();
        const index = r.u32(), options = this.options(r);
        if (code === 1) return this.core.func.push(lowered(this, this.func[index], options));
        const type = this.type[r.u32()], core = this.core.func[index];
        return this.func.push({ type, core, options, instance: this });
    }
    options(r) {
        const options = { encoding: 'utf8' };
        r.vec(() => {
            const option = r.byte();
            if (option < 3) options.encoding = ENCODINGS[option];
            else if (option === 3) options.memory = this.core.memory[r.u32()];
            else options[option === 4 ? 'realloc' : 'post'] = this.core.func[r.u32()];
        });
        return options;
    }
    ofResource(code, type) {
        if (code === 2) return (rep) => this.resourceNew(type, rep);
        if (code === 3) return (index) => this.resourceDrop(type, index >>> 0);
        return (index) => this.resourceRep(type, index >>> 0);
    }

    resourceNew(type, rep) {
        this.leave();
        return this.handles.add({ type, rep, own: true, lends: 0 });
    }
    resourceDrop(type, index) {
        this.leave();
        const handle = this.handles.drop(index, type);
        if (!handle.own) handle.scope.borrows -= 1;
        if (!type.dtor || fault('no-destructor')) return;
        const told = fault('destructor-of-handle') ? index : handle.rep;
        if (handle.own || fault('destructor-of-a-borrow'))
            trapping('destructor-may-trap', () => type.impl.entered(() => type.dtor(told)));
    }
    resourceRep(type, index) {
        const { rep } = this.handles.get(index, type);
        return fault('rep-is-the-handle') ? index : rep;
    }

    // A call out of this instance.
    leave() {
        const name = this.phase === 'realloc' ? 'realloc-may-leave' : 'post-may-leave';
        trapIf(!this.mayLeave && !fault(name), 'cannot leave component instance');
    }
    // A call into it: where that traps, this instance is closed.
    entered(body) {
        const isClosed = this.closed || anything.trapped && fault('a-trap-closes-all');
        trapIf(isClosed && !fault('closed-may-enter'), 'cannot enter component instance');
        try {
            return body();
        } catch (error) {
            anything.trapped = this.closed = true;
            throw error;
        }
    }
    // Its allocator or a post-return function, in which it may not leave.
    inside(phase, body) {
        this.mayLeave = false;
        this.phase = phase;
        try { return body(); } finally { this.mayLeave = true; }
    }
}
