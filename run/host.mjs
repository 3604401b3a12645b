// The code of a stub: functions over plain values, in place of the core functions of its modules.
import { aligned } from './types.mjs';
import { Failure, Values } from './values.mjs';

const BEGIN = 16, PAGE = 65536; // the memory from BEGIN on is free

// The memory of a stub, which is free again when a call is over.
export class Heap {
    constructor(memory) {
        this.memory = memory;
        this.clear();
    }

    clear() { this.top = BEGIN; }

    allocate(align, size) {
        const at = aligned(this.top, align);
        this.top = at + size;
        const missing = Math.ceil((this.top - this.memory.buffer.byteLength) / PAGE);
        if (missing > 0) this.memory.grow(missing);
        return at;
    }

    reallocate(old, oldSize, align, size) {
        if (size <= oldSize) return old;
        const at = this.allocate(align, size);
        new Uint8Array(this.memory.buffer).copyWithin(at, old, old + oldSize);
        return at;
    }
}

// The objects that stand for resources, by representations, which no two of them share.
class Objects {
    constructor() {
        this.objects = new Map();
        this.taken = new Set(); // those that were given to the host for good
        this.makers = new Map(); // what makes, reads and drops handles, by the type's number
        this.last = 0;
    }

    take({ kind, resource }, index) {
        if (kind === 'borrow') return this.objects.get(index);
        const { rep, drop } = this.makers.get(resource), number = rep(index);
        const object = this.objects.get(number);
        this.taken.add(number);
        drop(index);
        return object;
    }

    give({ resource }, object) {
        this.last += 1;
        this.objects.set(this.last, object);
        return this.makers.get(resource).make(this.last);
    }

    // The destructor of each resource.
    dropped(number) {
        const object = this.objects.get(number);
        this.objects.delete(number);
        if (!this.taken.delete(number)) object?.close?.();
    }
}

// A core function that a function of plain values stands behind. What it allocates is free when it
// returns: what it answers is read by then, or before the allocator is asked again.
function core({ params, paramsFar, result, resultFar }, heap, values, func) {
    return (...flat) => {
        let i = 0, at;
        const loaded = paramsFar
            ? values.load(params, flat[0] >>> 0) : values.lift(params, () => flat[i++]);
        const answer = answered(result, () => func(...Object.values(loaded)));
        if (resultFar) {
            at = heap.allocate(result.align, result.size);
            values.store(result, answer, at);
        } else if (result) at = values.lower(result, answer);
        heap.clear();
        return at;
    };
}

// What a function answers; the error of a result is thrown by it.
function answered(result, body) {
    try {
        return body();
    } catch (error) {
        if (!(error instanceof Failure) || result?.kind !== 'result') throw error;
        return error;
    }
}

// Answers, for the types of a stub and a function that answers the function of a name, what stands
// for the items of a core instance of the stub (`Guest`).
export function host({ exports, resources }, find) {
    const objects = new Objects();
    let heap;

    function addMakers(imports, { number, face, name }) {
        const from = imports[`[export]${face}`], of = (what) => from?.[`[resource-${what}]${name}`];
        const maker = { make: of('new'), drop: of('drop'), rep: of('rep') };
        if (maker.make) objects.makers.set(number, maker);
    }

    return (given, imports) => {
        heap ??= given.memory && new Heap(given.memory); // of the first instance that has one
        const allocate = (align, size) => heap.allocate(align, size);
        const values = new Values(heap?.memory, allocate, objects);
        resources.forEach((resource) => addMakers(imports, resource));
        const destructors = resources.map(({ face, name }) =>
            [`${face}#[dtor]${name}`, (number) => objects.dropped(number)]);
        const tidying = [...exports.keys()].map((name) => [`cabi_post_${name}`, () => {}]);
        const functions = [...exports].map(([name, signature]) =>
            [name, core(signature, heap, values, find(name))]);
        return { cabi_realloc: (...sizes) => heap.reallocate(...sizes),
            ...Object.fromEntries([...destructors, ...tidying, ...functions]) };
    };
}
