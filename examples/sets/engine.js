// What JavaScriptCore is told: it instantiates the core modules of a set by the parts of their plans
// (`hux_plan`), and runs their functions. `call` and `staging` are the host's. Core values
// of 32 bits are numbers, those of 64 texts that begin with `l`.
const guests = [];

const hex = (byte) => `%${byte.toString(16).padStart(2, '0')}`;
const text = (bytes) => decodeURIComponent(Array.from(bytes, hex).join(''));
const outward = (value) => (typeof value === 'bigint' ? `l${BigInt.asUintN(64, value)}` : value);
const inward = (value) => (typeof value === 'string' ? BigInt(value.slice(1)) : value);
const sorts = ['func', 'table', 'memory', 'global'];

class Guest {
    constructor(index) {
        Object.assign(this, { index, modules: [], instances: [], makers: {}, names: [] });
        Object.assign(this, { func: [], table: [], memory: [], global: [] });
    }

    // One more core function, which leaves the guest.
    addCall() {
        const func = this.func.length;
        this.func.push((...values) => inward(call(this.index, func, ...values.map(outward))));
    }

    // An instance is made once all that it is given was told.
    open(count, make) {
        Object.assign(this, { given: {}, wanted: count, make });
        this.go(0);
    }

    go(more) {
        this.wanted -= more;
        if (this.wanted === 0) this.instances.push(this.make(this.given));
    }
}

// What each part of a plan is, by its kind (`HuxPlanKind`).
const parts = [
    null,
    (guest, { bytes }) => guest.modules.push(new WebAssembly.Module(bytes)),
    (guest, { of, count }) => guest.open(count, (imports) =>
        new WebAssembly.Instance(guest.modules[of], imports).exports),
    (guest, { of, bytes }) => {
        guest.given[text(bytes)] = guest.instances[of];
        guest.go(1);
    },
    (guest, { count }) => guest.open(count, (items) => items),
    (guest, { of, sort, bytes }) => {
        const name = text(bytes);
        guest.given[name] = guest[sorts[sort]][of];
        if (name.startsWith('[resource-new]')) guest.makers[name.slice(14)] = of;
        guest.go(1);
    },
    (guest, { of, sort, bytes }) => {
        const name = text(bytes);
        guest[sorts[sort]].push(guest.instances[of][name]);
        if (sort === 0) guest.names[guest.func.length - 1] = name;
    },
    (guest) => guest.addCall(),
    (guest) => guest.addCall(),
    (guest) => guest.addCall(),
    (guest) => guest.addCall(),
    (guest, { of }) => { guest.first ??= of; },
    (guest, { of, sort }) => { if (sort === 3) guest.own = guest.memory[of]; },
];

// ---- what the host calls

function plan(index, kind, of, sort, count, buffer) {
    guests[index] ??= new Guest(index);
    parts[kind](guests[index], { of, sort, count, bytes: new Uint8Array(buffer) });
}

const pages = (index) => (guests[index].own?.buffer.byteLength ?? 0) / 65536;
const first = (index) => guests[index].first;
const maker = (index, name) => guests[index].makers[name];
const lifted = (index, func) => guests[index].names[func] ?? '';
const run = (index, func, ...values) => outward(guests[index].func[func](...values.map(inward)));

// The memory of a guest, into what the host sees; and what it has there, into the memory.
function take(index) {
    const bytes = guests[index].own && new Uint8Array(guests[index].own.buffer);
    if (bytes) staging.set(bytes);
    return bytes ? bytes.length : 0;
}

const give = (index, at, length) =>
    new Uint8Array(guests[index].own.buffer).set(staging.subarray(0, length), at);

const grow = (index, count) => guests[index].own.grow(count);
