// Values between JavaScript and a memory, by their types (CanonicalABI.md, "Loading", "Storing",
// "Lifting and Lowering").
//
// | WIT | JavaScript |
// |---|---|
// | bool; u8 to u32, s8 to s32; u64, s64; char, string | boolean; number; BigInt; string |
// | list<u8>; list; tuple; record | Buffer; array; array; object by the names of WIT |
// | enum; flags; variant | label; object label: true; { tag, value } |
// | option | the value, or undefined |
// | result | the value, or a Failure; as a function's result a Failure is thrown |
// | own, borrow | the object that `handles` has for it |

// The error of a result.
export class Failure extends Error {
    constructor(value) {
        super(typeof value === 'string' ? value : value?.tag);
        this.value = value;
    }
}

const view = (memory) => new DataView(memory.buffer);
const letter = (code) => String.fromCodePoint(code);
const READ = {
    bool: (v, at) => v.getUint8(at) !== 0,
    u8: (v, at) => v.getUint8(at), s8: (v, at) => v.getInt8(at),
    u16: (v, at) => v.getUint16(at, true), s16: (v, at) => v.getInt16(at, true),
    u32: (v, at) => v.getUint32(at, true), s32: (v, at) => v.getInt32(at, true),
    u64: (v, at) => v.getBigUint64(at, true), s64: (v, at) => v.getBigInt64(at, true),
    char: (v, at) => letter(v.getUint32(at, true)),
};
const WRITE = {
    bool: (v, at, x) => v.setUint8(at, x ? 1 : 0),
    u8: (v, at, x) => v.setUint8(at, x), s8: (v, at, x) => v.setInt8(at, x),
    u16: (v, at, x) => v.setUint16(at, x, true), s16: (v, at, x) => v.setInt16(at, x, true),
    u32: (v, at, x) => v.setUint32(at, x, true), s32: (v, at, x) => v.setInt32(at, x, true),
    u64: (v, at, x) => v.setBigUint64(at, BigInt(x), true),
    s64: (v, at, x) => v.setBigInt64(at, BigInt(x), true),
    char: (v, at, x) => v.setUint32(at, x.codePointAt(0), true),
};
const LIFT = {
    bool: (x) => x !== 0, char: letter,
    u8: (x) => x & 0xff, u16: (x) => x & 0xffff,
    s8: (x) => x << 24 >> 24, s16: (x) => x << 16 >> 16,
    u32: (x) => Number(x) >>> 0, s32: (x) => Number(x) | 0,
    u64: (x) => BigInt.asUintN(64, BigInt(x)), s64: (x) => BigInt.asIntN(64, BigInt(x)),
};
const SIZED = { 1: 'u8', 2: 'u16', 4: 'u32' };

// The number of a variant's case, which `tag` has in memory.
export const tagAt = (type, v, at) => READ[SIZED[type.tag]](v, at);

const flags = (type, bits) =>
    Object.fromEntries(type.labels.map((label, i) => [label, (bits >>> i & 1) === 1]));
const bitsOf = (type, value) =>
    type.labels.reduce((bits, label, i) => (value[label] ? bits | 1 << i : bits), 0) >>> 0;
const isPointed = ({ kind }) => kind === 'string' || kind === 'list';
const isHandle = ({ kind }) => kind === 'own' || kind === 'borrow';

function caseOf(type, tag, value) {
    if (type.kind === 'enum') return type.cases[tag].name;
    if (type.kind === 'option') return value;
    if (type.kind === 'result') return tag === 0 ? value : new Failure(value);
    return { tag: type.cases[tag].name, value };
}

// The number of the case that a value has, and what is in it.
function tagged(type, value) {
    if (type.kind === 'option') return value === undefined ? [0] : [1, value];
    if (type.kind === 'result') return value instanceof Failure ? [1, value.value] : [0, value];
    const name = type.kind === 'enum' ? value : value.tag;
    const tag = type.cases.findIndex((one) => one.name === name);
    if (tag < 0) throw new Error(`${name} is no case of a ${type.kind}`);
    return [tag, value.value];
}

// Values of one component: its memory, its allocator, and its handles: `take` answers the object of
// a handle that comes, `give` the handle of an object that goes.
export class Values {
    constructor(memory, allocate, handles) { Object.assign(this, { memory, allocate, handles }); }

    bytes(at, size) { return Buffer.from(this.memory.buffer, at, size); }

    // The parts of a record or a tuple, each by what is done with its field.
    parts(type, of) {
        if (type.kind === 'tuple') return type.fields.map(of);
        return Object.fromEntries(type.fields.map((field) => [field.name, of(field)]));
    }

    load(type, at) {
        const v = view(this.memory);
        if (READ[type.kind]) return READ[type.kind](v, at);
        if (isPointed(type)) return this.far(type, READ.u32(v, at), READ.u32(v, at + 4));
        if (type.fields) return this.parts(type, (field) => this.load(field.type, at + field.at));
        if (type.kind === 'flags') return flags(type, READ[SIZED[type.size]](v, at));
        if (isHandle(type)) return this.handles.take(type, v.getUint32(at, true));
        const tag = tagAt(type, v, at), { type: payload } = type.cases[tag];
        return caseOf(type, tag, payload && this.load(payload, at + type.at));
    }

    far({ kind, element }, at, count) {
        if (kind === 'string') return this.bytes(at, count).toString();
        if (element.kind === 'u8') return Buffer.from(this.bytes(at, count));
        return Array.from({ length: count }, (_, i) => this.load(element, at + i * element.size));
    }

    // Lifts from core values: `next` gives one at a time.
    lift(type, next) {
        if (LIFT[type.kind]) return LIFT[type.kind](next());
        if (isPointed(type)) {
            const at = next() >>> 0;
            return this.far(type, at, next() >>> 0);
        }
        if (type.fields) return this.parts(type, (field) => this.lift(field.type, next));
        if (type.kind === 'flags') return flags(type, next());
        if (isHandle(type)) return this.handles.take(type, next() >>> 0);
        const tag = next(), others = type.flat.slice(1).map(() => next());
        const { type: payload } = type.cases[tag];
        return caseOf(type, tag, payload && this.lift(payload, narrowed(payload, others)));
    }

    store(type, value, at) {
        const put = (kind, where, x) => WRITE[kind](view(this.memory), where, x);
        if (WRITE[type.kind]) return put(type.kind, at, value);
        if (isPointed(type))
            return this.put(type, value).forEach((x, i) => put('u32', at + 4 * i, x));
        if (type.fields)
            return type.fields.forEach((f) => this.store(f.type, value[f.name], at + f.at));
        if (type.kind === 'flags') return put(SIZED[type.size], at, bitsOf(type, value));
        if (isHandle(type)) return put('u32', at, this.handles.give(type, value));
        const [tag, inner] = tagged(type, value), { type: payload } = type.cases[tag];
        put(SIZED[type.tag], at, tag);
        return payload && this.store(payload, inner, at + type.at);
    }

    // Puts a string or a list into memory, and answers where, and its length.
    put(type, value) {
        if (type.kind === 'string' || type.element.kind === 'u8') {
            const bytes = Buffer.from(value), at = this.allocate(1, bytes.length);
            bytes.copy(this.bytes(at, bytes.length));
            return [at, bytes.length];
        }
        const { size, align } = type.element, at = this.allocate(align, size * value.length);
        value.forEach((one, i) => this.store(type.element, one, at + i * size));
        return [at, value.length];
    }

    // The core values of a value, as a caller passes it.
    flatten(type, value) {
        if (isPointed(type)) return this.put(type, value);
        if (type.fields) return type.fields.flatMap((f) => this.flatten(f.type, value[f.name]));
        if (type.kind === 'flags') return [bitsOf(type, value)];
        if (isHandle(type)) return [this.handles.give(type, value)];
        if (type.kind === 'char') return [value.codePointAt(0)];
        if (!type.cases) return [type.flat[0] === 'i64' ? BigInt(value) : Number(value)];
        const [tag, inner] = tagged(type, value), { type: payload } = type.cases[tag];
        const given = payload ? this.flatten(payload, inner) : [];
        const widen = (kind, i) => (kind === 'i64' ? BigInt : Number)(given[i] ?? 0);
        return [tag, ...type.flat.slice(1).map(widen)];
    }

    // The core value of a result that is one at most.
    lower(type, value) {
        const at = this.allocate(type.align, type.size);
        this.store(type, value, at);
        if (type.flat[0] === 'i64') return view(this.memory).getBigInt64(at, true);
        return this.core(type, at);
    }

    core(type, at) {
        if (type.fields?.length === 1) return this.core(type.fields[0].type, at);
        const kind = { s8: 's8', s16: 's16' }[type.kind] ?? SIZED[type.tag ?? type.size];
        return READ[kind](view(this.memory), at);
    }
}

// Gives the core values of a payload, which share those of a variant with other payloads.
function narrowed(payload, others) {
    let i = 0;
    return () => {
        const kind = payload.flat[i], value = others[i++];
        const isWide = kind === 'i32' && typeof value === 'bigint';
        return isWide ? Number(BigInt.asIntN(32, value)) : value;
    };
}
