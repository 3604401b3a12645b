// "Loading", "Storing", "Flat Lifting" and "Flat Lowering" of CanonicalABI.md. Numbers of 64 bits
// are BigInt, bools 0 or 1, flags their bits, cases { tag, value }, handles representations.
import { fault, trapIf } from './faults.mjs';
import { alignment, flagsSize, flatten, joined, offsets, payloadAt, size, SIZE, tagSize }
    from './layout.mjs';
import { Memory } from './memory.mjs';
import { loadString, storeString } from './strings.mjs';

const isNumber = (kind) => /^[su]\d/.test(kind);
const isPointed = (t) => t.kind === 'string' || t.kind === 'list' && t.count === undefined;

// The elements of a list; by a freedom they are read when they are stored.
function each(values, f) {
    for (let i = 0; i < values.length; i += 1) f(values.get ? values.get(i) : values[i], i);
}

function toBool(n) {
    if (fault('bool-as-it-is')) return n;
    if (fault('bool-is-its-low-bit')) return n & 1;
    return (fault('bool-is-its-low-byte') ? n & 255 : n) !== 0 ? 1 : 0;
}

function toChar(n) {
    trapIf(n >= 0x110000 && !fault('char-beyond'), 'invalid char');
    const isSurrogate = n >= 0xd800 && n <= 0xdfff;
    trapIf(isSurrogate && !fault('char-surrogate'), 'invalid char: a surrogate');
    return n;
}

function toFlags(t, bits) {
    const isWhole = t.count === 32 || fault('flags-not-cut');
    return isWhole ? bits >>> 0 : bits & (1 << t.count) - 1;
}

function toTag(t, n) {
    trapIf(n >= t.cases.length && !fault('case-beyond'), 'invalid variant discriminant');
    if (t.isOption && fault('option-tag-inverted')) return n % 2;
    return n % t.cases.length;
}

function fromTag(t, tag) {
    const isSwapped = t.isResult && fault('result-case-swapped')
        || t.isOption && fault('option-tag-inverted');
    return isSwapped ? 1 - tag : tag;
}

// Values that pass by a memory, in a call, whose scope is { lenders, borrows }.
export class Passing extends Memory {
    constructor(instance, options, scope) { super(instance, options); this.scope = scope; }

    // ---- from memory

    load(t, at) {
        const { kind } = t;
        if (isPointed(t)) return this.pointed(t, this.loadInt(at, 4), this.loadInt(at + 4, 4));
        if (isNumber(kind)) return this.loadInt(at, SIZE[kind], kind[0] === 's');
        if (kind === 'list') return this.elements(t, at, t.count);
        if (kind === 'tuple') return this.loadFields(t.fields, at);
        if (kind === 'variant') return this.loadCase(t, at);
        return this.scalar(t, this.loadInt(at, kind === 'flags' ? flagsSize(t) : SIZE[kind]));
    }
    // A bool, a char, flags or a handle, of its number.
    scalar(t, n) {
        if (t.kind === 'bool') return toBool(n);
        if (t.kind === 'char') return toChar(n);
        return t.kind === 'flags' ? toFlags(t, n) : this.liftHandle(t, n);
    }
    loadFields(fields, at) {
        const { places } = offsets(fields);
        return fields.map((field, i) => this.load(field, at + places[i]));
    }
    loadCase(t, at) {
        const tag = toTag(t, this.loadInt(at, tagSize(t))), payload = t.cases[tag];
        return { tag, value: payload && this.load(payload, at + payloadAt(t)) };
    }
    pointed(t, pointer, length) {
        if (t.kind === 'string') return loadString(this, pointer, length);
        const bytes = length * size(t.element);
        const count = fault('count-wraps') ? bytes % 2 ** 32 : bytes;
        this.check(pointer, alignment(t.element), count, 'pointer');
        return this.elements(t, pointer, length);
    }
    elements(t, at, count) {
        const get = (i) => this.load(t.element, at + i * size(t.element));
        if (fault('lifted-as-it-is-stored')) return { length: count, get };
        const all = Array.from({ length: count }, (_, i) => get(i));
        return fault('list-reversed') ? all.reverse() : all;
    }

    // ---- to memory

    store(t, value, at) {
        const { kind } = t;
        if (fault('padding-written') && (kind === 'tuple' || kind === 'variant'))
            this.bytes(at, size(t)).fill(0xcc);
        if (isPointed(t)) this.storePointed(t, value, at);
        else if (kind === 'tuple') this.storeFields(t.fields, value, at);
        else if (kind === 'variant') this.storeCase(t, value, at);
        else if (kind === 'list') this.storeElements(t.element, value, at);
        else if (kind === 'flags') this.storeInt(at, flagsSize(t), value);
        else if (t.resource) this.storeInt(at, 4, this.lowerHandle(t, value));
        else this.storeInt(at, SIZE[kind], value);
    }
    storeElements(element, values, at) {
        each(values, (value, i) => this.store(element, value, at + i * size(element)));
    }
    storeFields(fields, values, at) {
        const { places } = offsets(fields), order = fields.map((_, i) => i);
        if (fault('fields-stored-last-first')) order.reverse();
        order.forEach((i) => this.store(fields[i], values[i], at + places[i]));
    }
    storeCase(t, { tag, value }, at) {
        this.storeInt(at, tagSize(t), fromTag(t, tag));
        if (t.cases[tag]) this.store(t.cases[tag], value, at + payloadAt(t));
    }
    storePointed(t, value, at) {
        const [pointer, length] = this.roomOf(t, value);
        this.storeInt(at, 4, pointer);
        this.storeInt(at + 4, 4, length);
    }
    // The pointer and the length of a string or list, behind which it is stored.
    roomOf(t, value) {
        if (t.kind === 'string') return storeString(this, value);
        const { element } = t, count = value.length * size(element);
        if (count === 0 && fault('no-request-for-empty')) return [alignment(element), 0];
        const asked = fault('asks-count-not-bytes') ? value.length : count;
        const pointer = this.realloc(0, 0, alignment(element), asked);
        this.storeElements(element, value, pointer);
        return [pointer, value.length];
    }

    // ---- from core values: numbers or BigInt, taken from the front

    liftFlat(t, slots) {
        const { kind } = t;
        if (kind.endsWith('64')) return slots.shift();
        if (kind === 'tuple') return t.fields.map((field) => this.liftFlat(field, slots));
        if (kind === 'variant') return this.liftCase(t, slots);
        if (isPointed(t)) return this.pointed(t, this.unsigned(slots), this.unsigned(slots));
        if (kind === 'list')
            return Array.from({ length: t.count }, () => this.liftFlat(t.element, slots));
        const n = this.unsigned(slots);
        return isNumber(kind) ? this.narrow(kind, n) : this.scalar(t, n);
    }
    unsigned(slots) {
        const slot = slots.shift();
        if (typeof slot === 'number' || !fault('i64-slot-not-narrowed')) return Number(slot) >>> 0;
        return Math.min(Number(slot), 2 ** 32 - 1);
    }
    narrow(kind, n) {
        const beyond = 32 - 8 * SIZE[kind];
        if (fault('u8-not-wrapped')) return n;
        return kind[0] === 's' ? n << beyond >> beyond : n << beyond >>> beyond;
    }
    liftCase(t, slots) {
        const tag = toTag(t, this.unsigned(slots)), mine = joined(t).map(() => slots.shift());
        const payload = t.cases[tag];
        if (!payload) return { tag };
        const kinds = flatten(payload), wide = fault('i64-slot-not-narrowed');
        const cut = (slot, i) => kinds[i] === 'i32' && !wide
            ? Number(BigInt.asIntN(32, BigInt(slot))) : BigInt(slot);
        return { tag, value: this.liftFlat(payload, mine.slice(0, kinds.length).map(cut)) };
    }

    // ---- to core values

    lowerFlat(t, value, out) {
        const { kind } = t;
        if (isPointed(t)) out.push(...this.roomOf(t, value));
        else if (kind === 'tuple') t.fields.forEach((f, i) => this.lowerFlat(f, value[i], out));
        else if (kind === 'list') each(value, (v) => this.lowerFlat(t.element, v, out));
        else if (kind === 'variant') this.lowerCase(t, value, out);
        else if (t.resource) out.push(this.lowerHandle(t, value));
        else if (fault('s8-not-extended') && (kind === 's8' || kind === 's16'))
            out.push(value & (kind === 's8' ? 255 : 65535));
        else out.push(value);
    }
    lowerCase(t, { tag, value }, out) {
        const mine = [], unused = fault('slots-unused-left') ? -1 : 0;
        out.push(fromTag(t, tag));
        if (t.cases[tag]) this.lowerFlat(t.cases[tag], value, mine);
        joined(t).forEach((kind, i) => {
            const slot = mine[i] ?? unused;
            const wide = typeof slot === 'bigint' || i >= mine.length ? slot : slot >>> 0;
            out.push(kind === 'i32' ? Number(slot) : BigInt(wide));
        });
    }

    // ---- values of a call: flat, or as one tuple in memory

    liftValues(types, slots, most) {
        if (types.flatMap(flatten).length <= most)
            return types.map((t) => this.liftFlat(t, slots));
        const t = { kind: 'tuple', fields: types }, at = Number(slots.shift()) >>> 0;
        if (most > 1 || !fault('returned-place-not-checked'))
            this.check(at, alignment(t), size(t), 'pointer');
        return this.load(t, at);
    }
    // The core values; `place` is where the caller of a function wants its result.
    lowerValues(types, values, most, place) {
        const out = [];
        if (types.flatMap(flatten).length <= most) {
            types.forEach((t, i) => this.lowerFlat(t, values[i], out));
            return out;
        }
        const t = { kind: 'tuple', fields: types };
        if (place !== undefined) this.check(place, alignment(t), size(t), 'pointer');
        const at = place ?? this.realloc(0, 0, alignment(t), size(t));
        this.store(t, values, at);
        return place === undefined ? [at] : [];
    }

    // ---- handles

    liftHandle(t, index) {
        const { handles } = this.instance;
        if (t.kind === 'own') return handles.take(index, t.resource);
        return handles.lend(index, t.resource, this.scope);
    }
    lowerHandle(t, rep) {
        const { handles } = this.instance, type = t.resource;
        if (t.kind === 'own') return handles.add({ type, rep, own: true, lends: 0 });
        if (type.impl === this.instance && !fault('own-resource-by-handle')) return rep;
        this.scope.borrows += 1;
        return handles.add({ type, rep, own: false, lends: 0, scope: this.scope });
    }
}
