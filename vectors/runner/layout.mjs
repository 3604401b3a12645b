// "Alignment", "Element Size" and "Flattening" of CanonicalABI.md. Types are those of types.mjs.
import { fault } from './faults.mjs';

export const SIZE = { bool: 1, s8: 1, u8: 1, s16: 2, u16: 2, s32: 4, u32: 4, s64: 8, u64: 8,
    char: 4, own: 4, borrow: 4, string: 8 };
const alignTo = (n, alignment) => Math.ceil(n / alignment) * alignment;
const payloads = (t) => t.cases.filter(Boolean);

export function tagSize(t) {
    if (t.isEnum && fault('enum-as-u32')) return 4;
    if (t.cases.length <= 256 || fault('tag-of-257-is-a-byte')) return 1;
    return t.cases.length <= 65536 ? 2 : 4;
}

export function flagsSize(t) {
    if (t.count <= 8) return 1;
    if (t.count <= 16) return fault('flags-9-are-a-word') ? 4 : 2;
    return fault('flags-17-are-3-bytes') && t.count <= 24 ? 3 : 4;
}

export function alignment(t) {
    if (t.kind === 'string') return 4;
    if (SIZE[t.kind])
        return SIZE[t.kind] === 8 && fault('u64-aligned-to-4') ? 4 : SIZE[t.kind];
    if (t.kind === 'list') return t.count === undefined ? 4 : alignment(t.element);
    if (t.kind === 'tuple') return Math.max(...t.fields.map(alignment));
    if (t.kind === 'flags') return flagsSize(t) === 3 ? 1 : flagsSize(t);
    return Math.max(tagSize(t), caseAlignment(t));
}
const caseAlignment = (t) => Math.max(1, ...payloads(t).map(alignment));
export function payloadAt(t) {
    const at = tagSize(t);
    return fault('case-payload-not-aligned') ? at : alignTo(at, caseAlignment(t));
}

// Where fields lie, and where the last one ends.
export function offsets(fields) {
    let end = 0;
    const places = fields.map((field) => {
        const place = alignTo(end, alignment(field));
        end = place + size(field);
        return place;
    });
    return { places, end };
}

export function size(t) {
    if (SIZE[t.kind]) return SIZE[t.kind];
    if (t.kind === 'flags') return flagsSize(t);
    if (t.kind === 'list') {
        const pointed = t.count === undefined || fault('fixed-list-behind-pointer-size');
        return pointed ? 8 : t.count * size(t.element);
    }
    if (t.kind === 'tuple') {
        const { end } = offsets(t.fields);
        return fault('record-not-padded') ? end : alignTo(end, alignment(t));
    }
    return alignTo(payloadAt(t) + Math.max(0, ...payloads(t).map(size)), alignment(t));
}

export function flatten(t) {
    if (t.kind === 'string') return ['i32', 'i32'];
    if (SIZE[t.kind]) return [t.kind.endsWith('64') ? 'i64' : 'i32'];
    if (t.kind === 'tuple') return t.fields.flatMap(flatten);
    if (t.kind === 'flags') return ['i32'];
    if (t.kind !== 'list') return ['i32', ...joined(t)];
    if (t.count === undefined) return ['i32', 'i32'];
    return Array(t.count).fill(flatten(t.element)).flat();
}

// The slots behind a discriminant, which serve all cases.
export function joined(t) {
    const slots = [];
    for (const [i, kind] of payloads(t).flatMap((payload) => [...flatten(payload).entries()]))
        slots[i] = slots[i] && slots[i] !== kind ? 'i64' : kind;
    return slots;
}
