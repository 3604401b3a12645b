// The types of a component's functions, as the rows `type` and `func` of a plan say them (those of
// `hux show --json`), with their layouts (CanonicalABI.md, "Alignment", "Element Size",
// "Flattening").
//
// A layout has its kind, size, alignment, core values (`flat`), and whether it has bytes elsewhere
// (`far`).

const MAX_FLAT_PARAMS = 16, MAX_FLAT_RESULTS = 1;
const NUMBERS = {
    bool: [1, 'i32'], u8: [1, 'i32'], s8: [1, 'i32'], u16: [2, 'i32'], s16: [2, 'i32'],
    u32: [4, 'i32'], s32: [4, 'i32'], char: [4, 'i32'], u64: [8, 'i64'], s64: [8, 'i64'],
};

export const aligned = (at, align) => Math.ceil(at / align) * align;

function number(kind) {
    const [size, flat] = NUMBERS[kind];
    return { kind, size, align: size, flat: [flat], far: false };
}

const pointed = (kind, more) =>
    ({ kind, size: 8, align: 4, flat: ['i32', 'i32'], far: true, ...more });

const handle = ({ kind, resource }) =>
    ({ kind, resource, size: 4, align: 4, flat: ['i32'], far: false });

function record(fields) {
    let at = 0, align = 1;
    const placed = fields.map(({ name, type }) => {
        at = aligned(at, type.align);
        align = Math.max(align, type.align);
        at += type.size;
        return { name, type, at: at - type.size };
    });
    return { kind: 'record', fields: placed, size: aligned(at, align), align,
        flat: fields.flatMap(({ type }) => type.flat), far: fields.some(({ type }) => type.far) };
}

const tuple = (parts) =>
    ({ ...record(parts.map((type, name) => ({ name, type }))), kind: 'tuple' });

// The core values of a variant: the tag, and behind it values that serve each payload.
function joined(payloads) {
    const most = Math.max(0, ...payloads.map((type) => type.flat.length));
    const kinds = (i) => new Set(payloads.map((type) => type.flat[i]).filter(Boolean));
    const join = (all) => (all.size === 1 ? [...all][0] : 'i64');
    return ['i32', ...Array.from({ length: most }, (_, i) => join(kinds(i)))];
}

function variant(cases, more) {
    const tag = cases.length <= 256 ? 1 : cases.length <= 65536 ? 2 : 4;
    const payloads = cases.map(({ type }) => type).filter(Boolean);
    const inner = Math.max(1, ...payloads.map((type) => type.align)), at = aligned(tag, inner);
    const align = Math.max(tag, inner);
    const size = aligned(at + Math.max(0, ...payloads.map((type) => type.size)), align);
    return { kind: 'variant', cases, tag, at, align, size, flat: joined(payloads),
        far: payloads.some((type) => type.far), ...more };
}

// A layout of each kind of row; `of` answers that of a type which the row names.
const MAKERS = {
    list: ({ element, length }, of) => length === undefined || length === null
        ? pointed('list', { element: of(element) })
        : tuple(Array.from({ length }, () => of(element))),
    record: ({ fields }, of) => record(fields.map(({ name, type }) => ({ name, type: of(type) }))),
    tuple: ({ parts }, of) => tuple(parts.map(of)),
    variant: ({ cases }, of) =>
        variant(cases.map(({ name, type }) => ({ name, type: of(type) }))),
    enum: ({ labels }) => variant(labels.map((name) => ({ name })), { kind: 'enum' }),
    option: ({ some }, of) =>
        variant([{ name: 'none' }, { name: 'some', type: of(some) }], { kind: 'option' }),
    result: ({ ok, error }, of) => variant(
        [{ name: 'ok', type: of(ok) }, { name: 'error', type: of(error) }], { kind: 'result' }),
    flags({ labels }) {
        const size = labels.length <= 8 ? 1 : labels.length <= 16 ? 2 : 4;
        return { kind: 'flags', labels, size, align: size, flat: ['i32'], far: false };
    },
    own: handle,
    borrow: handle,
};

// Of a component: the functions that it imports and exports, by `interface#function`; and the
// resources of its exports.
export class Signatures {
    constructor() {
        this.types = new Map();
        this.imports = new Map();
        this.exports = new Map();
        this.resources = [];
    }

    type(of) {
        if (of === null || of === undefined) return undefined;
        if (of === 'string') return pointed('string');
        return typeof of === 'string' ? number(of) : this.types.get(of);
    }

    add(row) {
        const name = row.import ?? row.export;
        if (row.kind) this.types.set(row.type, MAKERS[row.kind](row, (type) => this.type(type)));
        const into = row.import === undefined ? this.exports : this.imports;
        if (row.func) into.set(name, this.func(row.func));
        (row.items ?? []).forEach((item) => this.addItem(into, name, item));
    }

    addItem(into, face, { name, func, resource }) {
        if (func) into.set(`${face}#${name}`, this.func(func));
        if (resource !== undefined && into === this.exports)
            this.resources.push({ number: resource, face, name });
    }

    // The types of a function, and whether its values pass by a pointer.
    func({ params, result }) {
        const all = record(params.map(({ name, type }) => ({ name, type: this.type(type) })));
        const answer = this.type(result);
        return { params: all, result: answer, paramsFar: all.flat.length > MAX_FLAT_PARAMS,
            resultFar: (answer?.flat.length ?? 0) > MAX_FLAT_RESULTS };
    }
}
