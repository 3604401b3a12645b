// Types of a component, read by Binary.md: { kind, .. }. Records are tuples; options, results and
// enums are variants; an option is marked, and so is a result, for faults alone.
const PRIMITIVE = { 0x7f: 'bool', 0x7e: 's8', 0x7d: 'u8', 0x7c: 's16', 0x7b: 'u16', 0x7a: 's32',
    0x79: 'u32', 0x78: 's64', 0x77: 'u64', 0x74: 'char', 0x73: 'string' };

export function valType(types, r) {
    return PRIMITIVE[r.data[r.at]] ? { kind: PRIMITIVE[r.byte()] } : types[r.u32()];
}
const optType = (types, r) => r.byte() ? valType(types, r) : undefined;

// A case of a variant: label, payload, and a byte that once said what it refines.
function caseType(types, r) {
    r.text();
    const payload = optType(types, r);
    r.byte();
    return payload;
}

// A type of the code, other than of a resource.
export function typeOf(code, types, r) {
    if (PRIMITIVE[code]) return { kind: PRIMITIVE[code] };
    const value = () => valType(types, r), optional = () => optType(types, r);
    const field = () => (r.text(), value());
    const variant = (cases, marks) => ({ kind: 'variant', cases, ...marks });
    return {
        0x72: () => ({ kind: 'tuple', fields: r.vec(field) }),
        0x6f: () => ({ kind: 'tuple', fields: r.vec(value) }),
        0x71: () => variant(r.vec(() => caseType(types, r))),
        0x6d: () => variant(r.vec(() => void r.text()), { isEnum: true }),
        0x6b: () => variant([undefined, value()], { isOption: true }),
        0x6a: () => variant([optional(), optional()], { isResult: true }),
        0x6e: () => ({ kind: 'flags', count: r.vec(() => r.text()).length }),
        0x70: () => ({ kind: 'list', element: value() }),
        0x67: () => ({ kind: 'list', element: value(), count: r.u32() }),
        0x69: () => ({ kind: 'own', resource: types[r.u32()] }),
        0x68: () => ({ kind: 'borrow', resource: types[r.u32()] }),
        0x40: () => ({ params: r.vec(field), result: r.byte() === 0 ? value() : void r.byte() }),
        0x42: () => (skipInstanceType(r), {}),
    }[code]();
}

// What an import is to be: whoever gives it knows, so it is read, and nothing is made of it.
function skipInstanceType(r) {
    const types = [];
    r.vec(() => {
        const kind = r.byte();
        if (kind === 1) types.push(typeOf(r.byte(), types, r));
        else if (kind === 2) types.push(skipOuterAlias(r));
        else if (skipNamedDesc(r) === 3) types.push({});
    });
}

function skipOuterAlias(r) {
    r.take(2);
    r.u32();
    r.u32();
    return {};
}

function skipNamedDesc(r) {
    r.name();
    return skipDesc(r);
}

// Skips an `externdesc`, and answers its sort.
export function skipDesc(r) {
    const sort = r.byte();
    if (sort !== 3 || r.byte() === 0) r.u32();
    return sort;
}
