// Faults that can be planted in this runner, one at a time, to see which vectors find them; and
// freedoms, which a runtime may take, or took by an older text of the standard.
export const FAULTS = [
    // layout
    'u64-aligned-to-4', 'record-not-padded', 'case-payload-not-aligned', 'tag-of-257-is-a-byte',
    'flags-9-are-a-word', 'flags-17-are-3-bytes', 'enum-as-u32', 'fixed-list-behind-pointer-size',
    // values
    's8-not-extended', 'u8-not-wrapped', 'u64-as-double', 'bool-as-it-is', 'bool-is-its-low-bit',
    'bool-is-its-low-byte', 'flags-not-cut', 'char-surrogate', 'char-beyond', 'case-beyond',
    'slots-unused-left', 'i64-slot-not-narrowed', 'list-reversed', 'result-case-swapped',
    'option-tag-inverted', 'fields-stored-last-first', 'sixteen-are-spilled',
    // texts
    'utf16-asked-unaligned', 'utf16-length-in-bytes', 'astral-is-one-unit', 'utf8-lossy',
    'utf16-lossy', 'latin1-is-utf8', 'tag-ignored', 'mark-of-order-lost', 'string-grown-stale',
    'grows-from-nothing', 'worst-case-too-small', 'text-ends-with-0',
    // pointers and requests
    'pointer-unaligned', 'pointer-beyond', 'end-wraps', 'count-wraps', 'empty-not-checked',
    'returned-place-not-checked', 'answer-unaligned', 'answer-beyond', 'asks-aligned-to-1',
    'asks-count-not-bytes', 'memory-view-stale',
    // handles
    'fifo-handles', 'handles-from-0', 'borrows-may-stay', 'own-of-lent', 'own-of-borrowed',
    'own-stays', 'other-resource', 'drop-keeps', 'no-destructor', 'destructor-of-handle',
    'destructor-of-a-borrow', 'destructor-may-trap', 'rep-is-the-handle', 'own-resource-by-handle',
    'borrow-takes', 'lends-stay',
    // calls
    'no-post-return', 'post-return-early', 'post-return-gets-nothing', 'post-return-may-trap',
    'realloc-may-leave', 'post-may-leave', 'call-may-leave', 'closed-may-enter',
];
export const FREEDOMS = [
    'lifted-as-it-is-stored', 'padding-written', 'exact-first-request', 'no-shrink',
    'no-request-for-empty', 'borrows-checked-last', 'a-trap-closes-all',
    'one-table-each-resource',
];

let planted;

// Plants faults by their names, in place of those before.
export function plant(names) {
    const unknown = names.find((it) => !FAULTS.includes(it) && !FREEDOMS.includes(it));
    if (unknown) throw new Error(`no fault ${unknown}`);
    planted = new Set(names);
}
plant((process.env.FAULT ?? '').split(',').filter(Boolean));

export const fault = (name) => planted.has(name);

// What may trap; by a fault of this name the trap is lost.
export function trapping(name, body) {
    try {
        body();
    } catch (error) {
        if (!fault(name)) throw error;
    }
}

// A trap of the Canonical ABI; one of a core module is a WebAssembly.RuntimeError.
export class Trap extends Error {}
export function trapIf(condition, text) {
    if (condition) throw new Trap(text);
}
