// "load_string_from_range" and "store_string_into_range". A string that is lifted is { encoding,
// units, text }: what it was encoded in decides what its receiver is asked for.
import { fault, Trap } from './faults.mjs';

const TAG = 2 ** 31; // of a length of latin1+utf16: the bytes are UTF-16

// The encoding of the bytes themselves, and how many units there are.
function simple(encoding, length) {
    if (encoding !== 'latin1+utf16') return [encoding, length];
    const isWide = length >= TAG && !fault('tag-ignored');
    return [isWide ? 'utf16' : 'latin1', length % TAG];
}

function decoded(bytes, encoding) {
    if (encoding === 'latin1' && !fault('latin1-is-utf8'))
        return Buffer.from(bytes).toString('latin1');
    const label = encoding === 'utf16' ? 'utf-16le' : 'utf-8';
    const fatal = !fault(encoding === 'utf16' ? 'utf16-lossy' : 'utf8-lossy');
    const ignoreBOM = !fault('mark-of-order-lost'); // U+FEFF at the front stays in the text
    try {
        return new TextDecoder(label, { fatal, ignoreBOM }).decode(bytes);
    } catch {
        throw new Trap(`invalid ${encoding}: not utf`);
    }
}

export function loadString(memory, pointer, length) {
    const [encoding, units] = simple(memory.options.encoding, length);
    const count = units * (encoding === 'utf16' ? 2 : 1);
    memory.check(pointer, memory.options.encoding === 'utf8' ? 1 : 2, count, 'pointer');
    const value = { encoding, units,
        get text() { return decoded(memory.bytes(pointer, count), encoding); } };
    return fault('lifted-as-it-is-stored') ? value : { ...value };
}

function encoded(text, encoding) {
    if (encoding === 'utf8') return Buffer.from(text, 'utf8');
    const unit = (scalar) => Buffer.from(scalar, 'utf16le').subarray(0, 2);
    if (fault('astral-is-one-unit')) return Buffer.concat([...text].map(unit));
    return Buffer.from(text, 'utf16le');
}

// The room of a string, and how it grows and shrinks.
class Room {
    constructor(memory, align, size) {
        this.memory = memory;
        this.align = align;
        this.size = size;
    }
    ask() { this.pointer ??= this.memory.realloc(0, 0, this.align, this.size); }
    resize(count) {
        const old = fault('grows-from-nothing') ? 0 : this.size;
        const at = this.memory.realloc(this.pointer, old, this.align, count);
        if (!fault('string-grown-stale')) this.pointer = at;
        this.size = count;
    }
    put(bytes, from = 0) {
        this.memory.bytes(this.pointer + from, bytes.length - from).set(bytes.subarray(from));
    }
}

// How many bytes are asked for first: in UTF-16 two for each unit, which is also the most that
// UTF-8 takes there; in UTF-8 one, which is enough where all is ASCII.
const firstSize = (units, to) => to === 'utf16' ? 2 * units : units;

// The most bytes that a text of other units may take in UTF-8.
function worstCase(from, units) {
    return units * (from === 'utf16' && !fault('worst-case-too-small') ? 3 : 2);
}

// The pointer and the length of a string that is stored, with the requests of the standard.
export function storeString(memory, value) {
    const { encoding: from, units } = value, to = memory.options.encoding;
    const align = to === 'utf16' && !fault('utf16-asked-unaligned') ? 2 : 1;
    const room = new Room(memory, align, firstSize(units, to));
    if (fault('lifted-as-it-is-stored')) room.ask();
    const bytes = encoded(value.text, to);
    const inUnits = to === 'utf16' && !fault('utf16-length-in-bytes');
    const length = inUnits ? bytes.length / 2 : bytes.length;
    if (bytes.length === 0 && fault('no-request-for-empty')) return [1, 0];
    if (fault('exact-first-request')) room.size = bytes.length;
    room.ask();
    const ascii = to === 'utf8' && from !== to ? bytes.findIndex((byte) => byte >= 128) : -1;
    if (ascii >= 0 && !fault('exact-first-request')) {
        // What is known to be ASCII is stored before more room is asked for.
        room.put(bytes.subarray(0, ascii));
        room.resize(worstCase(from, units));
        room.put(bytes, ascii);
    } else {
        room.put(bytes);
    }
    if (bytes.length < room.size && !fault('no-shrink')) room.resize(bytes.length);
    if (fault('text-ends-with-0')) memory.bytes(room.pointer + bytes.length, 1).fill(0);
    return [room.pointer, length];
}
