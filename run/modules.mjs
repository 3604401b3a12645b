// Core modules as the machine's memories want them: none may have more pages than one of the
// machine's, so that a guest that asks for more is refused by its engine, as by the machine.

const MEMORIES = 5; // the section of memories (core specification, "Memory Section")

class Reader {
    constructor(bytes, at) { Object.assign(this, { bytes, at }); }

    byte() { return this.bytes[this.at++]; }

    number() {
        for (let value = 0, shift = 1; ; shift *= 128) {
            const byte = this.byte();
            value += (byte & 0x7f) * shift;
            if (byte < 128) return value;
        }
    }
}

function number(value) {
    const bytes = [];
    for (; value >= 128; value = Math.floor(value / 128)) bytes.push(value % 128 + 128);
    return [...bytes, value];
}

function limitedMemory(reader, most) {
    const flags = reader.byte(), min = reader.number(), max = flags & 1 ? reader.number() : most;
    return [flags | 1, ...number(min), ...number(Math.max(min, Math.min(max, most)))];
}

// Where the section of memories begins, and where its content stands; nothing where there is none.
function findMemories(bytes) {
    const reader = new Reader(bytes, 8);
    while (reader.at < bytes.length) {
        const begin = reader.at, id = reader.byte(), size = reader.number(), from = reader.at;
        if (id === MEMORIES) return { begin, from, end: from + size };
        reader.at = from + size;
    }
    return undefined;
}

// The bytes of a core module whose memories have at most so many pages.
export function limited(bytes, most) {
    const found = findMemories(bytes);
    if (!found) return bytes;
    const reader = new Reader(bytes, found.from), count = reader.number(), content = number(count);
    for (let i = 0; i < count; i++) content.push(...limitedMemory(reader, most));
    const section = Buffer.from([MEMORIES, ...number(content.length), ...content]);
    return Buffer.concat([bytes.subarray(0, found.begin), section, bytes.subarray(found.end)]);
}
