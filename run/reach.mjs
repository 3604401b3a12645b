// Where the bytes of values stand in a memory.
import { tagAt } from './values.mjs';

const NEAR = 64; // bytes between two regions that are told as one
const WIDE = 2 ** 31; // the bit that says of `latin1+utf16` that a text is UTF-16

// Regions as [from, to]. What does not lie in the memory is left out: it is a trap of the machine's
// to pass it, so that nothing has to be said of what is there.
export class Reach {
    constructor(memory, encoding) {
        this.view = new DataView(memory ? memory.buffer : new ArrayBuffer(0));
        this.encoding = encoding;
        this.regions = [];
    }

    // Adds a region, and answers whether it is in the memory.
    add(at, size) {
        const isInside = at + size <= this.view.byteLength;
        if (isInside && size > 0) this.regions.push([at, at + size]);
        return isInside;
    }

    // A value in memory: its own bytes, and those elsewhere.
    whole(type, at) {
        if (this.add(at, type.size)) this.from(type, at);
    }

    // What a value in memory has elsewhere.
    from(type, at) {
        const word = (where) => this.view.getUint32(where, true);
        if (!type.far) return;
        if (type.kind === 'string' || type.kind === 'list') this.far(type, word(at), word(at + 4));
        else if (type.fields) type.fields.forEach((f) => this.from(f.type, at + f.at));
        else {
            const payload = type.cases[tagAt(type, this.view, at)]?.type;
            if (payload) this.from(payload, at + type.at);
        }
    }

    far({ kind, element }, at, count) {
        if (kind === 'string') {
            const isLatin = this.encoding === 'latin1+utf16';
            const isWide = this.encoding === 'utf16' || (isLatin && count >= WIDE);
            this.add(at, isWide ? (count % WIDE) * 2 : count);
        } else if (this.add(at, count * element.size) && element.far)
            for (let i = 0; i < count; i++) this.from(element, at + i * element.size);
    }

    // What a value of these core values has elsewhere: `next` gives one at a time.
    flat(type, next) {
        if (!type.far) type.flat.forEach(() => next());
        else if (type.kind === 'string' || type.kind === 'list') {
            const at = Number(next()) >>> 0;
            this.far(type, at, Number(next()) >>> 0);
        } else if (type.fields) type.fields.forEach((f) => this.flat(f.type, next));
        else {
            const payload = type.cases[next() >>> 0]?.type;
            const others = type.flat.slice(1).map(() => next());
            if (payload?.far)
                this.flat(payload, () => Number(BigInt.asUintN(32, BigInt(others.shift()))));
        }
    }

    // The regions in order, those that touch or nearly do as one.
    merged() {
        const merged = [];
        for (const [from, to] of this.regions.sort((a, b) => a[0] - b[0])) {
            const last = merged.at(-1);
            if (last && from - last[1] <= NEAR) last[1] = Math.max(last[1], to);
            else merged.push([from, to]);
        }
        return merged;
    }
}
