// A memory in which values pass, and the allocator that gives room in it.
import { fault, trapIf } from './faults.mjs';

export class Memory {
    constructor(instance, options) { this.instance = instance; this.options = options; }

    // A memory that grows has another buffer then.
    get view() {
        if (!fault('memory-view-stale')) return new DataView(this.options.memory.buffer);
        return this.stale ??= new DataView(this.options.memory.buffer);
    }
    get length() { return this.options.memory?.buffer.byteLength ?? 0; }
    bytes(at, count) { return new Uint8Array(this.view.buffer, at, count); }

    // Holds a guest's pointer, or an answer of its allocator.
    check(pointer, align, count, who) {
        if (count === 0 && fault('empty-not-checked')) return;
        const isOdd = pointer % align !== 0;
        trapIf(isOdd && !fault(`${who}-unaligned`), 'pointer not aligned');
        const end = fault('end-wraps') ? (pointer + count) >>> 0 : pointer + count;
        trapIf(end > this.length && !fault(`${who}-beyond`), 'pointer out of bounds of memory');
    }
    realloc(old, oldSize, align, count) {
        const asked = fault('asks-aligned-to-1') ? 1 : align;
        const ask = () => this.options.realloc(old, oldSize, asked, count);
        const pointer = this.instance.inside('realloc', ask) >>> 0;
        this.check(pointer, asked, count, 'answer');
        return pointer;
    }

    // Numbers of 1, 2, 4 and 8 bytes (of 3 by a fault); those of 8 are BigInt.
    loadInt(at, count, signed = false) {
        if (count === 3) return this.view.getUint16(at, true) | this.view.getUint8(at + 2) << 16;
        if (count < 8) return this.view[`get${signed ? 'Int' : 'Uint'}${8 * count}`](at, true);
        const value = this.view[signed ? 'getBigInt64' : 'getBigUint64'](at, true);
        return fault('u64-as-double') ? BigInt(Number(value)) : value;
    }
    storeInt(at, count, value) {
        if (count === 8) {
            this.view.setBigUint64(at, BigInt.asUintN(64, value), true);
        } else if (count === 3) {
            this.view.setUint16(at, value & 65535, true);
            this.view.setUint8(at + 2, value >> 16);
        } else {
            this.view[`setUint${8 * count}`](at, value, true);
        }
    }
}
