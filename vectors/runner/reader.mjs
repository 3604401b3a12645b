// A place in bytes.
export class Reader {
    constructor(data, at = 0) { this.data = data; this.at = at; }
    byte() { return this.data[this.at++]; }
    u32() {
        let value = 0n, shift = 0n, byte;
        do {
            byte = this.byte();
            value |= BigInt(byte & 127) << shift;
            shift += 7n;
        } while (byte & 128);
        return Number(value);
    }
    take(count) { this.at += count; return this.data.subarray(this.at - count, this.at); }
    text() { return new TextDecoder().decode(this.take(this.u32())); }
    name() { this.byte(); return this.text(); }
    vec(item) { return Array.from({ length: this.u32() }, item); }
}
