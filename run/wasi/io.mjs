// wasi:io: errors, pollables, and streams over files of this process.
import { readSync, writeSync } from 'node:fs';
import { Failure } from '../values.mjs';

const MOST = 65536; // bytes that a stream takes or gives at once
const SHORT = 5; // milliseconds to wait for a file that is not ready
const bell = new Int32Array(new SharedArrayBuffer(4));
const sleep = (milliseconds) => Atomics.wait(bell, 0, 0, milliseconds);

// Does a thing again until its file is ready for it, which one that does not block may not be.
export function patiently(what) {
    for (;;) {
        try {
            return what();
        } catch (error) {
            if (error.code !== 'EAGAIN') throw error;
            sleep(SHORT);
        }
    }
}

// Is ready from a time of process.hrtime.bigint() on, or always.
export class Pollable {
    constructor(time = 0n) { this.time = time; }

    left() { return this.time === 0n ? 0 : Number(this.time - process.hrtime.bigint()) / 1e6; }

    block() { for (let left = this.left(); left > 0; left = this.left()) sleep(left); }
}

const failed = (error) => new Failure(error.code === 'EPIPE' ? { tag: 'closed' }
    : { tag: 'last-operation-failed', value: { code: error.code, text: error.message } });

// Reads a file from a place on, or, where there is none, from where it is.
export class InputStream {
    constructor(file, at = null) { Object.assign(this, { file, at }); }

    read(most) {
        const bytes = Buffer.allocUnsafe(Math.min(Number(most), MOST));
        if (bytes.length === 0) return bytes;
        const count = this.fill(bytes);
        if (count === 0) throw new Failure({ tag: 'closed' });
        if (this.at !== null) this.at += count;
        return bytes.subarray(0, count);
    }

    fill(bytes) {
        try {
            return patiently(() => readSync(this.file, bytes, 0, bytes.length, this.at));
        } catch (error) {
            if (error.code === 'EOF') return 0;
            throw failed(error);
        }
    }
}

// Writes a file from a place on, or, where there is none, where it is.
export class OutputStream {
    constructor(file, at = null) { Object.assign(this, { file, at }); }

    write(bytes) {
        try {
            for (let from = 0; from < bytes.length;) from += this.some(bytes, from);
        } catch (error) {
            throw failed(error);
        }
    }

    some(bytes, from) {
        const count =
            patiently(() => writeSync(this.file, bytes, from, bytes.length - from, this.at));
        if (this.at !== null) this.at += count;
        return count;
    }

    splice(from, most) {
        const bytes = from.read(most);
        this.write(bytes);
        return BigInt(bytes.length);
    }
}

const read = (stream, most) => stream.read(most);
const skip = (stream, most) => BigInt(stream.read(most).length);
const write = (stream, bytes) => stream.write(bytes);
const zeroes = (stream, count) => stream.write(Buffer.alloc(Number(count)));
const splice = (stream, from, most) => stream.splice(from, most);

export const io = () => ({
    'error#[method]error.to-debug-string': (error) => error.text,

    'poll#[method]pollable.ready': (pollable) => pollable.left() <= 0,
    'poll#[method]pollable.block': (pollable) => pollable.block(),
    'poll#poll'(pollables) {
        pollables.reduce((a, b) => (a.left() <= b.left() ? a : b)).block();
        return [...pollables.keys()].filter((i) => pollables[i].left() <= 0);
    },

    'streams#[method]input-stream.read': read,
    'streams#[method]input-stream.blocking-read': read,
    'streams#[method]input-stream.skip': skip,
    'streams#[method]input-stream.blocking-skip': skip,
    'streams#[method]input-stream.subscribe': () => new Pollable(),
    'streams#[method]output-stream.check-write': () => BigInt(MOST),
    'streams#[method]output-stream.write': write,
    'streams#[method]output-stream.blocking-write-and-flush': write,
    'streams#[method]output-stream.flush': () => {},
    'streams#[method]output-stream.blocking-flush': () => {},
    'streams#[method]output-stream.subscribe': () => new Pollable(),
    'streams#[method]output-stream.write-zeroes': zeroes,
    'streams#[method]output-stream.blocking-write-zeroes-and-flush': zeroes,
    'streams#[method]output-stream.splice': splice,
    'streams#[method]output-stream.blocking-splice': splice,
});
