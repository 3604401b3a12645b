// wasi:filesystem: the folders that the program is given, and nothing beside them. A descriptor is
// an open file of this process.
import * as fs from 'node:fs';
import { Failure } from '../values.mjs';
import { InputStream, OutputStream, patiently } from './io.mjs';
import { at, walk } from './paths.mjs';

const C = fs.constants, BIG = { bigint: true }, MOST = 1 << 20; // bytes that are read at once
const SECOND = 1_000_000_000n, MODE = 0o666;

const CODES = {
    EACCES: 'access', EAGAIN: 'would-block', EBADF: 'bad-descriptor', EBUSY: 'busy',
    EDQUOT: 'quota', EEXIST: 'exist', EFBIG: 'file-too-large', EILSEQ: 'illegal-byte-sequence',
    EINTR: 'interrupted', EINVAL: 'invalid', EIO: 'io', EISDIR: 'is-directory', ELOOP: 'loop',
    EMLINK: 'too-many-links', ENAMETOOLONG: 'name-too-long', ENODEV: 'no-device',
    ENOENT: 'no-entry', ENOMEM: 'insufficient-memory', ENOSPC: 'insufficient-space',
    ENOTDIR: 'not-directory', ENOTEMPTY: 'not-empty', ENOTSUP: 'unsupported',
    ENXIO: 'no-such-device', EOVERFLOW: 'overflow', EPERM: 'not-permitted', EPIPE: 'pipe',
    EROFS: 'read-only', ESPIPE: 'invalid-seek', ETXTBSY: 'text-file-busy', EXDEV: 'cross-device',
};
const KINDS = {
    'regular-file': 'isFile', directory: 'isDirectory', 'symbolic-link': 'isSymbolicLink',
    fifo: 'isFIFO', 'block-device': 'isBlockDevice', 'character-device': 'isCharacterDevice',
    socket: 'isSocket',
};

// Makes a function whose failures are error codes.
const coded = (func) => (...args) => {
    try {
        return func(...args);
    } catch (error) {
        if (error instanceof Failure || !error.code) throw error;
        throw new Failure(CODES[error.code] ?? 'io');
    }
};

class Descriptor {
    constructor(file, flags) { Object.assign(this, { file, flags }); }

    close() { fs.closeSync(this.file); }

    // The file, where it was opened for this.
    for(flag) {
        if (!this.flags[flag]) throw new Failure('bad-descriptor');
        return this.file;
    }

    // The folder, where what it has may be changed.
    get changed() {
        if (!this.flags['mutate-directory']) throw new Failure('read-only');
        return this.file;
    }
}

class Entries {
    constructor(entries) { this.entries = entries; }

    next() { return this.entries.shift(); }
}

const kind = (stat) => Object.keys(KINDS).find((name) => stat[KINDS[name]]()) ?? 'unknown';
const time = (ns) => ({ seconds: ns / SECOND, nanoseconds: Number(ns % SECOND) });
const status = (stat) => ({
    type: kind(stat), 'link-count': stat.nlink, size: stat.size,
    'data-access-timestamp': time(stat.atimeNs),
    'data-modification-timestamp': time(stat.mtimeNs),
    'status-change-timestamp': time(stat.ctimeNs),
});
const hash = ({ dev, ino }) => ({ lower: ino, upper: dev });

// The time that a new timestamp means, in seconds, where `was` was the one before.
function seconds({ tag, value }, was) {
    if (tag === 'now') return Date.now() / 1000;
    return tag === 'timestamp'
        ? Number(value.seconds) + value.nanoseconds / 1e9 : Number(was) / 1e9;
}

const follows = (flags) => flags['symlink-follow'];

// The bits with which the kernel opens a file; it is never to follow a link, or to wait.
function bits(how, flags) {
    const chosen = [
        [how.create, C.O_CREAT], [how.exclusive, C.O_EXCL], [how.truncate, C.O_TRUNC],
        [how.directory, C.O_DIRECTORY], [flags['file-integrity-sync'], C.O_SYNC],
        [flags['requested-write-sync'], C.O_SYNC], [flags['data-integrity-sync'], C.O_DSYNC],
    ].filter(([wanted]) => wanted);
    const access = flags.write ? (flags.read ? C.O_RDWR : C.O_WRONLY) : C.O_RDONLY;
    return chosen.reduce((sum, [, bit]) => sum | bit, access | C.O_NOFOLLOW | C.O_NONBLOCK);
}

function open(folder, pathFlags, path, how, flags) {
    const makes = how.create || how.truncate || flags.write || flags['mutate-directory'];
    const from = makes ? folder.changed : folder.file;
    return walk(from, path, follows(pathFlags) && !how.exclusive, (file, name) => {
        const opened = fs.openSync(at(file, name), bits(how, flags), MODE);
        return new Descriptor(opened, { ...flags, read: flags.read || !flags.write });
    });
}

// Writes at the end of a file, wherever that is at each write.
class AppendingStream extends OutputStream {
    write(bytes) {
        this.at = fs.fstatSync(this.file).size;
        super.write(bytes);
    }
}

// Changes what has a path.
const change = (folder, path, what) =>
    walk(folder.changed, path, false, (file, name) => what(at(file, name)));

// Two paths, walked one behind the other.
const changeBoth = (folder, path, other, into, what) =>
    change(folder, path, (from) => change(other, into, (to) => what(from, to)));

// A link that leads to one place whatever the folder is would lead out of it.
function inner(link) {
    if (link.startsWith('/')) throw new Failure('not-permitted');
    return link;
}

const METHODS = {
    'read-via-stream': (d, offset) => new InputStream(d.for('read'), Number(offset)),
    'write-via-stream': (d, offset) => new OutputStream(d.for('write'), Number(offset)),
    'append-via-stream': (d) => new AppendingStream(d.for('write')),
    advise: () => {},
    'sync-data': (d) => fs.fdatasyncSync(d.file),
    sync: (d) => fs.fsyncSync(d.file),
    'get-flags': (d) => d.flags,
    'get-type': (d) => kind(fs.fstatSync(d.file)),
    'set-size': (d, size) => fs.ftruncateSync(d.for('write'), Number(size)),
    'set-times'(d, access, modification) {
        const was = fs.fstatSync(d.file, BIG);
        const times = [seconds(access, was.atimeNs), seconds(modification, was.mtimeNs)];
        fs.futimesSync(d.file, ...times);
    },
    read(d, length, offset) {
        const bytes = Buffer.alloc(Math.min(Number(length), MOST)), file = d.for('read');
        const count =
            patiently(() => fs.readSync(file, bytes, 0, bytes.length, Number(offset)));
        return [bytes.subarray(0, count), count === 0];
    },
    write(d, bytes, offset) {
        const file = d.for('write');
        return BigInt(patiently(() =>
            fs.writeSync(file, bytes, 0, bytes.length, Number(offset))));
    },
    'read-directory'(d) {
        const entries = fs.readdirSync(at(d.for('read'), '.'), { withFileTypes: true });
        return new Entries(entries.map((entry) => ({ type: kind(entry), name: entry.name })));
    },
    'create-directory-at': (d, path) => change(d, path, (one) => fs.mkdirSync(one)),
    stat: (d) => status(fs.fstatSync(d.file, BIG)),
    'stat-at': (d, flags, path) => walk(d.file, path, follows(flags),
        (file, name) => status(fs.lstatSync(at(file, name), BIG))),
    'set-times-at'(d, flags, path, access, modification) {
        walk(d.changed, path, follows(flags), (file, name) => {
            const one = at(file, name), was = fs.lstatSync(one, BIG);
            const times = [seconds(access, was.atimeNs), seconds(modification, was.mtimeNs)];
            fs.lutimesSync(one, ...times);
        });
    },
    'link-at'(d, flags, path, other, into) {
        if (follows(flags)) throw new Failure('invalid');
        changeBoth(d, path, other, into, fs.linkSync);
    },
    'open-at': open,
    'readlink-at': (d, path) => inner(walk(d.file, path, false,
        (file, name) => fs.readlinkSync(at(file, name)))),
    'remove-directory-at': (d, path) => change(d, path, (one) => fs.rmdirSync(one)),
    'rename-at': (d, path, other, into) => changeBoth(d, path, other, into, fs.renameSync),
    'symlink-at': (d, link, path) => change(d, path, (one) => fs.symlinkSync(inner(link), one)),
    'unlink-file-at': (d, path) => change(d, path, (one) => fs.unlinkSync(one)),
    'metadata-hash': (d) => hash(fs.fstatSync(d.file, BIG)),
    'metadata-hash-at': (d, flags, path) => walk(d.file, path, follows(flags),
        (file, name) => hash(fs.lstatSync(at(file, name), BIG))),
};

function isSame(descriptor, other) {
    const [a, b] = [descriptor, other].map(({ file }) => fs.fstatSync(file, BIG));
    return a.dev === b.dev && a.ino === b.ino;
}

export const filesystem = ({ dirs }) => ({
    'preopens#get-directories': () => dirs.map(({ path, name }) => {
        const file = fs.openSync(path, C.O_RDONLY | C.O_DIRECTORY);
        return [new Descriptor(file, { read: true, 'mutate-directory': true }), name];
    }),
    'types#filesystem-error-code': ({ code }) => CODES[code],
    'types#[method]directory-entry-stream.read-directory-entry': (entries) => entries.next(),
    'types#[method]descriptor.is-same-object': isSame,
    ...Object.fromEntries(Object.entries(METHODS).map(([name, func]) =>
        [`types#[method]descriptor.${name}`, coded(func)])),
});
