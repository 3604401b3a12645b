// Paths below a folder. A path is walked name by name, and each name is looked up in the open
// folder before it, by /proc/self/fd/N/NAME, which is Linux's `openat` in the words of node. So no
// step leaves the folder, whatever is renamed meanwhile. Symbolic links are read and walked here;
// the kernel follows none. `..` goes back to the folder that was walked from, and from the first
// folder nowhere.
import * as fs from 'node:fs';
import { Failure } from '../values.mjs';

const O_PATH = 0o10000000, MOST_LINKS = 40;
const FOLDER = O_PATH | fs.constants.O_DIRECTORY | fs.constants.O_NOFOLLOW;

// What the kernel finds under a name in an open folder.
export const at = (file, name) => `/proc/self/fd/${file}/${name}`;

const isBlank = (name) => name === '' || name === '.';
const isThere = (path) => fs.lstatSync(path, { throwIfNoEntry: false }) !== undefined;

// What a symbolic link says; nothing where it is none, or, at the end of a path, not there.
function linked(path, isEnd) {
    try {
        return fs.readlinkSync(path);
    } catch (error) {
        if (error.code === 'EINVAL' || (isEnd && error.code === 'ENOENT')) return undefined;
        throw error;
    }
}

class Walk {
    constructor(file, path, follow) {
        this.folders = [file]; // those that were walked through, all of them open
        this.names = path.split('/');
        this.follow = follow;
        this.links = 0;
    }

    get folder() { return this.folders.at(-1); }

    // Goes on by one name; answers the name in the folder where the path ends, or else nothing.
    step() {
        const name = this.names.shift(), isLast = this.names.length === 0;
        if (name === '..') this.back();
        if (name === '..' || isBlank(name)) return isLast ? '.' : undefined;
        const isEnd = this.names.every(isBlank), path = at(this.folder, name);
        const link = this.follow || !isLast ? linked(path, isEnd) : undefined;
        if (link !== undefined) return this.turn(link);
        // `new/` at the end is what a folder to be made is called.
        if (isLast || (isEnd && !isThere(path))) return name;
        this.folders.push(fs.openSync(path, FOLDER));
        return undefined;
    }

    back() {
        if (this.folders.length === 1) throw new Failure('not-permitted');
        fs.closeSync(this.folders.pop());
    }

    turn(link) {
        this.links += 1;
        if (this.links > MOST_LINKS) throw new Failure('loop');
        if (link.startsWith('/')) throw new Failure('not-permitted');
        this.names.unshift(...link.split('/'));
        return undefined;
    }

    end() { this.folders.slice(1).forEach((file) => fs.closeSync(file)); }
}

// Walks a path from an open folder on, and answers what `what` does with the open folder and the
// name in it at which the path ends; that is no symbolic link where links are followed.
export function walk(file, path, follow, what) {
    if (path === '') throw new Failure('no-entry');
    if (path.includes('\0')) throw new Failure('invalid');
    if (path.startsWith('/')) throw new Failure('not-permitted');
    const way = new Walk(file, path, follow);
    try {
        let name;
        while (name === undefined) name = way.step();
        return what(way.folder, name);
    } finally {
        way.end();
    }
}
