// The functions of WASI 0.2 that a program has, by their names without versions.
import { cli } from './wasi/cli.mjs';
import { clocks } from './wasi/clocks.mjs';
import { filesystem } from './wasi/filesystem.mjs';
import { io } from './wasi/io.mjs';
import { random } from './wasi/random.mjs';

const PACKAGES = { cli, clocks, filesystem, io, random };

// Answers, for what a program is given, the function of a name, as
// `wasi:io/streams@0.2.6#[method]output-stream.write`. One that is not here stops the program, and
// only where it is called.
export function wasi(given) {
    const functions = new Map(Object.entries(PACKAGES).flatMap(([name, make]) =>
        Object.entries(make(given)).map(([item, func]) => [`wasi:${name}/${item}`, func])));
    return (name) => functions.get(name.replace(/@[^#]*/, ''))
        ?? (() => { throw new Error(`the host has no ${name}`); });
}
