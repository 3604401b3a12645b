// Reads the .wast files of this folder, which have one component in binary and assertions on its
// exports, and says which of them fail. It is no reader of other .wast files.
import { readFileSync } from 'node:fs';
import { Trap } from './faults.mjs';
import { Instance } from './instance.mjs';

const COMPONENT = /\(component binary((?:\s*"[^"]*")*)/;
const ASSERTION = /\(assert_(return|trap) \(invoke "([^"]*)"\)(?: "([^"]*)")?\)/g;
// Traps of core modules, as the tests of WebAssembly spell them.
const CORE_TRAPS = { 'divide by zero': 'integer divide by zero',
    'memory access out of bounds': 'out of bounds memory access' };

function binaryOf(text) {
    const strings = [...COMPONENT.exec(text)[1].matchAll(/"([^"]*)"/g)].map((it) => it[1]).join('');
    const bytes = [...strings.matchAll(/\\([0-9a-f]{2})|(.)/g)];
    return Uint8Array.from(bytes, ([, hex, char]) => hex ? parseInt(hex, 16) : char.charCodeAt(0));
}

// What a trap says. Of a core module also the name of its function, which says what differs.
function textOf(error) {
    if (error instanceof Trap) return error.message;
    if (!(error instanceof WebAssembly.RuntimeError)) return `in the runner: ${error.message}`;
    const where = /at ([^(]*) \(wasm:/.exec(error.stack)?.[1];
    const text = CORE_TRAPS[error.message] ?? error.message;
    return where ? `${text} (${where.replace(/^.*?\.(?=entry|run)/, '')})` : text;
}

function outcome({ core, instance }) {
    try {
        instance.entered(() => core());
        return 'returns';
    } catch (error) {
        return textOf(error);
    }
}

// A file: its component, and what is asserted of exports, as [.., kind, name, text of a trap].
export function readVector(path) {
    const text = readFileSync(path, 'latin1');
    return { binary: binaryOf(text), assertions: [...text.matchAll(ASSERTION)] };
}

// The assertions of a file that fail.
export function failuresOf({ binary, assertions }) {
    const failures = [];
    let exports;
    try {
        ({ exports } = Instance.root(binary));
    } catch (error) {
        return [`no instance: ${error.message}`];
    }
    for (const [, kind, name, wanted] of assertions) {
        const came = outcome(exports[name]);
        const isRight = kind === 'return' ? came === 'returns' : came.includes(wanted);
        if (!isRight) failures.push(`${name}: ${came}`);
    }
    return failures;
}
