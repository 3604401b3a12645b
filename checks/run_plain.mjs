// Runs a program by node's own WASI, which `checks/run` compares `./hux run` with:
// node run_plain.mjs [--env NAME=VALUE] [--dir FOLDER::NAME] COMPONENT [WORD..]
//
// The program is the first core module of the component, as the linker of components leaves it; the
// adapter behind it is not run. Its memory has the limit that one of `hux live` has.
import { readFileSync } from 'node:fs';
import { basename } from 'node:path';
import { WASI } from 'node:wasi';
import { limited } from '../run/modules.mjs';

const PREAMBLE = 8, CORE_MODULE = 1, MAX_PAGES = 1024;

// A number in LEB128, and where it ends.
function number(bytes, at) {
    for (let value = 0, shift = 1; ; shift *= 128) {
        const byte = bytes[at++];
        value += (byte & 0x7f) * shift;
        if (byte < 128) return [value, at];
    }
}

function firstModule(bytes) {
    for (let at = PREAMBLE; ;) {
        const [size, begin] = number(bytes, at + 1);
        if (bytes[at] === CORE_MODULE) return bytes.subarray(begin, begin + size);
        at = begin + size;
    }
}

function read(words) {
    const env = {}, preopens = {};
    while (words[0].startsWith('--')) {
        const [option, word] = words.splice(0, 2);
        const [name, value] = option === '--env' ? word.split('=') : word.split('::').reverse();
        (option === '--env' ? env : preopens)[name] = value;
    }
    return { env, preopens };
}

const words = process.argv.slice(2), given = read(words), [file] = words;
const args = [basename(file), ...words.slice(1)];
const wasi = new WASI({ version: 'preview1', args, ...given });
const module = new WebAssembly.Module(limited(firstModule(readFileSync(file)), MAX_PAGES));
const instance = new WebAssembly.Instance(module, wasi.getImportObject());
try {
    process.exitCode = wasi.start(instance) === 0 ? 0 : 1; // all that the adapter tells of it
} catch (error) {
    console.error(error.message);
    process.exitCode = 3;
}
