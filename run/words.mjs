// The words behind `./hux run`.
import { statSync } from 'node:fs';
import { resolve } from 'node:path';
import { Refused } from './hux.mjs';

export const USAGE = `Runs a command of WASI 0.2: a component that exports wasi:cli/run

Usage: ./hux run [OPTIONS] <FILE> [WORD]...

Arguments:
  <FILE>     The component; it reads standard input
  [WORD]...  Its words

Options:
      --env <NAME=VALUE>       A variable of its environment, which is empty else
      --dir <FOLDER[::NAME]>   A folder that it is given, as NAME, and nothing beside it; on Linux
      --with <FILE>            A component that it imports from; several come in their order
      --record <SCRIPT>        Writes the moves as a script for play
      --values                 Tells calls and their values on standard error
      --overlap <move|stop>    Where an allocator answers one room for two parts of a value: a fresh
                               room, which is the default, or trap 17
      --tell <values|all>      What the machine is told of memories: the bytes of values, which is
                               the default, or each change
  -h, --help                   Print help

Ends with the program's own status, 0 or 1; 1 also where a file is refused; 2 for other words; 3
where it trapped, which standard error tells of; 4 where something could not be read or written.

Example:
  ./hux run examples/live/greeting.wasm Ada
prints
  Hello, Ada!
  That is 3 bytes, of which half are 1.5.`;

function usage(text) { throw new Refused(2, `error: usage: ${text}\n\n${USAGE}`); }

function variable(word) {
    const at = word.indexOf('=');
    if (at < 1) usage(`--env expects NAME=VALUE, not ${word}`);
    return [word.slice(0, at), word.slice(at + 1)];
}

function folder(word) {
    const [path, name = path] = word.split('::');
    if (process.platform !== 'linux') throw new Refused(4, 'error: --dir works on Linux alone');
    const found = statSync(path, { throwIfNoEntry: false });
    if (!found) throw new Refused(4, `error: ${path}: Read: there is no such folder`);
    if (!found.isDirectory()) throw new Refused(4, `error: ${path}: Read: this is no folder`);
    return { path: resolve(path), name };
}

function choice(word, ...of) {
    return of.includes(word) ? word : usage(`expected ${of.join(' or ')}, not ${word}`);
}

// What each option does with the words that follow.
const OPTIONS = {
    '--env': (given, next) => given.env.push(variable(next())),
    '--dir': (given, next) => given.dirs.push(folder(next())),
    '--with': (given, next) => given.libraries.push(next()),
    '--record': (given, next) => given.live.push('--record', next()),
    '--values': (given) => given.live.push('--values'),
    '--overlap'(given, next) { given.strict = choice(next(), 'move', 'stop') === 'stop'; },
    '--tell'(given, next) { given.all = choice(next(), 'values', 'all') === 'all'; },
    '--help'(given) { given.help = true; },
    '-h'(given) { given.help = true; },
};

// What the words ask for; those behind the component are its own.
export function read(words) {
    const given = { env: [], dirs: [], libraries: [], live: [], all: false, strict: false };
    const rest = [...words];
    while (rest[0]?.startsWith('-') && rest[0] !== '-') {
        const [option, ...value] = rest.shift().split('=');
        if (option === '--') break;
        if (value.length > 0) rest.unshift(value.join('='));
        const next = () => rest.shift() ?? usage(`${option} expects a word`);
        (OPTIONS[option] ?? (() => usage(`there is no option ${option}`)))(given, next);
    }
    if (given.help) return given;
    given.app = rest.shift() ?? usage('a component is missing');
    if ([given.app, ...given.libraries].includes('-'))
        usage('a component is read from a file, since standard input is the program\'s');
    given.words = rest;
    return given;
}
