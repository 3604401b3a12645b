// wasi:cli: words, environment, exit, standard streams, terminals.
import { basename } from 'node:path';
import { isatty } from 'node:tty';
import { Exit } from '../engine.mjs';
import { Failure } from '../values.mjs';
import { InputStream, OutputStream } from './io.mjs';

const terminal = (file) => () => (isatty(file) ? { file } : undefined);

export const cli = ({ app, words, env }) => ({
    'environment#get-arguments': () => [basename(app), ...words],
    'environment#get-environment': () => env,
    'environment#initial-cwd': () => undefined,

    'exit#exit'(status) { throw new Exit(status instanceof Failure ? 1 : 0); },
    'exit#exit-with-code'(status) { throw new Exit(status); },

    'stdin#get-stdin': () => new InputStream(0),
    'stdout#get-stdout': () => new OutputStream(1),
    'stderr#get-stderr': () => new OutputStream(2),
    'terminal-stdin#get-terminal-stdin': terminal(0),
    'terminal-stdout#get-terminal-stdout': terminal(1),
    'terminal-stderr#get-terminal-stderr': terminal(2),
});
