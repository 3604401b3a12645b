// Runs a command of WASI 0.2, as `./hux run`: makes its stub, starts `hux live` on both, and plays
// their core modules over the host's functions. HUX names the program `hux`.
import { mkdtempSync, rmSync } from 'node:fs';
import { tmpdir } from 'node:os';
import { join } from 'node:path';
import { Exit, Trapped, start } from './engine.mjs';
import { host } from './host.mjs';
import { Refused, ask } from './hux.mjs';
import { wasi } from './wasi.mjs';
import { USAGE, read } from './words.mjs';

const MAIN = /^wasi:cli\/run@0\.2\.\d+#run$/;
const hux = process.env.HUX ?? join(import.meta.dirname, '../hux');

// Tells of a trap: who stopped where, what it means, and its usual cause.
async function explain({ message, number, where }, app) {
    const meaning = await ask(hux, 'explain', 'trap', String(number));
    const lines = [`error: ${app}: ${message}: ${where}`, ...meaning.split('\n').slice(0, 2)];
    console.error(lines.join('\n'));
}

// Calls the program's main function: its status.
async function call(engine, app) {
    const guest = engine.guests.at(-1), names = [...guest.exports.keys()];
    const main = names.find((name) => MAIN.test(name));
    if (!main) throw new Refused(1, `error: ${app}: no command: it exports no wasi:cli/run@0.2`);
    try {
        return engine.root(guest, main, guest.func[guest.exports.get(main)]);
    } catch (error) {
        if (error instanceof Exit) return error.status;
        if (!(error instanceof Trapped)) throw error;
        await explain(error, app);
        return 3;
    }
}

async function run(given) {
    const room = mkdtempSync(join(tmpdir(), 'hux-run-')), stub = join(room, 'host.wasm');
    try {
        await ask(hux, 'stub', ...given.libraries, given.app, '-o', stub);
        const files = [stub, ...given.libraries, given.app];
        const codes = [(types) => host(types, wasi(given))];
        const engine = await start(hux, files, { ...given, codes });
        const status = await call(engine, given.app).finally(() => engine.end());
        return await engine.end() === 4 ? 4 : status; // 4 where it could not write what it records
    } finally {
        rmSync(room, { recursive: true });
    }
}

try {
    const given = read(process.argv.slice(2));
    if (given.help) console.log(USAGE);
    else process.exitCode = await run(given);
} catch (error) {
    if (!(error instanceof Refused)) throw error;
    if (error.message) console.error(error.message);
    process.exitCode = error.status;
}
