// Calls the first function that the last of some components exports, in the engine of run/, and
// prints what it answers: node call.mjs FILE.. [--record SCRIPT]. HUX names a program for ../../hux,
// and TRACE a file that each line is written to.
import { join } from 'node:path';
import { Trapped, start } from '../../run/engine.mjs';

const hux = process.env.HUX ?? join(import.meta.dirname, '../../hux');
const words = process.argv.slice(2), end = [...words, '--record'].indexOf('--record');
const engine = await start(hux, words.slice(0, end), { live: words.slice(end) });
const guest = engine.guests.at(-1), [[name, func]] = guest.exports;
try {
    console.log(`${name} answers ${engine.root(guest, name, guest.func[func]) ?? 'nothing'}`);
} catch (error) {
    if (!(error instanceof Trapped)) throw error;
    console.log(`${error.message}: ${error.where}`);
    process.exitCode = 3;
}
await engine.end();
