// Runs examples/live's two components, whose strings are UTF-16 and UTF-8, so many times in one
// root call: node shelves.mjs TIMES. Each time makes eight calls, which pass texts, records with
// lists of texts, and a resource with a destructor. The first one answers 0; later ones count what
// is gone from before. HUX names the program.
import { join } from 'node:path';
import { start } from '../run/engine.mjs';

const hux = process.env.HUX, live = join(import.meta.dirname, '../examples/live');
const files = ['library', 'reader'].map((name) => join(live, `${name}.wasm`));
const engine = await start(hux, files);
const guest = engine.guests.at(-1), [[name, func]] = guest.exports;
const answers = [];
engine.root(guest, name, () => {
    for (let i = 0; i < Number(process.argv[2]); i++) answers.push(guest.func[func]());
});
await engine.end();
process.exitCode = answers[0] === 0 ? 0 : 1;
