// Tries to leave a folder while another thread renames and relinks what is in it: that swaps `swap`
// between a folder and a link to `..`, and `name` between a file and a link to ../secret. Goes on
// until files were read and links refused COUNT times each: node run_race.mjs [COUNT]. Prints how
// often each came of it, and ends with status 1 where the secret was read, or time was too short.
import * as fs from 'node:fs';
import { tmpdir } from 'node:os';
import { join } from 'node:path';
import { Worker, isMainThread, workerData } from 'node:worker_threads';
import { filesystem } from '../run/wasi/filesystem.mjs';

const SWAPS = [['swap', 'folder'], ['swap', 'link'], ['name', 'file'], ['name', 'out']];
const TRIES = [['swap/secret', true], ['swap/secret', false], ['name', true], ['name', false],
    ['swap/../folder/secret', true]];

function rename(folder, from, to) {
    try {
        fs.renameSync(join(folder, from), join(folder, to));
    } catch {
        // It was not there this time.
    }
}

function swap(folder, a, b) {
    rename(folder, a, `${b}.x`);
    rename(folder, b, a);
    rename(folder, `${b}.x`, b);
}

function make() {
    const top = fs.mkdtempSync(join(tmpdir(), 'hux-race-'));
    fs.mkdirSync(join(top, 'inside/folder'), { recursive: true });
    fs.writeFileSync(join(top, 'secret'), 'secret');
    fs.writeFileSync(join(top, 'inside/folder/secret'), 'inner');
    fs.writeFileSync(join(top, 'inside/file'), 'inner');
    fs.symlinkSync('..', join(top, 'inside/link'));
    fs.symlinkSync('../secret', join(top, 'inside/out'));
    return top;
}

// What comes of reading a file: its text, or why not.
function tryRead(host, folder, path, follow) {
    const call = (name, ...args) => host[`types#[method]descriptor.${name}`](...args);
    try {
        const how = { 'symlink-follow': follow };
        const file = call('open-at', folder, how, path, {}, { read: true });
        const text = call('read', file, 10n, 0n)[0].toString();
        file.close();
        return text;
    } catch (error) {
        return error.value ?? error.code ?? error.message;
    }
}

const MOST = 120_000; // milliseconds

async function race(count) {
    const top = make(), host = filesystem({ dirs: [{ path: join(top, 'inside'), name: '/' }] });
    const [[folder]] = host['preopens#get-directories'](), counts = {};
    const worker = new Worker(new URL(import.meta.url), { workerData: join(top, 'inside') });
    const enough = () => counts.inner >= count && counts['not-permitted'] >= count;
    for (const end = Date.now() + MOST; !enough() && !counts.secret && Date.now() < end;) {
        const [path, follow] = TRIES[Math.floor(Math.random() * TRIES.length)];
        const came = tryRead(host, folder, path, follow);
        counts[came] = (counts[came] ?? 0) + 1;
    }
    counts.enough = enough();
    await worker.terminate();
    fs.rmSync(top, { recursive: true });
    return counts;
}

if (isMainThread) {
    const counts = await race(Number(process.argv[2] ?? 100));
    console.log(JSON.stringify(counts));
    process.exitCode = counts.secret || !counts.enough ? 1 : 0;
} else {
    for (;;) SWAPS.forEach(([a, b]) => swap(workerData, a, b));
}
