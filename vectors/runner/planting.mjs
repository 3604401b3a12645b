// Plants each fault alone, and writes or holds the table of the vectors that find it.
import { readdirSync, readFileSync, writeFileSync } from 'node:fs';
import { basename, join } from 'node:path';
import { FAULTS, FREEDOMS, plant } from './faults.mjs';
import { failuresOf, readVector } from './wast.mjs';

const TOP = join(import.meta.dirname, '..'), PAGE = join(TOP, 'faults.md');
const SHOWN = 4;

function vectorsOf(folder) {
    const files = readdirSync(join(TOP, folder)).filter((it) => it.endsWith('.wast')).sort();
    const read = (file) => readVector(join(TOP, folder, file));
    return files.map((file) => ({ name: basename(file, '.wast'), ...read(file) }));
}

// The names of the vectors that fail with a fault, or with none.
function finding(vectors, fault) {
    plant(fault ? [fault] : []);
    return vectors.filter((it) => failuresOf(it).length).map((it) => it.name);
}

function listed(names) {
    const more = names.length > SHOWN ? ', ..' : '';
    return names.slice(0, SHOWN).map((it) => `\`${it}\``).join(', ') + more || 'none';
}

const faultRow = ({ name, found }) => `| \`${name}\` | ${found.length} | ${listed(found)} |`;
const freedomRow = ({ name, found, others }) =>
    `| \`${name}\` | ${listed(found)} | ${listed(others)} |`;

function page(faults, freedoms) {
    return ['# Planted faults', '',
        'Each fault of `run.mjs` alone, how many vectors find it, and the first of them. Written',
        'by `vectors/faults --write`.', '',
        '| Fault | Found by | Vectors |', '|---|--:|---|', ...faults.map(faultRow), '',
        'Freedoms, which a runtime may take, or took by an older text of the standard: no vector',
        'of `portable/` fails with one of them, and of `conditional/` these do.', '',
        '| Freedom | Of `portable/` | Of `conditional/` |', '|---|---|---|',
        ...freedoms.map(freedomRow), ''].join('\n');
}

const portable = vectorsOf('portable'), conditional = vectorsOf('conditional');
const all = [...portable, ...conditional];
const faults = FAULTS.map((name) => ({ name, found: finding(all, name) }));
const freedoms = FREEDOMS.map((name) => ({ name, found: finding(portable, name),
    others: finding(conditional, name) }));
const made = page(faults, freedoms);
const wrong = [
    ...finding(all, null).map((it) => `${it} fails with no fault`),
    ...faults.filter((it) => !it.found.length).map((it) => `no vector finds ${it.name}`),
    ...freedoms.flatMap(({ name, found }) => found.map((it) => `${it} fails with ${name}`)),
];
if (process.argv[2] === '--write') writeFileSync(PAGE, made);
else if (readFileSync(PAGE, 'utf8') !== made) wrong.push('faults.md is not what --write writes');
for (const it of wrong) console.log(`vectors/faults: ${it}`);
console.log(`${FAULTS.length} faults, ${FREEDOMS.length} freedoms, ${all.length} vectors`);
process.exitCode = wrong.length ? 1 : 0;
