// Runs vectors with no part of Huxarte: components are read by Binary.md, values pass by
// CanonicalABI.md, node runs the core modules.
//
//     node run.mjs FILE.wast ..        a line a file; status 1 where an assertion fails
//
// FAULT=NAME plants a fault, or takes a freedom, of those that --faults and --freedoms print.
import { basename } from 'node:path';
import { FAULTS, FREEDOMS } from './runner/faults.mjs';
import { failuresOf, readVector } from './runner/wast.mjs';

const words = process.argv.slice(2);
if (words[0] === '--faults') {
    console.log(FAULTS.join('\n'));
} else if (words[0] === '--freedoms') {
    console.log(FREEDOMS.join('\n'));
} else {
    for (const file of words) {
        const failures = failuresOf(readVector(file));
        console.log(`${basename(file, '.wast')}: ${failures.join('; ') || 'ok'}`);
        if (failures.length) process.exitCode = 1;
    }
}
