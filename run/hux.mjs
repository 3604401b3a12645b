// Asks `hux`.
import { execFile } from 'node:child_process';

const MOST = 1e9; // bytes of what a command prints

// What ends a command: its status, and what is said of it, which may have been said already.
export class Refused extends Error {
    constructor(status, text) {
        super(text);
        this.status = status;
    }
}

// Runs `hux` to its end, and answers its output.
export function ask(hux, ...words) {
    return new Promise((answer, refuse) => {
        execFile(hux, words, { encoding: 'utf8', maxBuffer: MOST }, (error, output, errors) => {
            if (!error) answer(output);
            else if (typeof error.code !== 'number')
                refuse(new Refused(4, `error: ${hux}: ${error.message}`));
            else refuse(new Refused(error.code, errors.trimEnd()));
        });
    });
}
