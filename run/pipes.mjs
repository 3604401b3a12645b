// Starts a program with a pipe to it and a pipe from it, both of which block: the call of a core
// function has to wait for its answer, and node's own pipes can't. Other languages have such pipes.
import { execFileSync, spawn } from 'node:child_process';
import { appendFileSync, closeSync, mkdtempSync, openSync, readSync, rmSync, writeSync }
    from 'node:fs';
import { tmpdir } from 'node:os';
import { join } from 'node:path';

const PIECE = 65536; // bytes that are read at once
const { TRACE } = process.env; // a file that each line is written to
const trace = TRACE ? (mark, line) => appendFileSync(TRACE, `${mark} ${line}\n`) : () => {};

export class Program {
    constructor(program, words) {
        const folder = mkdtempSync(join(tmpdir(), 'hux-pipes-'));
        const [TO, FROM] = [join(folder, 'to'), join(folder, 'from')];
        execFileSync('mkfifo', [TO, FROM]);
        const child = spawn('sh', ['-c', 'exec "$0" "$@" <"$TO" >"$FROM"', program, ...words],
            { stdio: ['ignore', 'ignore', 'inherit'], env: { ...process.env, TO, FROM } });
        this.status = new Promise((answer) => {
            child.once('exit', (status) => answer(status ?? 4));
        });
        this.to = openSync(TO, 'w');
        this.from = openSync(FROM, 'r');
        rmSync(folder, { recursive: true });
        this.piece = Buffer.allocUnsafe(PIECE);
        this.waiting = []; // lines that are not written yet
        this.lines = []; // lines that were read, of which so many were given out
        this.given = 0;
        this.begun = ''; // what was read of the next one
    }

    // Writes a line, which goes with others when an answer is wanted.
    write(line) {
        trace('>', line);
        this.waiting.push(line);
    }

    flush() {
        if (this.waiting.length === 0) return;
        const bytes = Buffer.from(`${this.waiting.join('\n')}\n`, 'latin1');
        this.waiting = [];
        try {
            for (let at = 0; at < bytes.length;) at += writeSync(this.to, bytes, at);
        } catch (error) {
            if (error.code !== 'EPIPE') throw error; // the program has ended, as reading tells
        }
    }

    // The next line; none where the program has ended.
    read() {
        this.flush();
        while (this.given === this.lines.length) {
            const count = readSync(this.from, this.piece);
            if (count === 0) return undefined;
            this.lines = (this.begun + this.piece.latin1Slice(0, count)).split('\n');
            this.begun = this.lines.pop();
            this.given = 0;
        }
        trace('<', this.lines[this.given]);
        return this.lines[this.given++];
    }

    // Ends the input, and answers the status with which the program ends.
    end() {
        if (this.to === undefined) return this.status;
        this.flush();
        closeSync(this.to);
        this.to = undefined;
        while (readSync(this.from, this.piece) > 0);
        closeSync(this.from);
        return this.status;
    }
}
