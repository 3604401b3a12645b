// Plays the core modules of a linked set: node runs them, and `hux live`, which this starts, does
// what passes between them (`crates/cm_live`).
import { changes } from './changes.mjs';
import { Refused } from './hux.mjs';
import { Program } from './pipes.mjs';
import { Guest } from './plan.mjs';
import { Reach } from './reach.mjs';

const PAGE = 65536; // bytes of a page of memory
const MOST_AHEAD = 1000; // lines whose answers are not read yet, so that neither pipe fills

// A guest ends its program, with this status: to the machine a stop.
export class Exit extends Error {
    constructor(status) {
        super(`exit ${status}`);
        this.status = status;
    }
}

// All that were on the stack are over.
export class Trapped extends Error {
    constructor(number, where) {
        super(`trapped ${number}`);
        Object.assign(this, { number, where });
    }
}

const number = (word) => (word.startsWith('i64:')
    ? BigInt.asIntN(64, BigInt(word.slice(4))) : Number(word.replace('i32:', '')) | 0);
const word = (value) =>
    (typeof value === 'bigint' ? `i64:${BigInt.asUintN(64, value)}` : `i32:${value >>> 0}`);

// Starts a set of these files, or of those of a bundle, and makes its core modules ready. `live` are
// words for `hux live`; `codes` are the `code` of each Guest that has one; with `all` the machine is
// told each change of a memory, and else what values take; with `strict` a room that an allocator
// answers twice is handed on as it is, which traps.
export async function start(hux, files, { live = [], codes = [], ...how } = {}) {
    const machine = new Program(hux, ['live', '-q', ...live, ...files]);
    try {
        return new Engine(machine, codes, how);
    } catch (error) {
        const status = await machine.end();
        if (!(error instanceof Lost) || status === 0) throw error;
        throw new Refused(status === 3 ? 1 : status, ''); // `hux live` has said why
    }
}

// `hux live` is gone, or refuses a line.
class Lost extends Refused {
    constructor(text) { super(4, `error: hux live: ${text}`); }
}

export class Engine {
    constructor(machine, codes, { all = false, strict = false }) {
        Object.assign(this, { machine, all, strict });
        this.guests = [];
        this.due = []; // what the answers to the lines that went ahead have to begin with
        for (let [kind, ...rest] = this.read(); kind !== 'ready'; [kind, ...rest] = this.read()) {
            const next = this.guests.length;
            if (kind === 'component') this.guests.push(new Guest(this, next, ...rest, codes[next]));
            else this.guests.at(-1).add(kind, ...rest);
        }
    }

    read() {
        const line = this.machine.read();
        if (line === undefined) throw new Lost('it has ended');
        return line.split(' ');
    }

    // A line that is sent ahead of the next move.
    ahead(line, answer) {
        this.machine.write(line);
        if (this.due.push(answer) >= MOST_AHEAD) this.settle();
    }

    settle() {
        for (const wanted of this.due) {
            const [kind, ...rest] = this.read();
            if (kind !== wanted || rest[0] === 'none') throw new Lost([kind, ...rest].join(' '));
        }
        this.due.length = 0;
    }

    // Makes a move, and answers the event that comes of it, behind what was written for a guest.
    play(move, where) {
        this.machine.write(move);
        this.settle();
        let next = this.read();
        for (; next[0] === 'mem'; next = this.read()) this.receive(...next);
        if (next[0] === 'trapped') throw new Trapped(+next[1], where);
        if (next[0] === 'error:') throw new Lost(next.slice(1).join(' '));
        if (next[0] !== 'realloc') this.guests.forEach((guest) => guest.rooms.clear());
        return next;
    }

    receive(_, instance, at, hex) {
        const { room, known } = this.guests[instance], bytes = Buffer.from(hex, 'hex');
        bytes.copy(Buffer.from(room.buffer), +at);
        if (known) bytes.copy(known, +at);
    }

    // Tells the machine of a guest's memory: what has changed, or what stands in these regions.
    tell(guest, regions) {
        if (!guest.room) return;
        const now = Buffer.from(guest.room.buffer), more = now.length / PAGE - guest.pages;
        if (more > 0) this.ahead(`grow ${more}`, 'grown');
        guest.pages += more;
        for (const [from, to] of this.all ? this.changed(guest, now) : regions)
            this.ahead(`write ${from} ${now.hexSlice(from, to)}`, 'done');
    }

    // What has changed in a guest's memory, which is known from here on.
    changed(guest, now) {
        guest.known = Buffer.concat([guest.known ?? Buffer.alloc(0)], now.length);
        const found = changes(guest.known, now);
        found.forEach(([from, to]) => now.copy(guest.known, from, from, to));
        return found;
    }

    // A core function of a guest runs, and returns: the event that comes of that. `regions` answers
    // where the result's bytes stand.
    run(guest, name, body, regions = () => []) {
        let result;
        try {
            result = body();
        } catch (error) {
            if (error instanceof Trapped || error instanceof Refused || error.isTold) throw error;
            this.stop(guest, name, error);
        }
        this.tell(guest, this.all ? [] : regions(result));
        const move = result === undefined ? 'return' : `return ${word(result)}`;
        return this.play(move, `${guest.name} returns from ${name}`);
    }

    // A guest stops, so that all that is on the stack is over: by a trap of its own, or to exit.
    stop(guest, name, error) {
        if (!(error instanceof Exit)) console.error(`${guest.name}: ${reason(error)}`);
        try {
            this.play('unreachable', `${guest.name} stops in ${name}`);
        } catch (trapped) {
            if (!(error instanceof Exit)) throw trapped;
            error.isTold = true;
            throw error;
        }
    }

    // A guest calls out. What comes of it runs, until the guest goes on with the result.
    call(guest, func, values, name, signature) {
        this.tell(guest, signature && !this.all ? argumentsAt(guest, func, values, signature) : []);
        const move = ['call', func, ...values.map(word)].join(' ');
        let next = this.play(move, `${guest.name} calls ${name}`);
        while (next[0] !== 'resume') next = this.enter(...next);
        return next.length > 2 ? number(next[2]) : undefined;
    }

    // A core function begins: a lifted one, an allocator, a post-return function or a destructor.
    enter(kind, instance, func, ...words) {
        const guest = this.guests[instance], values = words.map(number);
        const body = () => guest.func[func](...values);
        if (kind === 'realloc')
            return this.run(guest, 'its allocator', () => this.room(guest, body(), values));
        const lifts = kind === 'enter' ? guest.lifts.get(+func) : undefined;
        if (!lifts) return this.run(guest, kind, body);
        const regions = (result) => resultAt(guest, func, result, lifts);
        return this.run(guest, lifts[0].name, body, regions);
    }

    room(guest, at, sizes) {
        return this.strict ? at : guest.rooms.choose(guest.room, at, ...sizes);
    }

    // Begins a root call of a guest, which runs `body`: what that answers.
    root(guest, name, body) {
        let answer;
        this.play(`begin ${guest.index}`, 'the root call');
        this.run(guest, name, () => { answer = body(); });
        return answer;
    }

    // Ends `hux live`, and answers its status.
    end() { return this.machine.end(); }
}

// Where the bytes of a call's arguments stand.
function argumentsAt(guest, func, values, { params, paramsFar }) {
    const reach = new Reach(guest.room, guest.encodings[func]);
    let i = 0;
    if (paramsFar) reach.whole(params, values[0] >>> 0);
    else reach.flat(params, () => values[i++]);
    return reach.merged();
}

// Where the bytes of a result stand, which a core function may be lifted with in several types.
function resultAt(guest, func, answer, lifts) {
    const reach = new Reach(guest.room, guest.encodings[func]);
    for (const { signature: { result, resultFar } } of lifts) {
        if (resultFar) reach.whole(result, answer >>> 0);
        else if (result?.far) reach.flat(result, () => answer);
    }
    return reach.merged();
}

// Why a guest stops: of its core code also where.
function reason(error) {
    if (!(error instanceof WebAssembly.RuntimeError)) return error.message;
    const places = error.stack.split('\n').slice(1).filter((line) => line.includes('wasm://'));
    return [error.message, ...places.slice(0, 4)].join('\n');
}
