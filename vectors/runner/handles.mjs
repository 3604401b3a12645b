// The table of handles of an instance: from 1 on, the index that was freed last is used first.
import { fault, trapIf } from './faults.mjs';

class Table {
    constructor() { this.entries = fault('handles-from-0') ? [] : [null]; this.free = []; }

    add(handle) {
        const index = this.free.length ? this.nextFree() : this.entries.length;
        this.entries[index] = handle;
        return index;
    }
    nextFree() { return fault('fifo-handles') ? this.free.shift() : this.free.pop(); }
    get(index) {
        trapIf(!this.entries[index], `unknown handle index ${index}`);
        return this.entries[index];
    }
    remove(index) {
        this.entries[index] = undefined;
        this.free.push(index);
    }
}

// A handle is { type, rep, own, lends }, and { scope } of a borrowed one: its call.
export class Handles {
    constructor() { this.table = new Table(); this.tables = new Map(); }

    of(type) {
        if (!fault('one-table-each-resource')) return this.table;
        if (!this.tables.has(type)) this.tables.set(type, new Table());
        return this.tables.get(type);
    }
    add(handle) { return this.of(handle.type).add(handle); }
    remove(index, type) { this.of(type).remove(index); }
    get(index, type) {
        const handle = this.of(type).get(index);
        const isOther = handle.type !== type && !fault('other-resource');
        trapIf(isOther, `handle index ${index} is used with the wrong type`);
        return handle;
    }

    // "lift_own" and "lift_borrow": the representation of a handle that is given or lent.
    take(index, type) {
        const handle = this.get(index, type);
        trapIf(handle.lends > 0 && !fault('own-of-lent'),
            'cannot remove owned resource while it is lent');
        trapIf(!handle.own && !fault('own-of-borrowed'),
            'cannot lift own resource from a borrow');
        if (!fault('own-stays')) this.remove(index, type);
        return handle.rep;
    }
    lend(index, type, scope) {
        const handle = this.get(index, type);
        handle.lends += 1;
        scope.lenders.push(handle);
        if (fault('borrow-takes')) this.remove(index, type);
        return handle.rep;
    }
    drop(index, type) {
        const handle = this.get(index, type);
        trapIf(handle.lends > 0, 'cannot remove owned resource while it is lent');
        if (!fault('drop-keeps')) this.remove(index, type);
        return handle;
    }
}
