// The rooms that a guest's allocator answers for the parts of one value.

const PAGE = 65536;

export class Rooms {
    constructor() { this.clear(); }

    // A value is handed over. The page that was grown for it may be the allocator's from here on,
    // since a C library takes what is behind its heap for its own.
    clear() {
        this.answered = [];
        this.spare = { at: 0, end: 0 };
    }

    // The room that is answered: the one at `at` that the allocator gave, or, where that overlaps
    // one that it gave for another part, a fresh one. Nothing is known of an empty room.
    choose(memory, at, old, oldSize, align, size) {
        at >>>= 0;
        if (size === 0) return at;
        if (oldSize > 0) this.answered = this.answered.filter((room) => room.at !== old >>> 0);
        if (this.answered.some((room) => room.at < at + size && at < room.at + room.size))
            at = this.fresh(memory, align, size) ?? at;
        this.answered.push({ at, size });
        return at;
    }

    // A room in a page that the memory has grown by; none where it cannot grow, so that the machine
    // stops the guest, as it does for regions that overlap.
    fresh(memory, align, size) {
        let at = Math.ceil(this.spare.at / align) * align;
        if (at + size > this.spare.end) {
            const pages = Math.ceil(size / PAGE);
            try {
                at = memory.grow(pages) * PAGE;
            } catch {
                return undefined;
            }
            this.spare.end = at + pages * PAGE;
        }
        this.spare.at = at + size;
        return at;
    }
}
