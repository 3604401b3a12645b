// What has changed in a memory since the machine was told of it: the costly way to tell, which
// needs no types, and to which `checks/run` holds the other.

const LARGE = 65536, SMALL = 1024; // bytes that are compared at once, first and then
const NEAR = 64; // bytes between two regions that are told as one

// Regions as [from, to], where `now` is not as `known`, which has the same length.
export function changes(known, now) {
    const found = [];
    for (let at = 0; at < now.length; at += LARGE) {
        if (now.compare(known, at, at + LARGE, at, at + LARGE) !== 0)
            changesOfPage(known, now, at, found);
    }
    return found;
}

function changesOfPage(known, now, page, found) {
    for (let at = page; at < page + LARGE; at += SMALL) {
        if (now.compare(known, at, at + SMALL, at, at + SMALL) === 0) continue;
        const [from, to] = trimmed(known, now, at), last = found.at(-1);
        if (last && from - last[1] <= NEAR) last[1] = to;
        else found.push([from, to]);
    }
}

function trimmed(known, now, at) {
    const is = (i) => now[at + i] !== known[at + i];
    const all = Array.from({ length: SMALL }, (_, i) => i);
    return [at + all.findIndex(is), at + all.findLastIndex(is) + 1];
}
