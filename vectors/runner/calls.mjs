// "canon lift" and "canon lower": a call of a lifted function by a lowered one.
import { fault, trapIf, trapping } from './faults.mjs';
import { flatten } from './layout.mjs';
import { Passing } from './values.mjs';

const MOST_PARAMS = 16, MOST_RESULTS = 1;

function holdBorrows(scope) {
    trapIf(scope.borrows > 0 && !fault('borrows-may-stay'),
        'borrow handles still remain at the end of the call');
}

// The core function that calls `func` for a caller.
export function lowered(caller, func, options) {
    return (...slots) => {
        if (!fault('call-may-leave')) caller.leave();
        return func.instance.entered(() => call(caller, func, options, slots));
    };
}

function postReturn(instance, post, raw) {
    if (!post || fault('no-post-return')) return;
    const given = fault('post-return-gets-nothing') ? [] : raw;
    trapping('post-return-may-trap', () => instance.inside('post', () => post(...given)));
}

function call(caller, func, options, slots) {
    const { type, core, instance } = func, results = type.result ? [type.result] : [];
    const scope = { lenders: [], borrows: 0 };
    const from = new Passing(caller, options, scope);
    const to = new Passing(instance, func.options, scope);
    const values = from.liftValues(type.params, slots, MOST_PARAMS);
    const isSpilled = results.flatMap(flatten).length > MOST_RESULTS;
    const place = isSpilled ? Number(slots.shift()) >>> 0 : undefined;
    const most = fault('sixteen-are-spilled') ? MOST_PARAMS - 1 : MOST_PARAMS;
    const returned = core(...to.lowerValues(type.params, values, most));
    const raw = returned === undefined ? [] : [returned];
    const tidy = () => postReturn(instance, func.options.post, raw);
    if (!fault('borrows-checked-last')) holdBorrows(scope);
    if (fault('post-return-early')) tidy();
    const answers = to.liftValues(results, [...raw], MOST_RESULTS);
    const out = from.lowerValues(results, answers, MOST_RESULTS, place);
    if (!fault('post-return-early')) tidy();
    holdBorrows(scope);
    for (const handle of scope.lenders) handle.lends -= fault('lends-stay') ? 0 : 1;
    return out[0];
}
