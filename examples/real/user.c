#include "realloc.h"
__attribute__((import_module("$root"), import_name("inc"))) extern u32 inc(u32 x);
__attribute__((import_module("$root"), import_name("shout")))
extern void shout(u32 text, u32 length, u32 *answer);
static u32 answer[2];
__attribute__((export_name("run"))) u32 run(u32 x) {
    shout((u32)"hi", 2, answer);
    return inc(inc(x)) + answer[1];
}
