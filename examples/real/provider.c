#include "realloc.h"
static u32 answer[2];
__attribute__((export_name("inc"))) u32 inc(u32 x) { return x + 1; }
__attribute__((export_name("shout"))) u32 shout(u32 text, u32 length) {
    u32 at = cabi_realloc(0, 0, 1, length + 1);
    for (u32 n = 0; n < length; n++) ((volatile u8 *)at)[n] = ((u8 *)text)[n];
    ((volatile u8 *)at)[length] = '!';
    answer[0] = at;
    answer[1] = length + 1;
    return (u32)answer;
}
