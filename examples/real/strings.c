#include "realloc.h"
static u32 answer[2];
__attribute__((export_name("greet"))) u32 greet(u32 name, u32 length) {
    u32 at = cabi_realloc(0, 0, 1, length + 7);
    const char *hello = "Hello, ";
    for (u32 n = 0; n < 7; n++) ((volatile u8 *)at)[n] = hello[n];
    for (u32 n = 0; n < length; n++) ((volatile u8 *)at)[n + 7] = ((u8 *)name)[n];
    answer[0] = at;
    answer[1] = length + 7;
    return (u32)answer;
}
__attribute__((export_name("cabi_post_greet"))) void done(u32 result) { top = 0; }
