#include "realloc.h"
static u32 answer[2];
__attribute__((export_name("greet"))) u32 greet(u32 name, u32 units) {
    u32 at = cabi_realloc(0, 0, 2, 2 * (units + 7));
    const char *hello = "Hello, ";
    for (u32 n = 0; n < 7; n++) ((volatile unsigned short *)at)[n] = hello[n];
    for (u32 n = 0; n < units; n++) ((volatile unsigned short *)at)[n + 7] = ((unsigned short *)name)[n];
    answer[0] = at;
    answer[1] = units + 7;
    return (u32)answer;
}
