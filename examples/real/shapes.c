#include "realloc.h"
static u32 answer[3];
__attribute__((export_name("area"))) unsigned long long area(u32 a, u32 b) {
    return (unsigned long long)a * b;
}
__attribute__((export_name("first"))) u32 first(u32 items, u32 count) {
    answer[0] = count != 0;
    if (count != 0) answer[1] = *(u32 *)items;
    return (u32)answer;
}
__attribute__((export_name("parse"))) u32 parse(u32 text, u32 length) {
    u32 value = 0;
    for (u32 n = 0; n < length; n++) value = 10 * value + (((u8 *)text)[n] - '0');
    answer[0] = length == 0;
    answer[1] = value;
    answer[2] = 0;
    return (u32)answer;
}
