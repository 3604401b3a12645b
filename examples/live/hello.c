/* Says hello by WASI, and needs no C library. */
#include "realloc.h"
struct text { const char *at; u32 size; };
__attribute__((import_module("wasi_snapshot_preview1"), import_name("fd_write")))
extern u32 fd_write(u32 file, const struct text *texts, u32 count, u32 *written);
__attribute__((export_name("_start"))) void start(void) {
    static const struct text text = {"hello, world\n", 13};
    u32 written;
    fd_write(1, &text, 1, &written);
}
