typedef unsigned int u32;
__attribute__((import_module("wasi_snapshot_preview1"), import_name("random_get")))
extern u32 random_get(u32 at, u32 size);
static u32 bytes;
__attribute__((export_name("roll"))) u32 roll(void) {
    random_get((u32)&bytes, 4);
    return bytes % 6 + 1;
}
