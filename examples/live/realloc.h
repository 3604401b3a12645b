/* What the Canonical ABI asks of a guest: memory for what comes in. Nothing is given back. */
typedef unsigned int u32;
typedef unsigned char u8;
extern u8 __heap_base;
static u32 top = (u32)&__heap_base;
__attribute__((export_name("cabi_realloc")))
void *cabi_realloc(void *old, u32 old_size, u32 align, u32 size) {
    if (size <= old_size) return old;
    u32 at = (top + align - 1) & ~(align - 1), end = at + size;
    u32 has = __builtin_wasm_memory_size(0), wants = (end + 0xffff) >> 16;
    if (wants > has && __builtin_wasm_memory_grow(0, wants - has) == -1ul) __builtin_trap();
    top = end;
    __builtin_memcpy((void *)at, old, old_size);
    return (void *)at;
}
