/* What the Canonical ABI asks of a guest: memory for what comes in. Nothing is given back. */
typedef unsigned int u32;
typedef unsigned char u8;
extern u8 __heap_base;
static u32 top;
__attribute__((export_name("cabi_realloc")))
u32 cabi_realloc(u32 old, u32 old_size, u32 align, u32 size) {
    if (top == 0) top = (u32)&__heap_base;
    u32 at = (top + align - 1) & ~(align - 1);
    top = at + size;
    for (u32 n = 0; n < old_size && n < size; n++) ((volatile u8 *)at)[n] = ((u8 *)old)[n];
    return at;
}
