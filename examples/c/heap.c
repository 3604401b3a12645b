/* The heap that the library asks for: the program's own malloc, realloc and free. A program may have
 * these three functions over another allocator: blocks are aligned to each power of two up to 16 that
 * divides their size, and a block of no bytes is as large as its alignment. */
#include <stdbool.h>
#include <stdlib.h>

/* Whether there is memory, and the pointer to it. */
typedef struct Tried {
    bool is_some;
    void *block;
} Tried;

Tried rattle_alloc(size_t size, size_t align);
Tried rattle_realloc(void *block, size_t old_size, size_t size, size_t align);
void rattle_dealloc(void *block);

static Tried tried(void *block) {
    Tried found = {block != NULL, block};
    return found;
}

Tried rattle_alloc(size_t size, size_t align) {
    return tried(malloc(size == 0 ? align : size));
}

Tried rattle_realloc(void *block, size_t old_size, size_t size, size_t align) {
    (void)old_size;
    return tried(realloc(block, size == 0 ? align : size));
}

void rattle_dealloc(void *block) {
    free(block);
}
