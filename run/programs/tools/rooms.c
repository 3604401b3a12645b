/* Allocates, fills, moves and gives back some 10 MB, in many rooms and in large ones. */
#include <stdint.h>
#include <stdio.h>
#include <stdlib.h>
#include <string.h>

static uint32_t state = 1;
static uint32_t next(void) { return state = state * 1664525 + 1013904223; }

int main(int count, char **words) {
    (void)count, (void)words;
    enum { ROOMS = 2000 };
    static unsigned char *rooms[ROOMS];
    static uint32_t sizes[ROOMS];
    for (int round = 0; round < 20000; round++) {
        uint32_t i = next() % ROOMS, size = next() % 10000;
        rooms[i] = realloc(rooms[i], size + 1);
        if (!rooms[i]) { puts("no memory"); return 1; }
        memset(rooms[i], (int)(i + size), size);
        sizes[i] = size;
        if (round % 5000 == 0) { printf("round %d\n", round); fflush(stdout); }
    }
    uint32_t sum = 0, total = 0;
    for (int i = 0; i < ROOMS; i++) {
        for (uint32_t k = 0; k < sizes[i]; k++) sum = sum * 31 + rooms[i][k];
        total += sizes[i];
        free(rooms[i]);
    }
    char *large = malloc(10 << 20);
    memset(large, 'x', 10 << 20);
    printf("%u bytes, sum %u, last %c\n", total, sum, large[(10 << 20) - 1]);
    return 0;
}
