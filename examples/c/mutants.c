/* Checks so many damaged forms of a file in one process: mutants FILE COUNT
 *
 * Prints how many were valid, how many calls a second were made, and how much memory the process
 * had at most after the first tenth of the calls and at the end. */
#include "huxarte.h"

#include <stdio.h>
#include <stdlib.h>
#include <string.h>
#include <sys/resource.h>
#include <time.h>

enum { MOST = 1 << 20, ROOM = 256 };

/* The next number of a sequence that is the same in each run (xorshift). */
static uint64_t next(uint64_t *state) {
    *state ^= *state << 13;
    *state ^= *state >> 7;
    *state ^= *state << 17;
    return *state;
}

static long peak_in_kib(void) {
    struct rusage usage;
    getrusage(RUSAGE_SELF, &usage);
    return usage.ru_maxrss;
}

int main(int count, char **words) {
    static uint8_t file[MOST], mutant[MOST];
    uint8_t text[ROOM];
    uint64_t state = 88172645463325252u;
    long calls, valid = 0, early = 0, late;
    size_t length, wanted;
    FILE *source = count == 3 ? fopen(words[1], "rb") : NULL;
    clock_t begun;

    if (source == NULL) {
        return 2;
    }
    length = fread(file, 1, MOST, source);
    fclose(source);
    calls = atol(words[2]);
    begun = clock();
    for (long call = 0; call < calls && length > 0; call++) {
        size_t cut = next(&state) % 8 == 0 ? next(&state) % length : length;
        memcpy(mutant, file, length);
        for (uint64_t change = next(&state) % 4; change > 0; change--) {
            mutant[next(&state) % length] = (uint8_t)next(&state);
        }
        valid += hux_check(mutant, cut, text, sizeof text, &wanted).kind == HUX_KIND_FINE;
        if (call == calls / 10) {
            early = peak_in_kib();
        }
    }
    late = peak_in_kib();
    printf("%ld of %ld valid, %.0f calls a second, %ld KiB after a tenth, %ld KiB at the end\n",
           valid, calls, (double)calls * CLOCKS_PER_SEC / (double)(clock() - begun + 1), early, late);
    return early != late;
}
