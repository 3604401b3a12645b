/* Some functions of WASI 0.2, for a component that stands in for the host (`hux stub`). */
#ifndef WASI_H
#define WASI_H

#include "huxarte.h"

/* The words of the program, which its arguments are. */
void begin_wasi(char **words, size_t count);

/* Whether a component is served here: the first function that it exports is one of WASI that a
 * program imports. */
int serves_wasi(uint32_t instance);

/* Does what a function of it is to do, by moves of the instance, which acts: an event of the kind
 * 2 enters it, 3 asks its allocator, others want nothing. 1 where it answers a core value. */
int serve_wasi(HuxSet *set, uint32_t instance, uint32_t func, uint32_t kind,
               const HuxCore *values, HuxCore *answer);

#endif
