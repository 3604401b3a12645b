/* Several programs in one component, as busybox has them: the first word names one of tools/, which
   is given the words from its name on. PROGRAMS lists them as ONE(name). */
#include <stdio.h>
#include <string.h>

#define ONE(name) int name##_main(int count, char **words);
PROGRAMS
#undef ONE
#define ONE(name) {#name, name##_main},

static const struct { const char *name; int (*run)(int, char **); } programs[] = {PROGRAMS};

int main(int count, char **words) {
    for (unsigned i = 0; count > 1 && i < sizeof programs / sizeof *programs; i++)
        if (!strcmp(words[1], programs[i].name)) return programs[i].run(count - 1, words + 1);
    fprintf(stderr, "no such program\n");
    return 1;
}
