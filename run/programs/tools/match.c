/* Prints the lines that match an extended regular expression, as grep -E does, with their numbers:
   match [-i] [-v] PATTERN [FILE..]. Ends with status 1 where none did. */
#include <errno.h>
#include <regex.h>
#include <stdio.h>
#include <stdlib.h>
#include <string.h>

static regex_t pattern;
static int inverted, found;

static void match(FILE *file, const char *name) {
    char *line = NULL;
    size_t room = 0;
    ssize_t size;
    for (long number = 1; (size = getline(&line, &room, file)) >= 0; number++) {
        if (size > 0 && line[size - 1] == '\n') line[size - 1] = 0;
        regmatch_t place;
        int matches = regexec(&pattern, line, 1, &place, 0) == 0;
        if (matches == inverted) continue;
        found = 1;
        int column = matches ? (int)place.rm_so : 0;
        printf("%s:%ld:%d: %s\n", name, number, column, line);
    }
    free(line);
}

int main(int count, char **words) {
    int flags = REG_EXTENDED, i = 1;
    for (; i < count && words[i][0] == '-'; i++) {
        if (!strcmp(words[i], "-i")) flags |= REG_ICASE;
        if (!strcmp(words[i], "-v")) inverted = 1;
    }
    int fault = i == count ? REG_BADPAT : regcomp(&pattern, words[i++], flags);
    if (fault) {
        char text[100];
        regerror(fault, &pattern, text, sizeof text);
        fprintf(stderr, "match: %s\n", text);
        return 2;
    }
    if (i == count) match(stdin, "-");
    for (; i < count; i++) {
        FILE *file = fopen(words[i], "rb");
        if (!file) fprintf(stderr, "match: %s: %s\n", words[i], strerror(errno));
        if (!file) continue;
        match(file, words[i]);
        fclose(file);
    }
    regfree(&pattern);
    return !found;
}
