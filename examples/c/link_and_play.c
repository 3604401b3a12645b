/* Links two components and plays a call between them: link_and_play PROVIDER USER SCRIPT */
#include "huxarte.h"

#include <stdio.h>
#include <stdlib.h>

enum { FILES = 3, ROOM = 4096 };

/* Puts the bytes of a file behind those that are there, and tells which part of all they are. */
static int take(const char *name, uint8_t **bytes, size_t *length, HuxSpan *part) {
    FILE *file = fopen(name, "rb");
    uint8_t *grown;
    if (file == NULL) {
        return 0;
    }
    part->at = *length;
    for (;;) {
        size_t got;
        grown = realloc(*bytes, *length + ROOM);
        if (grown == NULL) {
            break;
        }
        *bytes = grown;
        got = fread(*bytes + *length, 1, ROOM, file);
        *length += got;
        if (got == 0) {
            break;
        }
    }
    part->length = *length - part->at;
    return !fclose(file) && grown != NULL;
}

int main(int count, char **words) {
    uint8_t out[ROOM], err[ROOM], *bytes = NULL;
    size_t length = 0, wanted = 0;
    HuxSpan parts[FILES];
    HuxWanted printed;
    HuxVerdict verdict;
    int status = 1;

    if (count != 1 + FILES) {
        return 2;
    }
    for (int file = 0; file < FILES; file++) {
        if (!take(words[1 + file], &bytes, &length, &parts[file])) {
            free(bytes);
            return 4;
        }
    }
    verdict = hux_link(bytes, length, parts, 2, out, sizeof out, &wanted);
    fwrite(out, 1, wanted < sizeof out ? wanted : sizeof out, stdout);
    if (verdict.kind == HUX_KIND_FINE) {
        verdict = hux_run(bytes, length, parts, 2, &parts[2], out, sizeof out, err, sizeof err,
                          &printed);
        fwrite(out, 1, printed.out < sizeof out ? printed.out : sizeof out, stdout);
        fwrite(err, 1, printed.err < sizeof err ? printed.err : sizeof err, stderr);
        status = verdict.kind != HUX_KIND_FINE;
    }
    free(bytes);
    return status;
}
