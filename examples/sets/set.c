#include "set.h"

#include <inttypes.h>
#include <stdlib.h>

enum { ROOM = 4096 };

/* Reads a file behind those that are there. */
static int read_file(Files *files, const char *name) {
    HuxSpan *part = &files->parts[files->count++];
    FILE *file = fopen(name, "rb");
    size_t got = 1;
    if (file == NULL) {
        return 0;
    }
    part->at = files->length;
    while (got != 0) {
        uint8_t *grown = realloc(files->bytes, files->length + ROOM);
        if (grown == NULL) {
            break;
        }
        files->bytes = grown;
        got = fread(grown + files->length, 1, ROOM, file);
        files->length += got;
    }
    part->length = files->length - part->at;
    return !fclose(file) && got == 0;
}

int read_files(Files *files, char **names, size_t count) {
    *files = (Files){0};
    for (size_t at = 0; at < count; at++) {
        if (at == MOST_FILES || !read_file(files, names[at])) {
            drop_files(files);
            return 0;
        }
    }
    return 1;
}

void drop_files(Files *files) {
    free(files->bytes);
    *files = (Files){0};
}

/* Prints the core values that an event hands, with their kinds or without. */
static void print_values(FILE *to, const HuxEvent *event, int kinds) {
    for (uint32_t at = 0; at < event->count; at++) {
        const HuxCore *value = &event->values[at];
        fprintf(to, " %s%" PRIu64, kinds ? (value->kind ? "i64:" : "i32:") : "", value->bits);
    }
}

void print_event(FILE *to, const HuxEvent *event) {
    static const char *const words[] = {
        "done", "grown", "enter", "realloc", "resume", "postreturn", "dtor", "trapped", "ended",
    };
    fputs(words[event->kind], to);
    switch (event->kind) {
        case 1:
            if (event->number == UINT32_MAX) {
                fputs(" none", to);
                break;
            }
            /* fall through */
        case 7:
            fprintf(to, " %" PRIu32, event->number);
            break;
        case 2:
        case 3:
        case 5:
            fprintf(to, " %" PRIu32 " %" PRIu32, event->instance, event->func);
            print_values(to, event, event->kind != 3);
            break;
        case 4:
            fprintf(to, " %" PRIu32, event->instance);
            print_values(to, event, 1);
            break;
        case 6:
            fprintf(to, " %" PRIu32 " %" PRIu32 " %" PRIu32, event->instance, event->func,
                    event->number);
            break;
        default:
            break;
    }
    fputc('\n', to);
}

HuxCore core32(uint32_t number) {
    HuxCore value = {number, 0};
    return value;
}

void fine(HuxVerdict verdict, const char *call) {
    if (verdict.kind != HUX_KIND_FINE) {
        fprintf(stderr, "%s: refused, kind %" PRIu32 ", reason %" PRIu32 ", file %zu, item %zu\n",
                call, verdict.kind, verdict.reason, verdict.file, verdict.item);
        exit(1);
    }
}
