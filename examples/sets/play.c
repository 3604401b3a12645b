/* Plays a script on a set by its handle, move by move: play SCRIPT FILE.. or, of the files of a
 * bundle, play SCRIPT --bundle FILE
 *
 * Scripts are those of `component_tool play`, whose lines this prints. Each guest has a list of its
 * moves; where they are used up, it stops. */
#include "set.h"

#include <errno.h>
#include <stdlib.h>
#include <string.h>

enum { MOST_MOVES = 4096, MOST_DRIVES = 64, LIMIT = 1000000, LONGEST = 1 << 17 };

/* The moves of each guest, as lines of the script, and the roots of the drives. */
typedef struct Script {
    char *lines[MOST_FILES][MOST_MOVES];
    size_t counts[MOST_FILES], done[MOST_FILES];
    uint32_t drives[MOST_DRIVES], pages[MOST_FILES];
    size_t drive_count;
} Script;

static void stop(const char *why) {
    fprintf(stderr, "play: %s\n", why);
    exit(2);
}

static uint64_t number(const char *word) {
    char *end;
    errno = 0;
    unsigned long long found = strtoull(word, &end, 10);
    if (errno != 0 || end == word) {
        stop("a number that is none");
    }
    return found;
}

static char *copied(const char *line) {
    char *copy = malloc(strlen(line) + 1);
    if (copy == NULL) {
        stop("no memory");
    }
    return strcpy(copy, line);
}

/* Takes a line of the script, which is not empty. */
static void take(Script *script, const char *line, size_t *guest) {
    if (!strncmp(line, "pages ", 6)) {
        const char *word = line + 6;
        for (size_t at = 0; at < MOST_FILES && word != NULL; at++) {
            script->pages[at] = (uint32_t)number(word);
            word = strchr(word, ' ');
            word = word == NULL ? NULL : word + 1;
        }
    } else if (!strncmp(line, "guest ", 6)) {
        *guest = number(line + 6);
    } else if (!strncmp(line, "begin ", 6) && script->drive_count < MOST_DRIVES) {
        script->drives[script->drive_count++] = (uint32_t)number(line + 6);
    } else if (*guest < MOST_FILES && script->counts[*guest] < MOST_MOVES) {
        script->lines[*guest][script->counts[*guest]++] = copied(line);
    } else {
        stop("too much");
    }
}

static void read_script(Script *script, const char *name) {
    static char line[LONGEST];
    size_t guest = MOST_FILES;
    FILE *file = fopen(name, "r");
    if (file == NULL) {
        stop("no script");
    }
    while (fgets(line, sizeof line, file) != NULL) {
        line[strcspn(line, "\n")] = 0;
        if (*line != 0) {
            take(script, line, &guest);
        }
    }
    fclose(file);
}

/* The core values of a line, behind its first words. */
static size_t core_values(char *words, HuxCore *values) {
    size_t count = 0;
    for (char *word = strtok(words, " "); word != NULL; word = strtok(NULL, " ")) {
        if (count == HUX_MAX_CORE || strlen(word) < 5) {
            stop("no core value");
        }
        values[count].kind = !strncmp(word, "i64:", 4);
        values[count++].bits = number(word + 4);
    }
    return count;
}

/* The bytes that hexadecimal digits stand for, in their own place. */
static size_t bytes_of(char *digits) {
    size_t count = 0;
    for (char pair[3] = {0}; digits[2 * count] != 0 && *digits != '-'; count++) {
        memcpy(pair, digits + 2 * count, 2);
        digits[count] = (char)strtoul(pair, NULL, 16);
    }
    return count;
}

/* Makes the move of a line. */
static void make_move(HuxSet *set, char *line, HuxEvent *event) {
    HuxCore values[HUX_MAX_CORE];
    char *rest = strchr(line, ' ');
    rest = rest == NULL ? line + strlen(line) : rest + 1;
    if (!strncmp(line, "write ", 6)) {
        char *digits = strchr(rest, ' ') + 1;
        uint32_t at = (uint32_t)number(rest);
        size_t count = bytes_of(digits);
        fine(hux_set_write(set, at, (uint8_t *)digits, count, event), "hux_set_write");
    } else if (!strncmp(line, "grow ", 5)) {
        fine(hux_set_grow(set, (uint32_t)number(rest), event), "hux_set_grow");
    } else if (!strncmp(line, "call ", 5)) {
        uint32_t func = (uint32_t)number(rest);
        char *words = strchr(rest, ' ');
        size_t count = words == NULL ? 0 : core_values(words, values);
        fine(hux_set_call(set, func, values, count, event), "hux_set_call");
    } else if (!strncmp(line, "return", 6)) {
        size_t count = core_values(rest, values);
        fine(hux_set_return(set, values, count, event), "hux_set_return");
    } else {
        fine(hux_set_unreachable(set, event), "hux_set_unreachable");
    }
}

/* Plays a drive; 0 where it trapped. */
static int drive(HuxSet *set, Script *script, uint32_t root) {
    char nothing[] = "unreachable";
    HuxSetState state;
    HuxEvent event;
    fine(hux_set_begin(set, root, &event), "hux_set_begin");
    print_event(stdout, &event);
    for (long moves = 0; event.kind < 7; moves++) {
        if (moves == LIMIT) {
            stop("too many moves");
        }
        fine(hux_set_state(set, &state), "hux_set_state");
        size_t *done = &script->done[state.acting];
        int is_left = *done < script->counts[state.acting];
        make_move(set, is_left ? script->lines[state.acting][(*done)++] : nothing, &event);
        print_event(stdout, &event);
    }
    return event.kind == 8;
}

/* Links of imports that are chosen. */
typedef struct Choices {
    HuxChoice *list;
    size_t count;
} Choices;

/* Takes a bundle apart, which is the one file that was read: into its files, and the links that it
 * says. Twice it is asked, for how much there is and for that. */
static Choices take_apart(Files *files) {
    HuxSpan no_span = {0, 0};
    HuxChoice no_choice = {0, 0, 0, 0};
    uint8_t no_byte = 0;
    Files parts = {0};
    Choices choices;
    HuxBundle seen;
    fine(hux_unbundle(files->bytes, files->length, &seen, &no_span, 0, &no_byte, 0, &no_choice, 0),
         "hux_unbundle");
    parts.bytes = malloc(seen.bytes + 1);
    choices.list = malloc((seen.choices + 1) * sizeof *choices.list);
    if (seen.files > MOST_FILES || parts.bytes == NULL || choices.list == NULL) {
        stop("too large a bundle");
    }
    fine(hux_unbundle(files->bytes, files->length, &seen, parts.parts, MOST_FILES, parts.bytes,
                      seen.bytes, choices.list, seen.choices), "hux_unbundle");
    parts.length = seen.bytes;
    parts.count = seen.files;
    choices.count = seen.choices;
    drop_files(files);
    *files = parts;
    return choices;
}

/* Makes a set of files, or of the one file that is a bundle. */
static void make(HuxSet *set, const Script *script, Files *files, int is_bundle) {
    const HuxPlace no_place = {1, 1};
    if (is_bundle) {
        Choices choices = take_apart(files);
        fine(hux_set_new_by(files->bytes, files->length, files->parts, files->count, &no_place, 0,
                            choices.list, choices.count, script->pages, files->count, set),
             "hux_set_new_by");
        free(choices.list);
    } else {
        fine(hux_set_new(files->bytes, files->length, files->parts, files->count, script->pages,
                         files->count, set), "hux_set_new");
    }
}

int main(int count, char **words) {
    static Script script;
    HuxSet set = HUX_SET_NONE;
    Files files;
    int status = 0;
    int is_bundle = count == 4 && !strcmp(words[2], "--bundle");
    int first = is_bundle ? 3 : 2;
    if (count <= first || !read_files(&files, words + first, (size_t)(count - first))) {
        stop("play SCRIPT FILE.. or play SCRIPT --bundle FILE");
    }
    read_script(&script, words[1]);
    make(&set, &script, &files, is_bundle);
    drop_files(&files);
    for (size_t at = 0; at < script.drive_count; at++) {
        if (!drive(&set, &script, script.drives[at])) {
            status = 3;
        }
    }
    hux_set_free(&set);
    for (size_t guest = 0; guest < MOST_FILES; guest++) {
        for (size_t at = 0; at < script.counts[guest]; at++) {
            free(script.lines[guest][at]);
        }
    }
    return status;
}
