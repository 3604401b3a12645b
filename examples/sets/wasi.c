#include "wasi.h"

#include "engine.h"
#include "set.h"

#include <stdlib.h>
#include <string.h>

enum { RESULT = 16, FREE = 1024, LONGEST_NAME = 200, MOST_TEXT = 65536 };

static char **arguments;
static size_t argument_count;
static uint32_t top = FREE;

void begin_wasi(char **words, size_t count) {
    arguments = words;
    argument_count = count;
}

int serves_wasi(uint32_t instance) {
    static int known[MOST_FILES];
    if (known[instance] == 0) {
        char name[LONGEST_NAME];
        name_of(instance, first_of(instance), name, sizeof name);
        known[instance] = strncmp(name, "wasi:", 5) || strstr(name, "/run@") != NULL ? 1 : 2;
    }
    return known[instance] == 2;
}

/* Room in the instance's memory, until the next function of it is entered. */
static uint32_t allocate(uint32_t align, uint32_t size) {
    uint32_t at = (top + align - 1) / align * align;
    top = at + size;
    return at;
}

static void put(HuxSet *set, uint32_t at, const void *bytes, size_t size) {
    HuxEvent done;
    fine(hux_set_write(set, at, bytes, size, &done), "hux_set_write");
}

/* A result of so many zeros: no fault, nothing, an empty list. */
static HuxCore zeros(HuxSet *set, size_t size) {
    static const uint8_t bytes[16];
    put(set, RESULT, bytes, size);
    return core32(RESULT);
}

/* A list of texts: where each stands and how long it is, and behind that the texts. */
static HuxCore texts(HuxSet *set) {
    uint32_t list = allocate(4, (uint32_t)(8 * argument_count));
    for (size_t at = 0; at < argument_count; at++) {
        uint32_t size = (uint32_t)strlen(arguments[at]);
        uint32_t item[2] = {allocate(1, size), size};
        put(set, item[0], arguments[at], size);
        put(set, list + (uint32_t)(8 * at), item, sizeof item);
    }
    uint32_t result[2] = {list, (uint32_t)argument_count};
    put(set, RESULT, result, sizeof result);
    return core32(RESULT);
}

/* A handle of a resource with this representation. */
static HuxCore handle_of(HuxSet *set, uint32_t instance, const char *resource, uint32_t rep) {
    HuxCore value = core32(rep);
    HuxEvent event;
    fine(hux_set_call(set, maker_of(instance, resource), &value, 1, &event), "hux_set_call");
    return event.values[0];
}

/* Writes bytes of the instance's memory on standard output. */
static HuxCore print(HuxSet *set, uint32_t instance, const HuxCore *values) {
    static uint8_t text[MOST_TEXT];
    size_t size = values[2].bits < MOST_TEXT ? values[2].bits : MOST_TEXT;
    fine(hux_set_read(set, instance, values[1].bits, text, size), "hux_set_read");
    fwrite(text, 1, size, stdout);
    fflush(stdout);
    return zeros(set, 12);
}

static int ends_with(const char *name, const char *end) {
    size_t length = strlen(name), size = strlen(end);
    return length >= size && !strcmp(name + length - size, end);
}

int serve_wasi(HuxSet *set, uint32_t instance, uint32_t func, uint32_t kind,
               const HuxCore *values, HuxCore *answer) {
    char name[LONGEST_NAME];
    if (kind == 3) {
        *answer = core32(allocate((uint32_t)values[2].bits, (uint32_t)values[3].bits));
        return 1;
    }
    if (kind != 2) {
        return 0;
    }
    name_of(instance, func, name, sizeof name);
    if (ends_with(name, "#get-arguments")) {
        *answer = texts(set);
    } else if (ends_with(name, "#get-stdin")) {
        *answer = handle_of(set, instance, "input-stream", 0);
    } else if (ends_with(name, "#get-stdout")) {
        *answer = handle_of(set, instance, "output-stream", 1);
    } else if (ends_with(name, "#get-stderr")) {
        *answer = handle_of(set, instance, "output-stream", 2);
    } else if (ends_with(name, ".write") || ends_with(name, ".blocking-write-and-flush")) {
        *answer = print(set, instance, values);
    } else if (ends_with(name, ".check-write")) {
        static const uint8_t room[16] = {[9] = 16}; /* 4,096 bytes may be written */
        put(set, RESULT, room, sizeof room);
        *answer = core32(RESULT);
    } else if (strstr(name, "#get-") != NULL || ends_with(name, ".blocking-flush")) {
        *answer = zeros(set, 12);
    } else {
        fprintf(stderr, "host: %s is not served\n", name);
        exit(1);
    }
    top = FREE;
    return 1;
}
