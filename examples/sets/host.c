/* Runs the core modules of a set in an engine, and plays the set by its handle:
 * host [--rounds N] FILE.. [-- WORD..]
 *
 * It calls the first function that the last component exports. What is exported by a component of
 * the interfaces of WASI is done here, in C (wasi.c), with the words. With rounds the function is
 * called so often in one root call, and the calls between components are timed. */
#define _POSIX_C_SOURCE 199309L
#include "engine.h"
#include "set.h"
#include "wasi.h"

#include <inttypes.h>
#include <stdlib.h>
#include <string.h>
#include <time.h>

enum { PAGE = 65536, BLOCK = 64, MOST_ROOMS = 4096, ENDED = 7 };

/* What a guest's allocator has answered for the value that is on its way. */
typedef struct Room {
    uint32_t at, size;
} Room;

static HuxSet set = HUX_SET_NONE;
static HuxEvent event;
static Files files;
static uint8_t known[1024 * PAGE];
static Room rooms[MOST_ROOMS];
static size_t room_count;
static uint64_t calls;

/* Instantiates the core modules of a component, as the parts of its plan say. */
static void instantiate(uint32_t instance) {
    const uint8_t *file = files.bytes + files.parts[instance].at;
    size_t length = files.parts[instance].length, at = 0;
    HuxPlan seen = {0, 0};
    HuxPlanPart none = {0, 0, 0, 0, 0};
    uint8_t nothing = 0;
    fine(hux_plan(file, length, &seen, &none, 0, &nothing, 0), "hux_plan");
    HuxPlanPart *parts = malloc((seen.parts + 1) * sizeof *parts);
    uint8_t *texts = malloc(seen.bytes + 1);
    if (parts == NULL || texts == NULL) {
        exit(1);
    }
    fine(hux_plan(file, length, &seen, parts, seen.parts, texts, seen.bytes), "hux_plan");
    for (size_t i = 0; i < seen.parts; i++) {
        plan_part(instance, &parts[i], texts + at);
        at += parts[i].length;
    }
    free(parts);
    free(texts);
}

/* How many bytes the set's memory of an instance has. */
static size_t size_of(uint32_t instance) {
    HuxInstance seen = {0, 0, 0};
    fine(hux_set_instance(&set, instance, &seen), "hux_set_instance");
    return seen.bytes;
}

/* Tells the set what the guest that acts has changed in its memory. */
static void tell(uint32_t instance) {
    size_t length = take_memory(instance), size = size_of(instance);
    if (length > size) {
        HuxEvent grown;
        fine(hux_set_grow(&set, (uint32_t)((length - size) / PAGE), &grown), "hux_set_grow");
        size = length;
    }
    fine(hux_set_read(&set, instance, 0, known, length), "hux_set_read");
    for (size_t at = 0, end; at < length; at = end) {
        end = at + BLOCK;
        if (!memcmp(known + at, staging + at, BLOCK)) {
            continue;
        }
        while (end < length && memcmp(known + end, staging + end, BLOCK)) {
            end += BLOCK;
        }
        HuxEvent done;
        fine(hux_set_write(&set, (uint32_t)at, staging + at, end - at, &done), "hux_set_write");
    }
}

/* Copies what adapters wrote before the latest event into the memory of the guest that received
 * it: the regions that the set tells, and no more. */
static void hand_over(void) {
    static HuxRegion regions[MOST_ROOMS];
    HuxWritten seen = {0, 0};
    fine(hux_set_written(&set, &seen, regions, MOST_ROOMS), "hux_set_written");
    if (seen.count > MOST_ROOMS) {
        fprintf(stderr, "host: more than %d regions\n", MOST_ROOMS);
        exit(1);
    }
    for (size_t i = 0; i < seen.count && !serves_wasi(seen.instance); i++) {
        uint32_t at = regions[i].at, size = regions[i].size;
        fine(hux_set_read(&set, seen.instance, at, staging, size), "hux_set_read");
        give_memory(seen.instance, at, size);
    }
}

/* A room that no other of the same value overlaps: where the guest's allocator answers one room
 * twice, a new page takes its place. */
static void answer_room(uint32_t instance, HuxCore *answer, uint32_t size) {
    uint32_t at = (uint32_t)answer->bits;
    for (size_t i = 0; i < room_count; i++) {
        if (size != 0 && at < rooms[i].at + rooms[i].size && rooms[i].at < at + size) {
            size_t end = take_memory(instance);
            grow_memory(instance, size / PAGE + 1);
            at = (uint32_t)end;
            break;
        }
    }
    if (room_count < MOST_ROOMS) {
        rooms[room_count++] = (Room){at, size};
    }
    answer->bits = at;
}

/* Does what the event says: a core function runs and returns. 0 where all is over. */
static int go_on(void) {
    uint32_t instance = event.instance, func = event.func, kind = event.kind;
    HuxCore values[HUX_MAX_CORE], answer = {0, 0};
    size_t count = event.count;
    int answers;
    memcpy(values, event.values, sizeof values);
    if (kind == 6) {
        values[0] = core32(event.number);
        count = 1;
    }
    if (serves_wasi(instance)) {
        answers = serve_wasi(&set, instance, func, kind, values, &answer);
    } else {
        answers = run_func(instance, func, values, count, &answer);
        if (answers < 0) {
            fine(hux_set_unreachable(&set, &event), "hux_set_unreachable");
            return 0;
        }
        if (kind == 3) {
            answer_room(instance, &answer, (uint32_t)values[3].bits);
        } else {
            room_count = 0;
        }
        tell(instance);
    }
    fine(hux_set_return(&set, &answer, (size_t)answers, &event), "hux_set_return");
    hand_over();
    return event.kind < ENDED;
}

/* A guest calls out: what comes of it runs, until the guest goes on. */
static int call_out(uint32_t instance, uint32_t func, const HuxCore *values, size_t count,
                    HuxCore *answer) {
    if (event.kind == ENDED) {
        return 0;
    }
    tell(instance);
    calls++;
    room_count = 0;
    fine(hux_set_call(&set, func, values, count, &event), "hux_set_call");
    hand_over();
    while (event.kind != 4) {
        if (event.kind >= ENDED || !go_on()) {
            return 0;
        }
    }
    *answer = event.values[0];
    room_count = 0;
    return 1;
}

/* Calls the first function that the last component exports, so often. */
static int root(uint32_t rounds) {
    uint32_t last = (uint32_t)files.count - 1, func = first_of(last);
    HuxCore answer = {0, 0}, found = {0, 0};
    char name[200];
    fine(hux_set_begin(&set, last, &event), "hux_set_begin");
    for (uint32_t round = 0; round < rounds; round++) {
        if (run_func(last, func, NULL, 0, round == 0 ? &answer : &found) < 0) {
            if (event.kind != ENDED) {
                fine(hux_set_unreachable(&set, &event), "hux_set_unreachable");
            }
            break;
        }
    }
    if (event.kind == ENDED) {
        printf("trapped %" PRIu32 "\n", event.number);
        return 3;
    }
    name_of(last, func, name, sizeof name);
    if (strncmp(name, "wasi:", 5)) {
        printf("%s answers %" PRIu64 "\n", name, answer.bits);
    }
    tell(last);
    fine(hux_set_return(&set, &answer, 0, &event), "hux_set_return");
    return answer.bits != 0;
}

static double seconds(void) {
    struct timespec now;
    clock_gettime(CLOCK_MONOTONIC, &now);
    return (double)now.tv_sec + (double)now.tv_nsec / 1e9;
}

int main(int count, char **words) {
    uint32_t pages[MOST_FILES], rounds = 0;
    int first = 1, end;
    if (count > 3 && !strcmp(words[1], "--rounds")) {
        rounds = (uint32_t)strtoul(words[2], NULL, 10);
        first = 3;
    }
    for (end = first; end < count && strcmp(words[end], "--"); end++) {
    }
    if (end == first || !read_files(&files, words + first, (size_t)(end - first))) {
        fprintf(stderr, "host [--rounds N] FILE.. [-- WORD..]\n");
        return 2;
    }
    begin_engine(getenv("ENGINE") == NULL ? "engine.js" : getenv("ENGINE"), call_out);
    for (uint32_t at = 0; at < files.count; at++) {
        instantiate(at);
        pages[at] = pages_of(at);
    }
    begin_wasi(words + end + (end < count), (size_t)(count - end - (end < count)));
    fine(hux_set_new(files.bytes, files.length, files.parts, files.count, pages, files.count, &set),
         "hux_set_new");
    double begun = seconds();
    int status = root(rounds == 0 ? 1 : rounds);
    if (rounds != 0) {
        printf("%.0f calls a second\n", (double)calls / (seconds() - begun));
    }
    hux_set_free(&set);
    end_engine();
    drop_files(&files);
    return status;
}
