/* Two sets at a time, and what a host may do wrong: two_sets PROVIDER USER CALLS
 *
 * The files are those of examples/first_pair. The library's memory comes from here, so that each
 * allocation can fail in turn and what is left over is counted. */
#include "set.h"

#include <assert.h>
#include <stdbool.h>
#include <stdlib.h>
#include <string.h>

enum { USER = 1, PROVIDER = 0 };

typedef struct Tried {
    bool is_some;
    void *block;
} Tried;

/* How many blocks were asked for and are alive, and which request fails, from 1 on. */
static long asked, alive, failing;

static Tried tried(void *block) {
    Tried found = {block != NULL, block};
    return found;
}

Tried rattle_alloc(size_t size, size_t align);
Tried rattle_realloc(void *block, size_t old_size, size_t size, size_t align);
void rattle_dealloc(void *block);

Tried rattle_alloc(size_t size, size_t align) {
    void *block = ++asked == failing ? NULL : malloc(size == 0 ? align : size);
    alive += block != NULL;
    return tried(block);
}

Tried rattle_realloc(void *block, size_t old_size, size_t size, size_t align) {
    (void)old_size;
    return tried(++asked == failing ? NULL : realloc(block, size == 0 ? align : size));
}

void rattle_dealloc(void *block) {
    alive -= block != NULL;
    free(block);
}

static Files files;
static const uint32_t pages[2] = {1, 1};

static uint32_t make(HuxSet *set) {
    return hux_set_new(files.bytes, files.length, files.parts, files.count, pages, 2, set).kind;
}

/* Calls `inc` through a set whose user is to make the next move. */
static void call_inc(HuxSet *set, uint32_t number) {
    HuxCore value = core32(number);
    HuxWritten written = {7, 7};
    HuxRegion region = {7, 7};
    HuxEvent event;
    assert(hux_set_call(set, 0, &value, 1, &event).kind == HUX_KIND_FINE);
    assert(event.kind == 2 && event.instance == PROVIDER && event.count == 1);
    assert(event.values[0].bits == number && event.values[1].bits == 0);
    value = core32(number + 1);
    assert(hux_set_return(set, &value, 1, &event).kind == HUX_KIND_FINE);
    assert(event.kind == 4 && event.instance == USER && event.values[0].bits == number + 1);
    assert(hux_set_written(set, &written, &region, 1).kind == HUX_KIND_FINE);
    assert(written.count == 0 && region.size == 7); /* a number takes no memory */
}

/* What is refused, and changes nothing. */
static void refused(HuxSet *set) {
    HuxCore odd = {0, 7};
    HuxEvent event, before;
    HuxHandle handle = {0};
    HuxVerdict verdict;
    uint8_t byte = 9;
    memset(&event, 0x5a, sizeof event);
    before = event;
    verdict = hux_set_begin(set, USER, &event);
    assert(verdict.kind == HUX_SET_KIND_MISUSE && verdict.reason == 2);
    verdict = hux_set_call(set, 0, &odd, 1, &event);
    assert(verdict.kind == HUX_SET_KIND_NO_KIND && verdict.place == 0);
    assert(make(set) == HUX_SET_KIND_FULL);
    assert(hux_set_read(set, USER, 65536, &byte, 1).kind == HUX_KIND_OUTSIDE && byte == 9);
    verdict = hux_set_handle_at(set, USER, 1, &handle);
    assert(verdict.kind == HUX_SET_KIND_NO_HANDLE && verdict.reason == 1 && handle.rep == 0);
    assert(hux_set_read(set, 2, 0, &byte, 1).kind == HUX_SET_KIND_NO_INSTANCE && byte == 9);
    assert(!memcmp(&event, &before, sizeof event));
}

/* What is answered by a handle that keeps no set. */
static void empty(HuxSet *set) {
    HuxCore value = core32(1);
    HuxResource resource = {0, 0};
    HuxSetState state = {0};
    HuxInstance instance = {0};
    HuxHandle handle = {0};
    HuxWritten written = {7, 7};
    HuxRegion region = {7, 7};
    HuxEvent event = {0};
    uint8_t byte = 9;
    assert(set->at == NULL);
    assert(hux_set_begin(set, 0, &event).kind == HUX_SET_KIND_EMPTY);
    assert(hux_set_write(set, 0, &byte, 1, &event).kind == HUX_SET_KIND_EMPTY);
    assert(hux_set_grow(set, 1, &event).kind == HUX_SET_KIND_EMPTY);
    assert(hux_set_call(set, 0, &value, 1, &event).kind == HUX_SET_KIND_EMPTY);
    assert(hux_set_return(set, &value, 1, &event).kind == HUX_SET_KIND_EMPTY);
    assert(hux_set_unreachable(set, &event).kind == HUX_SET_KIND_EMPTY);
    assert(hux_set_state(set, &state).kind == HUX_SET_KIND_EMPTY);
    assert(hux_set_instance(set, 0, &instance).kind == HUX_SET_KIND_EMPTY);
    assert(hux_set_written(set, &written, &region, 1).kind == HUX_SET_KIND_EMPTY);
    assert(written.count == 7 && region.size == 7);
    assert(hux_set_read(set, 0, 0, &byte, 1).kind == HUX_SET_KIND_EMPTY);
    assert(hux_set_handle(set, 0, 1, &resource, &handle).kind == HUX_SET_KIND_EMPTY);
    assert(hux_set_handle_at(set, 0, 1, &handle).kind == HUX_SET_KIND_EMPTY);
}

/* Two sets, freed in one order or the other: neither sees anything of the other. */
static void two(int first_goes_first) {
    HuxSet a = HUX_SET_NONE, b = HUX_SET_NONE;
    HuxSetState state;
    HuxInstance instance;
    HuxEvent event;
    uint8_t bytes[4] = {0};
    empty(&a);
    assert(make(&a) == HUX_KIND_FINE && make(&b) == HUX_KIND_FINE);
    assert(hux_set_state(&a, &state).kind == HUX_KIND_FINE);
    assert(state.instances == 2 && state.acting == SIZE_MAX);
    assert(hux_set_unreachable(&a, &event).kind == HUX_SET_KIND_MISUSE);
    assert(hux_set_begin(&a, USER, &event).kind == HUX_KIND_FINE && event.kind == 4);
    assert(hux_set_begin(&b, USER, &event).kind == HUX_KIND_FINE);
    refused(&a);
    assert(hux_set_write(&a, 8, (const uint8_t *)"abcd", 4, &event).kind == HUX_KIND_FINE);
    assert(hux_set_read(&a, USER, 8, bytes, 4).kind == HUX_KIND_FINE && bytes[3] == 'd');
    assert(hux_set_read(&b, USER, 8, bytes, 4).kind == HUX_KIND_FINE && bytes[3] == 0);
    assert(hux_set_grow(&b, 2, &event).kind == HUX_KIND_FINE && event.number == 1);
    assert(hux_set_instance(&b, USER, &instance).kind == HUX_KIND_FINE);
    assert(instance.bytes == 3 * 65536 && instance.indices == 1 && !instance.closed);
    call_inc(&a, 41);
    call_inc(&b, 7);
    hux_set_free(first_goes_first ? &a : &b);
    call_inc(first_goes_first ? &b : &a, 1000);
    hux_set_free(first_goes_first ? &b : &a);
    empty(&a);
    empty(&b);
    hux_set_free(&a); /* a second time: nothing is done */
    assert(make(&a) == HUX_KIND_FINE);
    hux_set_free(&a);
    assert(alive == 0);
}

/* A trap closes what is on the stack; the set answers on. */
static void trapped(void) {
    HuxSet set = HUX_SET_NONE;
    HuxInstance instance;
    HuxEvent event;
    assert(make(&set) == HUX_KIND_FINE);
    assert(hux_set_begin(&set, USER, &event).kind == HUX_KIND_FINE);
    assert(hux_set_unreachable(&set, &event).kind == HUX_KIND_FINE);
    assert(event.kind == 7 && event.number == 2);
    assert(hux_set_instance(&set, USER, &instance).kind == HUX_KIND_FINE && instance.closed);
    assert(hux_set_begin(&set, USER, &event).reason == 3);
    hux_set_free(&set);
}

/* Each allocation fails in turn: nothing has changed, nothing leaks, and the same works again. */
static long failures(void) {
    long count = 0;
    for (bool reached = true; reached; count++) {
        HuxSet set = HUX_SET_NONE;
        HuxCore value = core32(41);
        HuxEvent event;
        failing = asked + count + 1;
        if (make(&set) != HUX_KIND_FINE) {
            assert(set.at == NULL && alive == 0);
            assert(make(&set) == HUX_KIND_FINE);
        }
        assert(hux_set_begin(&set, USER, &event).kind == HUX_KIND_FINE);
        if (hux_set_call(&set, 0, &value, 1, &event).kind == HUX_KIND_MEMORY) {
            assert(event.kind == 4);
            assert(hux_set_call(&set, 0, &value, 1, &event).kind == HUX_KIND_FINE);
        }
        assert(event.kind == 2 || (event.kind == 7 && event.number == 20));
        reached = asked >= failing;
        failing = 0;
        hux_set_free(&set);
        assert(alive == 0);
    }
    return count;
}

/* So many calls by one handle: as many blocks are alive behind them as before. */
static void many(uint32_t calls) {
    HuxSet set = HUX_SET_NONE;
    HuxEvent event;
    long before;
    assert(make(&set) == HUX_KIND_FINE);
    assert(hux_set_begin(&set, USER, &event).kind == HUX_KIND_FINE);
    call_inc(&set, 0);
    before = alive;
    for (uint32_t at = 0; at < calls; at++) {
        call_inc(&set, at);
    }
    assert(alive == before);
    hux_set_free(&set);
}

int main(int count, char **words) {
    if (count != 4 || !read_files(&files, words + 1, 2)) {
        return 2;
    }
    two(0);
    two(1);
    trapped();
    printf("two sets, a trap: ok\n");
    printf("each allocation fails in turn: %s\n", failures() > 10 ? "ok" : "too few");
    many((uint32_t)strtoul(words[3], NULL, 10));
    printf("%s calls, nothing left over: %s\n", words[3], alive == 0 ? "ok" : "no");
    drop_files(&files);
    return 0;
}
