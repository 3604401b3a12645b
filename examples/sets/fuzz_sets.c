/* A target of libFuzzer: any bytes are moves of two sets, which are made of the same components.
 *
 * Both are played by the same moves, one ahead of the other, and each other set is freed and made
 * anew by turns: what one answers the other answers too, so that neither sees anything of the
 * other, and what is refused changes nothing. FILES names the components. Without libFuzzer, as
 * ALONE, the program plays so many lists of moves of its own: fuzz_sets COUNT. */
#include "set.h"

#include <stdlib.h>
#include <string.h>

enum { MOST = 256 };

int LLVMFuzzerTestOneInput(const uint8_t *data, size_t length);

static Files files;

static void check(int is_so, const char *what) {
    if (!is_so) {
        fprintf(stderr, "fuzz_sets: %s\n", what);
        abort();
    }
}

/* Reads the components that FILES names, with spaces between them. */
static void read_components(void) {
    static char names[4096];
    char *words[MOST_FILES];
    size_t count = 0;
    const char *given = getenv("FILES");
    check(given != NULL && strlen(given) < sizeof names, "FILES names no files");
    strcpy(names, given);
    for (char *word = strtok(names, " "); word != NULL && count < MOST_FILES;
         word = strtok(NULL, " ")) {
        words[count++] = word;
    }
    check(read_files(&files, words, count), "a file can't be read");
}

static void make(HuxSet *set) {
    static const uint32_t pages[MOST_FILES] = {1, 1, 1, 1, 1, 1, 1, 1, 1, 1, 1, 1, 1, 1, 1, 1};
    fine(hux_set_new(files.bytes, files.length, files.parts, files.count, pages, files.count, set),
         "hux_set_new");
}

/* Makes the move that bytes stand for; three of them at least are there. */
static HuxVerdict play(HuxSet *set, const uint8_t *data, size_t length, HuxEvent *event) {
    HuxCore values[HUX_MAX_CORE];
    size_t count = data[0] / 8 % 5;
    for (size_t at = 0; at < count; at++) {
        values[at].bits = (uint64_t)data[(at + 1) % length] * (at + 1);
        values[at].kind = data[(at + 2) % length] > 250 ? data[(at + 2) % length] % 3 : 0;
    }
    switch (data[0] % 8) {
        case 0: return hux_set_begin(set, data[1], event);
        case 1: return hux_set_write(set, data[1] * 300U, data, length, event);
        case 2: return hux_set_grow(set, data[1] % 3, event);
        case 3:
        case 4: return hux_set_call(set, data[1] % 8, values, count, event);
        case 5:
        case 6: return hux_set_return(set, values, count, event);
        default: return hux_set_unreachable(set, event);
    }
}

static int are_equal(const HuxVerdict *a, const HuxVerdict *b) {
    return a->kind == b->kind && a->reason == b->reason && a->place == b->place;
}

/* Whether of two sets the same regions were written before the latest event. */
static int write_alike(HuxSet *a, HuxSet *b) {
    HuxRegion regions[2][MOST] = {0};
    HuxWritten one = {0, 0}, other = {0, 0};
    fine(hux_set_written(a, &one, regions[0], MOST), "hux_set_written");
    fine(hux_set_written(b, &other, regions[1], MOST), "hux_set_written");
    return one.count == other.count && one.instance == other.instance &&
           !memcmp(regions[0], regions[1], sizeof regions[0]);
}

/* Whether two sets are the same to all looks. */
static int are_alike(HuxSet *a, HuxSet *b) {
    HuxSetState one, other;
    fine(hux_set_state(a, &one), "hux_set_state");
    fine(hux_set_state(b, &other), "hux_set_state");
    int alike = !memcmp(&one, &other, sizeof one) && write_alike(a, b);
    for (uint32_t at = 0; alike && at < one.instances; at++) {
        static uint8_t bytes[2][65536];
        fine(hux_set_read(a, at, 0, bytes[0], 65536), "hux_set_read");
        fine(hux_set_read(b, at, 0, bytes[1], 65536), "hux_set_read");
        alike = !memcmp(bytes[0], bytes[1], 65536);
    }
    return alike;
}

int LLVMFuzzerTestOneInput(const uint8_t *data, size_t length) {
    HuxSet ahead = HUX_SET_NONE, behind = HUX_SET_NONE;
    HuxVerdict verdicts[MOST];
    HuxEvent events[MOST];
    size_t moves = length / 3 < MOST ? length / 3 : MOST;
    if (files.count == 0) {
        read_components();
    }
    make(&ahead);
    make(&behind);
    for (size_t at = 0; at <= moves; at++) {
        if (at < moves) {
            memset(&events[at], 0xa5, sizeof events[at]);
            HuxEvent before = events[at];
            verdicts[at] = play(&ahead, data + 3 * at, 3, &events[at]);
            check(verdicts[at].kind == HUX_KIND_FINE || !memcmp(&before, &events[at], sizeof before),
                  "what is refused has an event");
        }
        if (at > 0) {
            HuxEvent event;
            memset(&event, 0xa5, sizeof event);
            HuxVerdict verdict = play(&behind, data + 3 * (at - 1), 3, &event);
            check(are_equal(&verdict, &verdicts[at - 1]), "another answer");
            check(!memcmp(&event, &events[at - 1], sizeof event), "another event");
        }
    }
    check(are_alike(&ahead, &behind), "another set");
    hux_set_free(&ahead);
    check(are_alike(&behind, &behind), "a set that answers no more");
    hux_set_free(&behind);
    hux_set_free(&behind);
    return 0;
}

#ifdef ALONE
int main(int count, char **words) {
    uint64_t state = 0x9e3779b97f4a7c15;
    long lists = count > 1 ? atol(words[1]) : 1000;
    for (long list = 0; list < lists; list++) {
        uint8_t data[3 * 64];
        data[0] = 0;
        data[1] = 1;
        data[2] = 0;
        for (size_t at = 3; at < sizeof data; at++) {
            state ^= state << 13;
            state ^= state >> 7;
            state ^= state << 17;
            data[at] = (uint8_t)(state >> 24);
        }
        LLVMFuzzerTestOneInput(data, sizeof data);
    }
    drop_files(&files);
    printf("%ld lists of moves of two sets: ok\n", lists);
    return 0;
}
#endif
