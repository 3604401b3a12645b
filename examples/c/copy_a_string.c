/* Passes a string, UTF-8 to UTF-16, as the first function of a component takes it: copy_a_string FILE
 *
 * Prints how the parameters lie, what the callee's allocator is asked for, and what is copied. */
#include "huxarte.h"

#include <inttypes.h>
#include <stdio.h>

enum { MOST = 1 << 20, ROOM = 4 };

int main(int count, char **words) {
    static uint8_t component[MOST];
    const HuxCall call = {0, 0, 1, 0, 0};
    const uint8_t memory[] = {'z', 0xc3, 0xa9};
    const uint64_t slots[] = {0, sizeof memory};
    const HuxHandle no_handles[1] = {{0, 0, 0, 0, 0, 0, 0}};
    const uint32_t whole[1] = {0};
    uint8_t callee_memory[32] = {0};
    uint64_t callee_slots[2] = {0, 0};
    uint32_t answers[ROOM], numbers[ROOM], at = 16;
    HuxRequest requests[ROOM];
    HuxNode node;
    HuxVerdict verdict;
    FILE *source = count == 2 ? fopen(words[1], "rb") : NULL;
    size_t length, wanted;

    if (source == NULL) {
        return 2;
    }
    length = fread(component, 1, MOST, source);
    fclose(source);
    verdict = hux_layout(component, length, call.func, 0, whole, 0, &node);
    if (verdict.kind != HUX_KIND_FINE) {
        return (int)verdict.kind;
    }
    printf("parameters: %" PRIu32 " bytes aligned to %" PRIu32 ", %" PRIu32 " core values\n",
           node.size, node.align, node.width);
    verdict = hux_requests(component, length, &call, memory, sizeof memory, slots, 2, no_handles, 0,
                           requests, ROOM, &wanted);
    if (verdict.kind != HUX_KIND_FINE || wanted > ROOM) {
        return (int)verdict.kind;
    }
    for (size_t number = 0; number < wanted; number++) {
        const HuxRequest *asked = &requests[number];
        answers[number] = at;
        printf("realloc %" PRIu32 " %" PRIu32 " %" PRIu32 " %" PRIu32 "\n",
               asked->chained ? at : 0, asked->old_size, asked->align, asked->size);
    }
    verdict = hux_copy(component, length, &call, memory, sizeof memory, slots, 2, no_handles, 0,
                       no_handles, 0, answers, wanted, callee_memory, sizeof callee_memory,
                       callee_slots, 2, numbers, ROOM, &wanted);
    if (verdict.kind != HUX_KIND_FINE) {
        return (int)verdict.kind;
    }
    printf("enter i32:%" PRIu64 " i32:%" PRIu64 "\n", callee_slots[0], callee_slots[1]);
    for (uint64_t unit = 0; unit < 2 * callee_slots[1]; unit++) {
        printf("%02x", callee_memory[callee_slots[0] + unit]);
    }
    printf("\n");
    return 0;
}
