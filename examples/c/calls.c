/* Runs `component_tool check` on a file in process so many times: calls FILE COUNT
 *
 * Prints how many calls a second were made. */
#include "huxarte.h"

#include <stdio.h>
#include <stdlib.h>
#include <string.h>
#include <time.h>

enum { MOST = 1 << 20, ROOM = 256 };

int main(int count, char **words) {
    static const char given[] = "checkfile";
    static uint8_t bytes[MOST];
    const HuxSpan spans[] = {{0, 5}, {5, 4}};
    uint8_t out[ROOM], err[ROOM];
    HuxFile file;
    FILE *source = count == 3 ? fopen(words[1], "rb") : NULL;
    long calls;
    clock_t begun;

    if (source == NULL) {
        return 2;
    }
    memcpy(bytes, given, sizeof given - 1);
    file.name = spans[1];
    file.bytes.at = sizeof given - 1;
    file.bytes.length = fread(bytes + file.bytes.at, 1, MOST - file.bytes.at, source);
    fclose(source);
    calls = atol(words[2]);
    begun = clock();
    for (long call = 0; call < calls; call++) {
        HuxEnd end = hux_tool(bytes, file.bytes.at + file.bytes.length, spans, 2, &file, 1, out,
                              sizeof out, err, sizeof err);
        if (end.kind != HUX_KIND_FINE || end.status != 0) {
            return 1;
        }
    }
    printf("%.0f calls of hux_tool check a second\n",
           (double)calls * CLOCKS_PER_SEC / (double)(clock() - begun + 1));
    return 0;
}
