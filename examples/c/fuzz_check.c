/* A target of libFuzzer: any bytes are checked, and shown where they are a valid component. What is
 * looked for is a crash, a leak, a hang, and an answer that contradicts another. */
#include "huxarte.h"

#include <stdlib.h>
#include <string.h>

enum { ROOM = 256 };

static void hold(int fact) {
    if (!fact) {
        abort();
    }
}

static int is_same(HuxVerdict one, HuxVerdict other) {
    return one.kind == other.kind && one.reason == other.reason && one.file == other.file &&
           one.place == other.place && one.item == other.item;
}

int LLVMFuzzerTestOneInput(const uint8_t *bytes, size_t length) {
    static const uint8_t nothing = 0;
    uint8_t text[ROOM], short_text[ROOM / 2];
    size_t wanted = 0, short_wanted = 0, fits;
    HuxVerdict checked, shown;

    if (length == 0) {
        bytes = &nothing;
    }
    checked = hux_check(bytes, length, text, sizeof text, &wanted);
    memset(short_text, 0xa5, sizeof short_text);
    hold(is_same(checked, hux_check(bytes, length, short_text, 1, &short_wanted)));
    hold(wanted == short_wanted && (wanted > 0) == (checked.kind != HUX_KIND_FINE));
    hold(wanted == 0 || short_text[0] == text[0]);
    for (size_t at = 1; at < sizeof short_text; at++) {
        hold(short_text[at] == 0xa5);
    }
    if (checked.kind == HUX_KIND_DECODE) {
        hold(checked.place <= length);
    }
    shown = hux_show(bytes, length, text, sizeof text, &wanted);
    hold(checked.kind == HUX_KIND_FINE ? shown.kind == HUX_KIND_FINE || shown.kind == HUX_KIND_SHOW
                                       : is_same(checked, shown));
    fits = wanted < sizeof text ? wanted : sizeof text;
    if (shown.kind == HUX_KIND_FINE && fits > 0 && fits == wanted) {
        hold(text[fits - 1] == '\n');
    }
    return 0;
}
