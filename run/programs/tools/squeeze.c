/* Squeezes standard input into standard output, by what came before: squeeze; squeeze -d makes it
   long again; squeeze -t does both in memory, and says what came of it.

   A byte below 128 says how many bytes more than one follow as they are; another one that its lower
   bits and 4 many bytes come again, from as far back as two bytes say. */
#include <stdint.h>
#include <stdio.h>
#include <stdlib.h>
#include <string.h>

enum { SHORTEST = 4, LONGEST = 131, FAR = 65535, SLOTS = 1 << 14 };
struct bytes { uint8_t *at; size_t size, room; };

static void put(struct bytes *bytes, int byte) {
    if (bytes->size == bytes->room) {
        bytes->room = bytes->room * 2 + 64;
        bytes->at = realloc(bytes->at, bytes->room);
    }
    bytes->at[bytes->size++] = (uint8_t)byte;
}

static struct bytes read_all(void) {
    struct bytes all = {0};
    for (int c; (c = getchar()) != EOF;) put(&all, c);
    return all;
}

static void put_literals(struct bytes *out, const uint8_t *from, size_t size) {
    for (size_t i = 0; i < size; i++) {
        if (i % 128 == 0) put(out, (int)(size - i > 128 ? 127 : size - i - 1));
        put(out, from[i]);
    }
}

static size_t alike(const uint8_t *a, const uint8_t *b, const uint8_t *end) {
    size_t size = 0;
    while (b + size < end && size < LONGEST && a[size] == b[size]) size++;
    return size;
}

static struct bytes squeeze(struct bytes in) {
    static size_t slots[SLOTS]; /* where four bytes that sum up so were last, and 1 */
    struct bytes out = {0};
    size_t from = 0, i = 0;
    while (i + SHORTEST <= in.size) {
        uint32_t four;
        memcpy(&four, in.at + i, SHORTEST);
        size_t *slot = &slots[four * 2654435761u >> 18], was = *slot;
        *slot = i + 1;
        size_t back = was ? i - (was - 1) : 0;
        int near = back > 0 && back <= FAR;
        size_t size = near ? alike(in.at + was - 1, in.at + i, in.at + in.size) : 0;
        if (size < SHORTEST) { i++; continue; }
        put_literals(&out, in.at + from, i - from);
        put(&out, (int)(128 + size - SHORTEST));
        put(&out, (int)(back & 0xff));
        put(&out, (int)(back >> 8));
        from = i += size;
    }
    put_literals(&out, in.at + from, in.size - from);
    return out;
}

static struct bytes unsqueeze(struct bytes in) {
    struct bytes out = {0};
    for (size_t i = 0; i < in.size;) {
        int code = in.at[i++];
        size_t size = code < 128 ? (size_t)code + 1 : (size_t)code - 128 + SHORTEST;
        size_t needs = code < 128 ? size : 2;
        size_t back = in.size - i >= 2 ? in.at[i] | (size_t)in.at[i + 1] << 8 : 0;
        int sound = in.size - i >= needs && (code < 128 || (back > 0 && back <= out.size));
        if (!sound) {
            fprintf(stderr, "squeeze: damaged at %zu\n", i);
            exit(1);
        }
        for (size_t k = 0; k < size; k++)
            put(&out, code < 128 ? in.at[i + k] : out.at[out.size - back]);
        i += needs;
    }
    return out;
}

int main(int count, char **words) {
    const char *option = count > 1 ? words[1] : "";
    struct bytes in = read_all();
    if (!strcmp(option, "-t")) {
        struct bytes less = squeeze(in), again = unsqueeze(less);
        int same = again.size == in.size && (in.size == 0 || !memcmp(again.at, in.at, in.size));
        const char *what = same ? "the same again" : "WRONG";
        printf("%zu bytes, squeezed %zu, %s\n", in.size, less.size, what);
        return !same;
    }
    struct bytes out = !strcmp(option, "-d") ? unsqueeze(in) : squeeze(in);
    return fwrite(out.at, 1, out.size, stdout) != out.size;
}
