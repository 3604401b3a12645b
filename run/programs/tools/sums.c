/* Prints the SHA-256 of each file that is named, or of standard input, as sha256sum does. */
#include <errno.h>
#include <stdint.h>
#include <stdio.h>
#include <string.h>

enum { BLOCK = 64, ROUNDS = 64 };
struct sum { uint32_t state[8]; uint64_t bytes; uint8_t block[BLOCK]; };
static uint32_t constants[ROUNDS], first[8];

/* The first 32 bits behind the point of a root of a prime, found bit by bit: power is 2 or 3. */
static uint32_t root(uint32_t prime, int power) {
    uint64_t found = 0; /* the root, with 32 bits behind the point */
    for (int bit = 36; bit >= 0; bit--) {
        __uint128_t tried = found | (uint64_t)1 << bit, wanted = (__uint128_t)prime << 32 * power;
        if ((power == 2 ? tried * tried : tried * tried * tried) <= wanted) found = (uint64_t)tried;
    }
    return (uint32_t)found;
}

static void make_constants(void) {
    uint32_t prime = 2;
    for (int i = 0; i < ROUNDS; prime++) {
        uint32_t divisor = 2;
        while (prime % divisor) divisor++;
        if (divisor != prime) continue;
        if (i < 8) first[i] = root(prime, 2);
        constants[i++] = root(prime, 3);
    }
}

static uint32_t turn(uint32_t x, int by) { return x >> by | x << (32 - by); }

static uint32_t word(const uint32_t *w, int i) {
    uint32_t a = w[i - 15], b = w[i - 2];
    return w[i - 16] + (turn(a, 7) ^ turn(a, 18) ^ a >> 3) + w[i - 7]
        + (turn(b, 17) ^ turn(b, 19) ^ b >> 10);
}

static void add_block(struct sum *sum) {
    uint32_t w[ROUNDS], s[8];
    memcpy(s, sum->state, sizeof s);
    for (int i = 0; i < ROUNDS; i++) {
        const uint8_t *at = sum->block + 4 * i;
        w[i] = i < 16 ? (uint32_t)at[0] << 24 | at[1] << 16 | at[2] << 8 | at[3] : word(w, i);
        uint32_t one = s[7] + (turn(s[4], 6) ^ turn(s[4], 11) ^ turn(s[4], 25))
            + ((s[4] & s[5]) ^ (~s[4] & s[6])) + constants[i] + w[i];
        uint32_t two = (turn(s[0], 2) ^ turn(s[0], 13) ^ turn(s[0], 22))
            + ((s[0] & s[1]) ^ (s[0] & s[2]) ^ (s[1] & s[2]));
        memmove(s + 1, s, 7 * sizeof *s);
        s[4] += one;
        s[0] = one + two;
    }
    for (int i = 0; i < 8; i++) sum->state[i] += s[i];
}

static void add(struct sum *sum, int byte) {
    sum->block[sum->bytes++ % BLOCK] = (uint8_t)byte;
    if (sum->bytes % BLOCK == 0) add_block(sum);
}

static void print_sum(FILE *file, const char *name) {
    struct sum sum = {0};
    memcpy(sum.state, first, sizeof first);
    for (int c; (c = getc(file)) != EOF;) add(&sum, c);
    uint64_t bits = sum.bytes * 8;
    add(&sum, 0x80);
    while (sum.bytes % BLOCK != BLOCK - 8) add(&sum, 0);
    for (int shift = 56; shift >= 0; shift -= 8) add(&sum, (int)(bits >> shift & 0xff));
    for (int i = 0; i < 8; i++) printf("%08x", (unsigned)sum.state[i]);
    printf("  %s\n", name);
}

int main(int count, char **words) {
    int faults = 0;
    make_constants();
    if (count == 1) print_sum(stdin, "-");
    for (int i = 1; i < count; i++) {
        FILE *file = fopen(words[i], "rb");
        if (file) {
            print_sum(file, words[i]);
            fclose(file);
        } else {
            fprintf(stderr, "%s: %s\n", words[i], strerror(errno));
            faults = 1;
        }
    }
    return faults;
}
