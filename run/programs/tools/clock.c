/* Sleeps, looks at clocks, and asks for random bytes; prints what does not differ between runs. */
#include <stdio.h>
#include <time.h>
#include <unistd.h>

int main(int count, char **words) {
    (void)count, (void)words;
    struct timespec before, after, wall;
    clock_gettime(CLOCK_MONOTONIC, &before);
    nanosleep(&(struct timespec){0, 50000000}, NULL);
    clock_gettime(CLOCK_MONOTONIC, &after);
    clock_gettime(CLOCK_REALTIME, &wall);
    long ms = (after.tv_sec - before.tv_sec) * 1000 + (after.tv_nsec - before.tv_nsec) / 1000000;
    printf("slept %s\n", ms >= 50 && ms < 5000 ? "well" : "badly");
    printf("the wall clock is %s\n", wall.tv_sec > 1700000000 ? "well" : "behind");
    unsigned char bytes[256], any = 0;
    printf("random: %d\n", getentropy(bytes, sizeof bytes));
    for (int i = 0; i < 256; i++) any |= bytes[i];
    printf("%s\n", any ? "some bits" : "no bits");
    return 0;
}
