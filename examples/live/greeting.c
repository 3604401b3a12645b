/* Greets whom its words name, by the C library. */
#include <stdio.h>
#include <string.h>

int main(int count, char **words) {
    for (int i = 1; i < count; i++) {
        printf("Hello, %s!\n", words[i]);
        size_t size = strlen(words[i]);
        printf("That is %zu bytes, of which half are %.1f.\n", size, (double)size / 2);
    }
    return count < 2;
}
