/* Counts lines, words and bytes of each file below the folders that are named. */
#include <dirent.h>
#include <errno.h>
#include <stdio.h>
#include <stdlib.h>
#include <string.h>
#include <sys/stat.h>

static int fault = 0;

static void refuse(const char *path) {
    fprintf(stderr, "%s: %s\n", path, strerror(errno));
    fault = 1;
}

static void count(const char *path) {
    FILE *file = fopen(path, "rb");
    if (!file) { refuse(path); return; }
    long lines = 0, words = 0, bytes = 0;
    for (int c, in = 0; (c = getc(file)) != EOF; bytes++) {
        lines += c == '\n';
        int blank = c == ' ' || c == '\n' || c == '\t';
        words += !blank && !in;
        in = !blank;
    }
    fclose(file);
    printf("%7ld %7ld %7ld %s\n", lines, words, bytes, path);
}

static int compare(const void *a, const void *b) {
    return strcmp(*(char *const *)a, *(char *const *)b);
}

static void walk(const char *path) {
    struct stat what;
    if (stat(path, &what)) { refuse(path); return; }
    if (!S_ISDIR(what.st_mode)) { count(path); return; }
    DIR *folder = opendir(path);
    if (!folder) { refuse(path); return; }
    char **names = NULL;
    size_t n = 0;
    for (struct dirent *entry; (entry = readdir(folder));) {
        if (!strcmp(entry->d_name, ".") || !strcmp(entry->d_name, "..")) continue;
        names = realloc(names, sizeof *names * (n + 1));
        asprintf(&names[n++], "%s/%s", path, entry->d_name);
    }
    closedir(folder);
    qsort(names, n, sizeof *names, compare);
    for (size_t i = 0; i < n; i++) walk(names[i]);
}

int main(int count, char **words) {
    for (int i = 1; i < count; i++) walk(words[i]);
    return fault;
}
