/* Keeps folders as a file, in the form ustar of tar: archive c FILE FOLDER, archive t FILE,
   archive x FILE FOLDER. Times are left out. */
#include <dirent.h>
#include <stdio.h>
#include <stdlib.h>
#include <string.h>
#include <sys/stat.h>
#include <unistd.h>

enum { BLOCK = 512 };
struct head {
    char name[100], mode[8], user[8], group[8], size[12], time[12], sum[8], kind, link[100];
    char rest[255];
};

static int fail(const char *what) {
    perror(what);
    exit(1);
}

static void set_sum(struct head *head) {
    unsigned sum = 0;
    memset(head->sum, ' ', sizeof head->sum);
    for (int i = 0; i < BLOCK; i++) sum += ((unsigned char *)head)[i];
    snprintf(head->sum, sizeof head->sum, "%06o", sum);
}

static void put_head(FILE *out, const char *name, char kind, long size, const char *link) {
    struct head head = {.kind = kind, .rest = {'u', 's', 't', 'a', 'r', 0, '0', '0'}};
    snprintf(head.name, sizeof head.name, "%s", name);
    snprintf(head.link, sizeof head.link, "%s", link);
    snprintf(head.mode, sizeof head.mode, "%07o", kind == '5' ? 0755 : 0644);
    snprintf(head.size, sizeof head.size, "%011lo", size);
    snprintf(head.time, sizeof head.time, "%011o", 0);
    set_sum(&head);
    fwrite(&head, BLOCK, 1, out);
}

/* Copies so many bytes, and where the end of a block has to be reached the rest of it. */
static void copy(FILE *from, FILE *to, long size, long skips, long pads) {
    for (long i = 0; i < size; i++) putc(getc(from), to);
    for (long i = 0; i < skips; i++) getc(from);
    for (long i = 0; i < pads; i++) putc(0, to);
}

static long padding(long size) { return (BLOCK - size % BLOCK) % BLOCK; }

static int compare(const void *a, const void *b) {
    return strcmp(*(char *const *)a, *(char *const *)b);
}

static size_t names_of(const char *path, char ***names) {
    size_t count = 0;
    DIR *folder = opendir(path);
    if (!folder) fail(path);
    for (struct dirent *entry; (entry = readdir(folder));) {
        if (!strcmp(entry->d_name, ".") || !strcmp(entry->d_name, "..")) continue;
        *names = realloc(*names, sizeof **names * (count + 1));
        (*names)[count++] = strdup(entry->d_name);
    }
    closedir(folder);
    qsort(*names, count, sizeof **names, compare);
    return count;
}

static void put_tree(FILE *out, const char *top, const char *below);

static void put_one(FILE *out, const char *top, const char *name) {
    char path[300], link[100] = {0};
    struct stat what;
    snprintf(path, sizeof path, "%s/%s", top, name);
    if (lstat(path, &what)) fail(path);
    if (S_ISDIR(what.st_mode)) {
        put_head(out, name, '5', 0, "");
        put_tree(out, top, name);
    } else if (S_ISLNK(what.st_mode)) {
        if (readlink(path, link, sizeof link - 1) < 0) return; /* it leads out of the folder */
        put_head(out, name, '2', 0, link);
    } else {
        FILE *file = fopen(path, "rb");
        if (!file) fail(path);
        put_head(out, name, '0', (long)what.st_size, "");
        copy(file, out, (long)what.st_size, 0, padding((long)what.st_size));
        fclose(file);
    }
}

static void put_tree(FILE *out, const char *top, const char *below) {
    char path[300], name[300], **names = NULL;
    snprintf(path, sizeof path, "%s/%s", top, below);
    size_t count = names_of(path, &names);
    for (size_t i = 0; i < count; i++) {
        snprintf(name, sizeof name, "%s%s%s", below, *below ? "/" : "", names[i]);
        put_one(out, top, name);
        free(names[i]);
    }
    free(names);
}

static void take_one(FILE *in, const struct head *head, const char *top) {
    char path[300];
    long size = strtol(head->size, NULL, 8), rest = padding(size);
    printf("%c %ld %s%s%s\n", head->kind, size, head->name, *head->link ? " -> " : "", head->link);
    snprintf(path, sizeof path, "%s/%s", top ? top : "", head->name);
    if (!top) fseek(in, size + rest, SEEK_CUR);
    else if (head->kind == '5') mkdir(path, 0777);
    else if (head->kind == '2') symlink(head->link, path);
    else {
        FILE *file = fopen(path, "wb");
        if (!file) fail(path);
        copy(in, file, size, rest, 0);
        fclose(file);
    }
}

int main(int count, char **words) {
    struct head head;
    if (count < 3) return 2;
    FILE *file = fopen(words[2], *words[1] == 'c' ? "wb" : "rb");
    if (!file) fail(words[2]);
    if (*words[1] == 'c') {
        put_tree(file, words[3], "");
        copy(file, file, 0, 0, 2 * BLOCK);
    } else
        while (fread(&head, BLOCK, 1, file) == 1 && *head.name)
            take_one(file, &head, *words[1] == 'x' ? words[3] : NULL);
    return fclose(file) != 0;
}
