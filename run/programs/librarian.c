/* A command that uses another component too: examples/live's library, whose texts are UTF-16. Each
   line of standard input is `YEAR TAG TITLE`; its words are tags, whose books it prints. */
#include <stdio.h>
#include <stdlib.h>
#include <string.h>
#define SHELVES "example:books/shelves"
#define FROM(name) __attribute__((import_module(SHELVES), import_name(name)))
typedef unsigned int u32;
struct text { const char *at; u32 bytes; };
struct book { struct text title; unsigned short year; const struct text *tags; u32 tag_count; };
struct books { const struct book *at; u32 count; };

FROM("[constructor]shelf") extern u32 make(const char *name, u32 bytes);
FROM("[method]shelf.add") extern void add(
    u32 shelf, const char *title, u32 bytes, u32 year, const struct text *tags, u32 tag_count);
FROM("[method]shelf.find") extern void find(
    u32 shelf, const char *tag, u32 bytes, struct books *found);
FROM("label") extern void label(u32 shelf, struct text *label);
FROM("gone") extern u32 gone(void);
FROM("[resource-drop]shelf") extern void drop_shelf(u32 shelf);

static void print_book(const struct book *book) {
    printf("  %d %.*s\n", book->year, (int)book->title.bytes, book->title.at);
}

int main(int count, char **words) {
    u32 shelf = make("Bücher", strlen("Bücher"));
    char line[300], tag[100];
    int year, at;
    while (fgets(line, sizeof line, stdin)) {
        if (sscanf(line, "%d %99s %n", &year, tag, &at) < 2) continue;
        line[strcspn(line, "\n")] = 0;
        struct text tags = {tag, strlen(tag)};
        add(shelf, line + at, strlen(line + at), year, &tags, 1);
    }
    struct text name;
    label(shelf, &name);
    printf("%.*s\n", (int)name.bytes, name.at);
    for (int i = 1; i < count; i++) {
        struct books found;
        find(shelf, words[i], strlen(words[i]), &found);
        printf("%s: %u\n", words[i], found.count);
        for (u32 n = 0; n < found.count; n++)
            print_book(&found.at[n]);
    }
    drop_shelf(shelf);
    printf("gone: %u\n", gone());
    return 0;
}
