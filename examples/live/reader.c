/* Uses shelves of books, and answers 0 where all is as it should be, else the line of this file
   where something is not. Its strings are UTF-8. */
#include "realloc.h"
#define FROM(name) __attribute__((import_module("example:books/shelves"), import_name(name)))
typedef unsigned short u16;
struct text { const char *at; u32 bytes; };
struct book { struct text title; u16 year; const struct text *tags; u32 tag_count; };
struct books { const struct book *at; u32 count; };
#define TEXT(literal) {literal, sizeof literal - 1}

FROM("[constructor]shelf") extern u32 make(const char *name, u32 bytes);
FROM("[method]shelf.add") extern void add(
    u32 shelf, const char *title, u32 bytes, u32 year, const struct text *tags, u32 tag_count);
FROM("[method]shelf.find") extern void find(
    u32 shelf, const char *tag, u32 bytes, struct books *found);
FROM("label") extern void label(u32 shelf, struct text *label);
FROM("gone") extern u32 gone(void);
FROM("[resource-drop]shelf") extern void drop_shelf(u32 shelf);

static const struct text tags[] = {TEXT("Schnee"), TEXT("Züge"), TEXT("山")};
static const struct book books[] = {
    {TEXT("雪国 🗻"), 1948, tags, 2},
    {TEXT("Der Zauberberg"), 1924, tags + 2, 1},
    {TEXT("Fräulein Smillas Gespür für Schnee"), 1992, tags, 1},
};

static int is_same(struct text a, struct text b) {
    if (a.bytes != b.bytes) return 0;
    for (u32 n = 0; n < a.bytes; n++)
        if (a.at[n] != b.at[n]) return 0;
    return 1;
}

#define CHECK(holds) if (!(holds)) return __LINE__

__attribute__((export_name("run"))) u32 run(void) {
    const struct text name = TEXT("Bücher"), full = TEXT("Bücher (3)");
    u32 shelf = make(name.at, name.bytes);
    for (u32 n = 0; n < 3; n++)
        add(shelf, books[n].title.at, books[n].title.bytes, books[n].year, books[n].tags,
            books[n].tag_count);

    struct text told;
    label(shelf, &told);
    CHECK(is_same(told, full));

    struct books found;
    find(shelf, tags[0].at, tags[0].bytes, &found);
    CHECK(found.count == 2);
    CHECK(is_same(found.at[0].title, books[0].title));
    CHECK(found.at[0].year == 1948 && found.at[0].tag_count == 2);
    CHECK(is_same(found.at[0].tags[1], tags[1]));
    CHECK(is_same(found.at[1].title, books[2].title));
    CHECK(found.at[1].year == 1992 && found.at[1].tag_count == 1);

    CHECK(gone() == 0);
    drop_shelf(shelf);
    CHECK(gone() == 1);
    return 0;
}
