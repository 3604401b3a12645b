/* Shelves of books. Its strings are UTF-16, so a length is a number of units of two bytes. */
#include "realloc.h"
#define EXPORT(name) __attribute__((export_name("example:books/shelves#" name)))
#define FROM(name) __attribute__((import_module("[export]example:books/shelves"), import_name(name)))
typedef unsigned short u16;
struct text { u16 *at; u32 units; };
struct book { struct text title; u16 year; struct text *tags; u32 tag_count; };
struct shelf { struct text name; u32 count; struct book books[8]; };
struct books { struct book *at; u32 count; };

FROM("[resource-new]shelf") extern u32 new_shelf(struct shelf *shelf);

static u32 gone_shelves;

static void *take(u32 align, u32 size) { return cabi_realloc(0, 0, align, size); }

static int is_same(struct text a, struct text b) {
    if (a.units != b.units) return 0;
    for (u32 n = 0; n < a.units; n++)
        if (a.at[n] != b.at[n]) return 0;
    return 1;
}

EXPORT("[constructor]shelf") u32 make(u16 *name, u32 units) {
    struct shelf *shelf = take(4, sizeof *shelf);
    shelf->name = (struct text){name, units};
    shelf->count = 0;
    return new_shelf(shelf);
}

EXPORT("[method]shelf.add")
void add(struct shelf *shelf, u16 *title, u32 units, u32 year, struct text *tags, u32 tag_count) {
    if (shelf->count == 8) __builtin_trap();
    struct book *book = &shelf->books[shelf->count++];
    book->title = (struct text){title, units};
    book->year = year;
    book->tags = tags;
    book->tag_count = tag_count;
}

EXPORT("[method]shelf.find") struct books *find(struct shelf *shelf, u16 *tag, u32 units) {
    struct text wanted = {tag, units};
    struct books *found = take(4, sizeof *found);
    found->at = take(4, sizeof(struct book) * shelf->count);
    found->count = 0;
    for (u32 n = 0; n < shelf->count; n++)
        for (u32 t = 0; t < shelf->books[n].tag_count; t++)
            if (is_same(shelf->books[n].tags[t], wanted)) {
                found->at[found->count++] = shelf->books[n];
                break;
            }
    return found;
}

EXPORT("label") struct text *label(struct shelf *shelf) {
    struct text *label = take(4, sizeof *label);
    label->at = take(2, 2 * (shelf->name.units + 4));
    label->units = 0;
    for (u32 n = 0; n < shelf->name.units; n++) label->at[label->units++] = shelf->name.at[n];
    const u16 rest[4] = {' ', '(', '0' + shelf->count, ')'};
    for (u32 n = 0; n < 4; n++) label->at[label->units++] = rest[n];
    return label;
}

EXPORT("[dtor]shelf") void shelf_is_gone(struct shelf *shelf) { gone_shelves++; }

EXPORT("gone") u32 gone(void) { return gone_shelves; }
