/* Sets whose links are chosen: three files that offer or want one function, a middleware among them;
 * and a bundle of the three, which chooses links by names.
 *
 * The memory of the library comes from here, so that each allocation can fail in turn. */
#include "set.h"

#include <assert.h>
#include <stdbool.h>
#include <stdlib.h>
#include <string.h>

enum { PROVIDER = 0, WRAPPER = 1, USER = 2, FILES = 3 };

typedef struct Tried {
    bool is_some;
    void *block;
} Tried;

/* How many blocks were asked for and are alive, and which request fails, from 1 on. */
static long asked, alive, failing;

static Tried tried(void *block) {
    Tried found = {block != NULL, block};
    return found;
}

Tried rattle_alloc(size_t size, size_t align);
Tried rattle_realloc(void *block, size_t old_size, size_t size, size_t align);
void rattle_dealloc(void *block);

Tried rattle_alloc(size_t size, size_t align) {
    void *block = ++asked == failing ? NULL : malloc(size == 0 ? align : size);
    alive += block != NULL;
    return tried(block);
}

Tried rattle_realloc(void *block, size_t old_size, size_t size, size_t align) {
    (void)old_size;
    return tried(++asked == failing ? NULL : realloc(block, size == 0 ? align : size));
}

void rattle_dealloc(void *block) {
    alive -= block != NULL;
    free(block);
}

/* The bytes of the three files, by the rules of Binary.md: one that exports `inc`, one that imports
 * and exports it, and one that imports it and lowers the import. */
static const uint8_t bytes[] = {
    /* the provider, 62 bytes */
    0x00, 'a', 's', 'm', 0x0d, 0, 1, 0, 1, 8, 0, 'a', 's', 'm', 1, 0, 0, 0, 2, 4, 1, 0, 0, 0, 6, 7,
    1, 0, 0, 1, 0, 1, 'f', 7, 8, 1, 0x40, 1, 1, 'x', 0x79, 0, 0x79, 8, 6, 1, 0, 0, 0, 0, 0, 11, 9,
    1, 0, 3, 'i', 'n', 'c', 1, 0, 0,
    /* the wrapper, 39 bytes */
    0x00, 'a', 's', 'm', 0x0d, 0, 1, 0, 7, 8, 1, 0x40, 1, 1, 'x', 0x79, 0, 0x79, 10, 8, 1, 0, 3,
    'i', 'n', 'c', 1, 0, 11, 9, 1, 0, 3, 'i', 'n', 'c', 1, 0, 0,
    /* the user, 35 bytes */
    0x00, 'a', 's', 'm', 0x0d, 0, 1, 0, 7, 8, 1, 0x40, 1, 1, 'x', 0x79, 0, 0x79, 10, 8, 1, 0, 3,
    'i', 'n', 'c', 1, 0, 8, 5, 1, 1, 0, 0, 0};
static const HuxSpan files[FILES] = {{0, 62}, {62, 39}, {101, 35}};
static const uint32_t pages[FILES] = {1, 1, 1};

/* Lists of nothing: a pointer is not NULL, also where the length is 0. */
static const HuxPlace alone[1] = {{1, 1}};
static const HuxChoice nothing[1] = {{0, 0, 0, 0}};

/* Links the files by these places and choices, and compares the kind and the plan. */
static HuxVerdict linked(const HuxPlace *places, size_t places_length, const HuxChoice *choices,
                         size_t choices_length, uint32_t kind, const char *plan) {
    uint8_t text[200];
    size_t wanted;
    HuxVerdict verdict = hux_link_by(bytes, sizeof bytes, files, FILES, places, places_length,
                                     choices, choices_length, text, sizeof text, &wanted);
    assert(verdict.kind == kind);
    if (plan != NULL)
        assert(wanted == strlen(plan) && !memcmp(text, plan, wanted));
    return verdict;
}

/* Which exports the imports see: by a choice one alone, by places what is seen of a group. */
static void links(void) {
    const HuxChoice to_wrapper = {USER, 0, WRAPPER, 0}, to_provider = {USER, 0, PROVIDER, 0};
    const HuxChoice inside = {WRAPPER, 0, PROVIDER, 0};
    const HuxChoice twice[2] = {{USER, 0, WRAPPER, 0}, {USER, 0, PROVIDER, 0}};
    const HuxChoice no_import = {USER, 1, WRAPPER, 0}, no_file = {FILES, 0, PROVIDER, 0};
    const HuxChoice no_export = {USER, 0, WRAPPER, 1}, not_before = {WRAPPER, 0, USER, 0};
    const HuxPlace group[2] = {{1, 0}, {0, 1}};
    HuxVerdict verdict;
    uint8_t text[200];
    size_t wanted;
    verdict = hux_link(bytes, sizeof bytes, files, FILES, text, sizeof text, &wanted);
    assert(verdict.kind == HUX_KIND_LINK && verdict.reason == 4 && verdict.file == USER);
    verdict = linked(alone, 0, nothing, 0, HUX_KIND_LINK, NULL);
    assert(verdict.reason == 4 && verdict.file == USER && verdict.item == 0);
    linked(alone, 0, &to_wrapper, 1, HUX_KIND_FINE, "1 inc <- 0 inc\n2 inc <- 1 inc\n");
    linked(alone, 0, &to_provider, 1, HUX_KIND_FINE, "1 inc <- 0 inc\n2 inc <- 0 inc\n");
    verdict = linked(alone, 0, &no_export, 1, HUX_KIND_LINK, NULL);
    assert(verdict.reason == 3 && verdict.file == USER);
    verdict = linked(alone, 0, &not_before, 1, HUX_KIND_LINK, NULL);
    assert(verdict.reason == 3 && verdict.file == WRAPPER);
    assert(linked(alone, 0, twice, 2, HUX_KIND_CHOICE, NULL).place == 1);
    assert(linked(alone, 0, &no_import, 1, HUX_KIND_CHOICE, NULL).place == 0);
    assert(linked(alone, 0, &no_file, 1, HUX_KIND_CHOICE, NULL).place == 0);
    /* a group sees nothing of itself but by a choice; those behind see what is seen of it */
    verdict = linked(group, 2, nothing, 0, HUX_KIND_LINK, NULL);
    assert(verdict.reason == 3 && verdict.file == WRAPPER);
    linked(group, 2, &inside, 1, HUX_KIND_FINE, "1 inc <- 0 inc\n2 inc <- 1 inc\n");
}

static HuxVerdict make(const HuxChoice *choice, HuxSet *set) {
    return hux_set_new_by(bytes, sizeof bytes, files, FILES, alone, 0, choice, 1, pages, FILES,
                          set);
}

/* A set of chosen links runs, and one that can't be linked leaves the handle as it was. */
static void plays(void) {
    const HuxChoice to_wrapper = {USER, 0, WRAPPER, 0}, no_import = {USER, 1, WRAPPER, 0};
    HuxSet set = HUX_SET_NONE;
    HuxCore value = core32(41);
    HuxEvent event;
    assert(hux_set_new(bytes, sizeof bytes, files, FILES, pages, FILES, &set).reason == 4);
    assert(make(&no_import, &set).kind == HUX_KIND_CHOICE && set.at == NULL);
    fine(make(&to_wrapper, &set), "hux_set_new_by");
    assert(make(&to_wrapper, &set).kind == HUX_SET_KIND_FULL);
    fine(hux_set_begin(&set, USER, &event), "hux_set_begin");
    fine(hux_set_call(&set, 0, &value, 1, &event), "hux_set_call");
    /* the wrapper exports what it imports, so that the call enters the provider */
    assert(event.kind == 2 && event.instance == PROVIDER && event.values[0].bits == 41);
    hux_set_free(&set);
    assert(alive == 0);
}

/* The bundle of the three, in which the user is given the wrapper's export, by the form that
 * crates/cm_bundle/FORM.md says: a head; of each part the head of its file, the file, and what it is
 * given; what the bundle exports. */
static const uint8_t head[] = {0x00, 'a', 's', 'm', 0x0d, 0, 1, 0};
static const uint8_t to_provider_is[] = {6, 1, 0, 5, 4, 1, 0, 0, 0};
static const uint8_t to_wrapper_is[] = {6, 8,  1, 1, 0, 0, 3, 'i', 'n', 'c',
                                        5, 10, 1, 0, 1, 1, 3, 'i', 'n', 'c', 1, 0};
static const uint8_t to_user_is[] = {6, 8,  1, 1, 0, 1, 3, 'i', 'n', 'c',
                                     5, 10, 1, 0, 2, 1, 3, 'i', 'n', 'c', 1, 1};
static const uint8_t exports[] = {6, 1, 0, 11, 1, 0};

/* Where what the user is given begins in it, and in that the name of the alias, its sort, and the
 * name, the sort and the index of the argument. */
enum { USER_IS_GIVEN = 8 + 73 + 63 + 37, SORT = 3, NAME = 7, TO = 17, TO_SORT = 20, TO_INDEX = 21 };

typedef struct Bundle {
    uint8_t bytes[209];
    size_t length;
} Bundle;

static void put(Bundle *bundle, const uint8_t *from, size_t length) {
    memcpy(bundle->bytes + bundle->length, from, length);
    bundle->length += length;
}

static Bundle bundled(void) {
    const uint8_t *given[FILES] = {to_provider_is, to_wrapper_is, to_user_is};
    const size_t lengths[FILES] = {sizeof to_provider_is, sizeof to_wrapper_is, sizeof to_user_is};
    Bundle bundle = {{0}, 0};
    put(&bundle, head, sizeof head);
    for (size_t at = 0; at < FILES; at++) {
        const uint8_t part[] = {4, (uint8_t)files[at].length};
        put(&bundle, part, sizeof part);
        put(&bundle, bytes + files[at].at, files[at].length);
        put(&bundle, given[at], lengths[at]);
    }
    put(&bundle, exports, sizeof exports);
    assert(bundle.length == sizeof bundle.bytes);
    return bundle;
}

/* A bundle taken apart: its files, and the links of their imports. */
typedef struct Apart {
    HuxBundle seen;
    HuxSpan files[FILES];
    uint8_t texts[sizeof bytes];
    HuxChoice choices[2];
} Apart;

static HuxVerdict apart(const Bundle *bundle, Apart *found) {
    return hux_unbundle(bundle->bytes, bundle->length, &found->seen, found->files, FILES,
                        found->texts, sizeof found->texts, found->choices, 2);
}

/* A bundle with this byte in the place of another is refused, and nothing is written. */
static HuxVerdict changed(size_t at, uint8_t byte) {
    Bundle bundle = bundled();
    Apart found = {.seen = {7, 7, 7}};
    HuxVerdict verdict;
    bundle.bytes[USER_IS_GIVEN + at] = byte;
    verdict = apart(&bundle, &found);
    assert(verdict.kind != HUX_KIND_FINE);
    assert(found.seen.files == 7 && found.files[1].length == 0 && found.texts[1] == 0);
    return verdict;
}

/* What a bundle is taken apart into, and why it is not. */
static void bundles(void) {
    Bundle bundle = bundled();
    Apart found;
    HuxVerdict verdict;
    uint8_t little[4] = {9, 9, 9, 9};
    fine(apart(&bundle, &found), "hux_unbundle");
    assert(found.seen.files == FILES && found.seen.choices == 2);
    assert(found.seen.bytes == sizeof bytes && !memcmp(found.texts, bytes, sizeof bytes));
    assert(!memcmp(found.files, files, sizeof files));
    for (size_t at = 0; at < 2; at++) {
        const HuxChoice *choice = &found.choices[at];
        assert(choice->importer == at + 1 && choice->import_at == 0);
        assert(choice->provider == at && choice->export_at == 0);
    }
    /* as much as there is room for */
    fine(hux_unbundle(bundle.bytes, bundle.length, &found.seen, found.files, 0, little, 3,
                      found.choices, 0), "hux_unbundle");
    assert(found.seen.bytes == sizeof bytes && !memcmp(little, "\0as\x09", 4));
    bundle.length--;
    verdict = apart(&bundle, &found);
    assert(verdict.kind == HUX_KIND_BUNDLE && verdict.reason == 2 && verdict.place == 208);
    /* the user is given what the wrapper does not export, or what it does not import */
    verdict = changed(NAME, 'o');
    assert(verdict.kind == HUX_KIND_BUNDLE_LINKS && verdict.reason == 4);
    assert(verdict.file == USER && verdict.item == 0);
    verdict = changed(TO, 'o');
    assert(verdict.kind == HUX_KIND_BUNDLE_LINKS && verdict.reason == 2 && verdict.file == USER);
    /* a function of the name is given, and so no instance */
    bundle = bundled();
    bundle.bytes[USER_IS_GIVEN + SORT] = bundle.bytes[USER_IS_GIVEN + TO_SORT] = 5;
    bundle.bytes[USER_IS_GIVEN + TO_INDEX] = 2;
    verdict = apart(&bundle, &found);
    assert(verdict.kind == HUX_KIND_BUNDLE_LINKS && verdict.reason == 2 && verdict.file == USER);
}

/* Makes a set of the files of a bundle, linked as it says. */
static HuxVerdict make_apart(const Bundle *bundle, HuxSet *set) {
    Apart found;
    HuxVerdict verdict = apart(bundle, &found);
    return verdict.kind != HUX_KIND_FINE ? verdict
                                         : hux_set_new_by(found.texts, found.seen.bytes,
                                                          found.files, found.seen.files, alone, 0,
                                                          found.choices, found.seen.choices, pages,
                                                          FILES, set);
}

/* The set of a bundle moves as that of its files; each allocation fails in turn. */
static void plays_bundle(void) {
    const Bundle bundle = bundled();
    HuxCore value = core32(41);
    long count = 0;
    for (bool reached = true; reached; count++) {
        HuxSet set = HUX_SET_NONE;
        HuxEvent event;
        failing = asked + count + 1;
        if (make_apart(&bundle, &set).kind != HUX_KIND_FINE) {
            assert(set.at == NULL && alive == 0);
            fine(make_apart(&bundle, &set), "hux_unbundle and hux_set_new_by");
        }
        reached = asked >= failing;
        failing = 0;
        fine(hux_set_begin(&set, USER, &event), "hux_set_begin");
        fine(hux_set_call(&set, 0, &value, 1, &event), "hux_set_call");
        assert(event.kind == 2 && event.instance == PROVIDER && event.values[0].bits == 41);
        hux_set_free(&set);
        assert(alive == 0);
    }
    assert(count > 20);
}

/* Each allocation fails in turn: nothing is kept, and the same works again. */
static void failures(void) {
    const HuxChoice to_wrapper = {USER, 0, WRAPPER, 0};
    long count = 0;
    for (bool reached = true; reached; count++) {
        HuxSet set = HUX_SET_NONE;
        failing = asked + count + 1;
        if (make(&to_wrapper, &set).kind != HUX_KIND_FINE) {
            assert(set.at == NULL && alive == 0);
            fine(make(&to_wrapper, &set), "hux_set_new_by");
        }
        reached = asked >= failing;
        failing = 0;
        hux_set_free(&set);
        assert(alive == 0);
    }
    assert(count > 10);
}

int main(void) {
    links();
    puts("links by choices and places: ok");
    plays();
    puts("a set of chosen links: ok");
    failures();
    puts("each allocation fails in turn: ok");
    bundles();
    puts("a bundle taken apart: ok");
    plays_bundle();
    puts("a set of a bundle: ok");
    return 0;
}
