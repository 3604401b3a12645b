/* Huxarte for C and C++: component files checked, shown, linked and played, sets of them run move by
 * move, and values of the Canonical ABI passed, in process.
 *
 * Each function is proved to meet its contract for the bytes that it is given. It keeps nothing
 * between calls but the sets that HuxSet structs have: it may be called from any thread, also at
 * once, with memory of its own each, and a set is for the thread that made it. What is not proved
 * stands with the caller:
 *
 * - A pointer and a length, in elements, are those of memory that is there, and aligned, for the
 *   whole call. A pointer is not NULL, also where the length is 0.
 * - What a call writes to (each pointer that is not const) overlaps nothing else that it is given,
 *   and no other thread touches it meanwhile. What it reads may overlap, and stays as it is.
 * - Memory comes from three functions of the program (examples/c/heap.c): from malloc, realloc and
 *   free, of one allocator, which align a block to each power of two up to 16 that divides its size.
 *   Where there is none, the call says so by its answer; nothing but sets is kept allocated behind a
 *   call.
 * - A HuxSet is all zeros at first (HUX_SET_NONE), and then as a call left it. It is not used as a
 *   copy: of two with the same `at` the one is dead once the other is freed.
 * - No call is made from a signal handler, or from a forked child of a process with threads.
 *
 * A text is written as far as its buffer has room, without a zero behind it; the rest of the buffer
 * stays as it was. The caller gets the number of bytes that the text has: where it is more than the
 * room, the same call with that room answers the whole text.
 *
 * libhuxarte_c.a, which `rt lib` makes in crates/huxarte_c, has these functions.
 *
 * Written by checks/header from the exports of crates/huxarte_c. */
#ifndef HUXARTE_H
#define HUXARTE_H

#include <stddef.h>
#include <stdint.h>

#ifdef __cplusplus
extern "C" {
#endif

/* What is wrong, by its kind: `HuxVerdict.kind` has its number. */
enum HuxKind {
    /* Nothing is wrong. */
    HUX_KIND_FINE = 0,
    /* The bytes of a file are no component file: `reason` is the number of a `DecodeReason`,
     * `place` the byte, from 0. */
    HUX_KIND_DECODE = 1,
    /* A shim of a file, or what is made of it, is refused: the number of a `ShimReason`, at the
     * section `place` and its item `item`. */
    HUX_KIND_SHIM = 2,
    /* The plain component of a file passes a limit: the number of a `LimitFault`. */
    HUX_KIND_LIMIT = 3,
    /* The plain component of a file is not valid: the number of a `ValidReason`, at the section
     * `place` of that component and its item `item`. */
    HUX_KIND_INVALID = 4,
    /* The plain component of a file is not what the file's shims say: the number of a
     * `FitReason`, at the want `place`. */
    HUX_KIND_UNFIT = 5,
    /* The components can't be linked: the number of a `LinkReason`, at the component `file` and
     * its import `item`. */
    HUX_KIND_LINK = 6,
    /* A WIT text is no package: the number of a `WitReason`, at the byte `place`. */
    HUX_KIND_WIT = 7,
    /* A package has no such world, or the world no signature: the number of a `WorldFault`. */
    HUX_KIND_WORLD = 8,
    /* A component does not fit a world, at the world's export `place`: the number of a
     * `ConformReason`. Of an item of an instance, `item` is its place there, else `SIZE_MAX`. */
    HUX_KIND_WORLD_EXPORT = 9,
    /* A component does not fit a world, at the component's import `place`: the number of a
     * `ConformReason`; `item` as above. */
    HUX_KIND_OWN_IMPORT = 10,
    /* A component is not shown: the number of a `ShowFault`. */
    HUX_KIND_SHOW = 11,
    /* A part passes the end of the bytes that it is a part of. */
    HUX_KIND_OUTSIDE = 12,
    /* What is to be a text is not UTF-8. */
    HUX_KIND_NO_TEXT = 13,
    /* There was no memory for a list of what was handed over, or for a signature. Other kinds
     * have a reason of their own for want of memory. */
    HUX_KIND_MEMORY = 14,
    /* A script is refused, or the machine makes no set of the components. */
    HUX_KIND_UNPLAYED = 15,
    /* A drive trapped. */
    HUX_KIND_TRAPPED = 16,
    /* A drive could not begin, or reached its limit. */
    HUX_KIND_STOPPED = 17,
    /* No function of the component has the index. */
    HUX_KIND_NO_FUNC = 18,
    /* Strings are read or stored in no encoding of this number. */
    HUX_KIND_NO_ENCODING = 19,
    /* There are not as many core values as pass the parameters. */
    HUX_KIND_NO_SLOTS = 20,
    /* A memory has 2^32 bytes or more. */
    HUX_KIND_TOO_LARGE = 21,
    /* The values are refused, or what they are copied to: the number of the trap that this is. */
    HUX_KIND_VALUE = 22,
    /* A handle table has too many handles, or there was no memory for it: the number of a
     * `HandleFault`. */
    HUX_KIND_HANDLES = 23,
    /* The allocator's answer `place` is refused: the number of the trap that this is. */
    HUX_KIND_ANSWER = 24,
    /* There are more or fewer answers than requests: `place` is how many answers there are. */
    HUX_KIND_ANSWERS = 25,
    /* A path leads to no type, or the function has no result. */
    HUX_KIND_NO_PART = 26,
    /* The choice `place` is of an import that is not there, or that has a choice before. */
    HUX_KIND_CHOICE = 33,
    /* The bytes are no bundle: the number of a `BundleReason`, at the byte `place`. */
    HUX_KIND_BUNDLE = 34,
    /* What a part of a bundle is given does not stand for an export: the number of a
     * `LinksReason`, of the part `file` and its argument `item`. */
    HUX_KIND_BUNDLE_LINKS = 35
};

/* What a type is, as CanonicalABI.md despecializes it: `HuxNode.sort` has its number. */
enum HuxSort {
    HUX_SORT_BOOL = 0,
    /* A number with a sign. */
    HUX_SORT_SIGNED = 1,
    /* A number without a sign. */
    HUX_SORT_UNSIGNED = 2,
    HUX_SORT_CHAR = 3,
    /* `count` labels. */
    HUX_SORT_FLAGS = 4,
    HUX_SORT_STRING = 5,
    /* A list, whose elements lie elsewhere: part 0 is one. */
    HUX_SORT_LIST = 6,
    /* `count` elements in place: part 0 is the first one. */
    HUX_SORT_FIXED_LIST = 7,
    /* The `count` fields of a record or a tuple: part k is field k. */
    HUX_SORT_FIELDS = 8,
    /* The `count` cases of a variant, an enum, an option or a result: part k is what case k
     * carries. */
    HUX_SORT_CASES = 9,
    HUX_SORT_OWN = 10,
    HUX_SORT_BORROW = 11
};

/* What a part of a plan is: a definition that an engine makes, or a word of one. */
enum HuxPlanKind {
    /* A core module, whose bytes stand in the texts. */
    HUX_PLAN_KIND_MODULE = 1,
    /* A core instance of core module `index`, which is given the next `count` parts. */
    HUX_PLAN_KIND_INSTANCE = 2,
    /* Core instance `index`, under a name that the core module imports from. */
    HUX_PLAN_KIND_GIVEN = 3,
    /* A core instance of the next `count` parts. */
    HUX_PLAN_KIND_INLINE = 4,
    /* Core definition `index` of a sort, under a name. */
    HUX_PLAN_KIND_ITEM = 5,
    /* What core instance `index` exports under a name: one more core definition of the sort. */
    HUX_PLAN_KIND_ALIAS = 6,
    /* One more core function: a call of function `index`, which leaves the guest; the next
     * `count` parts are its options. */
    HUX_PLAN_KIND_LOWER = 7,
    /* One more core function: makes a handle of resource type `index`. */
    HUX_PLAN_KIND_NEW = 8,
    /* One more core function: drops one. */
    HUX_PLAN_KIND_DROP = 9,
    /* One more core function: tells the representation of one. */
    HUX_PLAN_KIND_REPRESENT = 10,
    /* Core function `index` is the body of one more function; the next `count` parts are its
     * options. */
    HUX_PLAN_KIND_LIFT = 11,
    /* An option of a lower or a lift, by its code, which is the sort: 0 UTF-8, 1 UTF-16, 2
     * Latin-1 or UTF-16, 3 the core memory `index`, 4 the core function `index` that allocates,
     * 5 the one that is called when a result was read (Binary.md, `canonopt`). */
    HUX_PLAN_KIND_CANON_OPTION = 12
};

/* What is wrong with a call of a set, by its kind, beside those of `HuxKind`. */
enum HuxSetKind {
    /* The handle keeps no set. */
    HUX_SET_KIND_EMPTY = 27,
    /* The handle keeps a set already. */
    HUX_SET_KIND_FULL = 28,
    /* The machine refuses, by the number of the misuse: 1 no instance acts, 2 a call is on the
     * stack, 3 the instance is closed, 4 there is no such instance, 5 wrong numbers of pages, 6
     * no memory. */
    HUX_SET_KIND_MISUSE = 29,
    /* The core value `place` has no kind of its number. */
    HUX_SET_KIND_NO_KIND = 30,
    /* The set has no instance of the number. */
    HUX_SET_KIND_NO_INSTANCE = 31,
    /* No handle of the resource stands at the index: the number of a `HandleFault`. */
    HUX_SET_KIND_NO_HANDLE = 32
};

/* No event has more core values (CanonicalABI.md, `MAX_FLAT_PARAMS`). */
#define HUX_MAX_CORE 16

/* What the allocator of a callee is asked for (CanonicalABI.md, `realloc`). */
typedef struct HuxRequest {
    /* 1 where its old pointer is the answer to the request just before it; else 0, and it has
     * none. */
    uint32_t chained;
    /* How many bytes stand at the old pointer; 0 where there is none. */
    uint32_t old_size;
    /* The alignment, in bytes. */
    uint32_t align;
    /* How many bytes are asked for. */
    uint32_t size;
} HuxRequest;

/* The parameters of a call: which function, and how strings are encoded on both sides. */
typedef struct HuxCall {
    /* The index of the function among those of the component, from 0. */
    uint32_t func;
    /* How strings are encoded where the values come from: 0 UTF-8, 1 UTF-16, 2 latin1+utf16. */
    uint32_t source;
    /* How they are encoded where the values go: 0 UTF-8, 1 UTF-16. */
    uint32_t target;
    /* The place of the component that they go to, from 0: handles of its own resources that are
     * lent to it are handed over as their representations. */
    uint32_t callee;
    /* The number of the call, from which the callee's borrowed handles are counted. */
    uint32_t call;
} HuxCall;

/* A handle of a table (CanonicalABI.md, "Resource State"). */
typedef struct HuxHandle {
    /* Which resource of its component: the number counts its resources from 0. */
    uint64_t number;
    /* Which resource of all that were made, so that two handles of one are told from others. */
    uint64_t serial;
    /* How many calls have borrowed the handle and have not ended yet. */
    uint64_t lends;
    /* Which component defines the resource, from 0; in a component on its own 0. */
    uint32_t component;
    /* The representation. */
    uint32_t rep;
    /* 1 where the handle owns the resource, 0 where it was borrowed. */
    uint32_t owned;
    /* The call that borrowed it, where it was borrowed. */
    uint32_t call;
} HuxHandle;

/* A type in memory and in core values (CanonicalABI.md, "Alignment", "Element Size" and
 * "Flattening"). */
typedef struct HuxNode {
    /* The number of a `HuxSort`. */
    uint32_t sort;
    /* Where it stands in the type that holds it, in bytes; 0 where it is the element of a list. */
    uint32_t offset;
    /* Its size, in bytes. */
    uint32_t size;
    /* Its alignment, in bytes. */
    uint32_t align;
    /* How many core values pass it. */
    uint32_t width;
    /* The size of the number of a case, in bytes; 0 where there are no cases. */
    uint32_t discriminant;
    /* How many labels, elements, fields or cases it has. */
    size_t count;
} HuxNode;

/* How a command ended, and how many bytes it printed. */
typedef struct HuxEnd {
    /* The number of a `HuxKind`: HUX_KIND_FINE where a command ran, else HUX_KIND_OUTSIDE,
     * HUX_KIND_NO_TEXT or HUX_KIND_MEMORY. */
    uint32_t kind;
    /* The exit status of the command that ran: 0 done, 1 refused, 2 usage, 3 trap, 4 input or
     * output; else 0. */
    uint32_t status;
    /* How many bytes it printed on standard output. */
    size_t out;
    /* How many bytes it printed on standard error. */
    size_t err;
} HuxEnd;

/* A part of the bytes that are handed over with it: where it begins, from 0, and how many bytes
 * it has. */
typedef struct HuxSpan {
    size_t at;
    size_t length;
} HuxSpan;

/* An answer in numbers: what is wrong, and where. Files, sections, items and bytes count from 0;
 * a field that its kind does not speak of is 0. */
typedef struct HuxVerdict {
    /* The number of a `HuxKind`. */
    uint32_t kind;
    /* The number of the reason, as docs/RULES.md lists them. */
    uint32_t reason;
    /* Which file, of several. */
    size_t file;
    size_t place;
    size_t item;
} HuxVerdict;

/* Where a component stands among groups: components in a row that count as one for those behind.
 * The first component begins a group in any case. */
typedef struct HuxPlace {
    /* Not 0 where it begins a group, which sees what is seen of the groups before it. */
    uint32_t begins;
    /* Not 0 where those behind its group see its exports. */
    uint32_t is_seen;
} HuxPlace;

/* The link that is chosen for an import, which sees this export alone. Files, and the imports
 * and exports of each, count from 0. */
typedef struct HuxChoice {
    /* The file of the import. */
    size_t importer;
    /* The number of the import. */
    size_t import_at;
    /* The file of the export, which has to stand before that of the import. */
    uint32_t provider;
    /* The number of the export. */
    size_t export_at;
} HuxChoice;

/* A file that is handed over: the parts of the bytes that are its name and what stands in it. */
typedef struct HuxFile {
    HuxSpan name;
    HuxSpan bytes;
} HuxFile;

/* A part of a plan, in the order of the component's definitions. Each core definition has the
 * next index of its sort, from 0. */
typedef struct HuxPlanPart {
    /* How many bytes it has in the texts, behind those of the parts before: a core module's, or
     * a name. */
    size_t length;
    /* How many of the next parts are words of it. */
    size_t count;
    /* What it is: a `HuxPlanKind`. */
    uint32_t kind;
    /* Of what it is made. */
    uint32_t index;
    /* Of an item or an alias 0 a core function, 1 a table, 2 a memory, 3 a global; of an option
     * its code; else 0. */
    uint32_t sort;
} HuxPlanPart;

/* How long a plan is. */
typedef struct HuxPlan {
    /* How many parts it has. */
    size_t parts;
    /* How many bytes its texts have. */
    size_t bytes;
} HuxPlan;

/* How much a bundle has. */
typedef struct HuxBundle {
    /* How many files it has. */
    size_t files;
    /* How many bytes they have together. */
    size_t bytes;
    /* How many imports they have, for each of which there is a choice. */
    size_t choices;
} HuxBundle;

/* A core value (CanonicalABI.md, "Flattening"). */
typedef struct HuxCore {
    /* The number, without a sign of its own: one of 32 bits in the low half, above which is 0 in
     * what the library writes, and nothing counts in what it reads. */
    uint64_t bits;
    /* 0 for a number of 32 bits, 1 for one of 64. */
    uint32_t kind;
} HuxCore;

/* What a move led to. */
typedef struct HuxEvent {
    /* 0 the bytes are written; 1 the memory has grown; 2 the body of a function begins; 3 the
     * allocator of a call is called; 4 an instance goes on where it called; 5 a function tidies
     * up behind a call; 6 the destructor of a dropped resource begins; 7 a trap has emptied the
     * stack and closed the instances on it; 8 the root has returned. */
    uint32_t kind;
    /* Which instance makes the next move, from 0, of the kinds 2 to 6; else 0. */
    uint32_t instance;
    /* Which core function of its component it is in, from 0, of the kinds 2, 3, 5 and 6; else 0. */
    uint32_t func;
    /* Of kind 1 the pages before, `UINT32_MAX` where none were added; of kind 6 the
     * representation; of kind 7 the number of the trap (docs/RULES.md); else 0. */
    uint32_t number;
    /* How many core values the instance is handed: arguments or results, of the kinds 2 to 5. */
    uint32_t count;
    /* These core values; behind them 0. */
    HuxCore values[HUX_MAX_CORE];
} HuxEvent;

/* A set of linked components that runs, or none. All zeros, as `HUX_SET_NONE`, it keeps none.
 *
 * What `at` leads to is the library's: nobody else reads or writes it. The struct may be moved,
 * and not be used as a copy: of two with the same `at` one is dead. A set takes one call at a
 * time, by the thread that made it. Each set is freed by `hux_set_free`, which leaves
 * `HUX_SET_NONE`. */
typedef struct HuxSet {
    void *at;
} HuxSet;
#define HUX_SET_NONE { NULL }

/* A set as a whole. */
typedef struct HuxSetState {
    /* How many instances there are. */
    size_t instances;
    /* Which instance makes the next move; `SIZE_MAX` where no call is on the stack. */
    size_t acting;
    /* How much is kept of the topmost call: records of parts of the value that is on its way,
     * resources on their way, and handles that are lent to the call. */
    size_t records;
    size_t handles;
    size_t lends;
} HuxSetState;

/* An instance of a set. */
typedef struct HuxInstance {
    /* How many bytes its memory has. */
    size_t bytes;
    /* How many indices its table has, 0 among them: no handle stands at another. */
    size_t indices;
    /* 1 where a trap has closed it, else 0. */
    uint32_t closed;
} HuxInstance;

/* A resource of a set. */
typedef struct HuxResource {
    /* Which of its component's resources, from 0. */
    uint64_t number;
    /* Which component defines it, from 0. */
    uint32_t component;
} HuxResource;

/* How many bytes there are to be written of each text. */
typedef struct HuxWanted {
    size_t out;
    size_t err;
} HuxWanted;

/* A part of a memory: its address, and how many bytes it has. */
typedef struct HuxRegion {
    uint32_t at;
    uint32_t size;
} HuxRegion;

/* What adapters wrote before the latest event of a set. */
typedef struct HuxWritten {
    /* How many regions there are: 0 where they wrote nothing. */
    size_t count;
    /* In the memory of which instance they lie, from 0. */
    uint32_t instance;
} HuxWritten;

/* Tells what passing the parameters of a call asks the callee's allocator for, in order, before
 * anything is stored (docs/DEFINITIONS.md; the order and the sizes are this project's own).
 *
 * `component` are the bytes of a component file with the called function; `slots` are the core
 * values with which the caller passes the parameters, of 32 bits in the low half, `memory` is
 * its memory, and `handles` its handle table, under the indices from 1 on.
 *
 * The answer is HUX_KIND_FINE, and `requests` has as many requests as there is room for;
 * `wanted` says how many there are. Else nothing is written but a `wanted` of 0. */
HuxVerdict hux_requests(
    const uint8_t *component,
    size_t component_length,
    const HuxCall *call,
    const uint8_t *memory,
    size_t memory_length,
    const uint64_t *slots,
    size_t slots_length,
    const HuxHandle *handles,
    size_t handles_length,
    HuxRequest *requests,
    size_t requests_length,
    size_t *wanted);

/* Copies the parameters of a call from the memory of its caller to that of its callee
 * (CanonicalABI.md, "Lifting and Lowering Values").
 *
 * `component` are the bytes of a component file with the called function; `slots` are the core
 * values with which the caller passes the parameters, of 32 bits in the low half, `handles` its
 * handle table, and `callee_handles` that of the callee, each under the indices from 1 on.
 * `answers` are those of the callee's allocator to the requests of `hux_requests`.
 *
 * Where the answer is HUX_KIND_FINE, `callee_memory` and `callee_slots` have the values, and
 * `numbers` the numbers that stand for their handles in the callee, in reading order: as many as
 * there is room for, and `wanted` says how many there are. Else nothing is written but a
 * `wanted` of 0. */
HuxVerdict hux_copy(
    const uint8_t *component,
    size_t component_length,
    const HuxCall *call,
    const uint8_t *memory,
    size_t memory_length,
    const uint64_t *slots,
    size_t slots_length,
    const HuxHandle *handles,
    size_t handles_length,
    const HuxHandle *callee_handles,
    size_t callee_handles_length,
    const uint32_t *answers,
    size_t answers_length,
    uint8_t *callee_memory,
    size_t callee_memory_length,
    uint64_t *callee_slots,
    size_t callee_slots_length,
    uint32_t *numbers,
    size_t numbers_length,
    size_t *wanted);

/* Checks the bytes of a component file, which may have shims: whether they are a valid component
 * (Binary.md; Explainer.md, "Component Definitions"), of which all holds that its shims say.
 *
 * The answer is HUX_KIND_FINE; else the first fault, which `text` shows: as many of its bytes as
 * there is room for are written, and `wanted` says how many it has. */
HuxVerdict hux_check(
    const uint8_t *bytes,
    size_t bytes_length,
    uint8_t *text,
    size_t text_length,
    size_t *wanted);

/* Shows what the component of a file imports and exports, a line for each, in the order of its
 * file: the text that `component_tool show` prints of a file without shims.
 *
 * The answer is HUX_KIND_FINE, and `text` has that text; else the first fault, which `text`
 * shows. As many bytes of the text as there is room for are written, and `wanted` says how many
 * it has. */
HuxVerdict hux_show(
    const uint8_t *bytes,
    size_t bytes_length,
    uint8_t *text,
    size_t text_length,
    size_t *wanted);

/* Whether the component of a file fits the world of a full name, as `a:b/w`, of a WIT text.
 *
 * The answer is HUX_KIND_FINE; else the first fault, of the file, of the texts
 * (HUX_KIND_NO_TEXT), of the WIT text, of its world, or of the component against that. `text`
 * shows it: as many of its bytes as there is room for are written, and `wanted` says how many it
 * has. */
HuxVerdict hux_conform(
    const uint8_t *bytes,
    size_t bytes_length,
    const uint8_t *wit,
    size_t wit_length,
    const uint8_t *world,
    size_t world_length,
    uint8_t *text,
    size_t text_length,
    size_t *wanted);

/* Links the components of files, each a part of the bytes: each import to the only export of a
 * file before that serves it.
 *
 * The answer is HUX_KIND_FINE, and `text` has a line for each import, which says what serves it:
 * the number of the import's file, its name, ` <- `, the number of the export's file, and its
 * name. Else the answer is the first fault, of a part, of a file, or of a link, which `text`
 * shows. As many bytes of the text as there is room for are written, and `wanted` says how many
 * it has. */
HuxVerdict hux_link(
    const uint8_t *bytes,
    size_t bytes_length,
    const HuxSpan *files,
    size_t files_length,
    uint8_t *text,
    size_t text_length,
    size_t *wanted);

/* Links the components of files as `hux_link` does, where it is chosen which exports their
 * imports see: by a choice that one alone; else those that are seen of the groups before. With
 * no place and no choice it is `hux_link`.
 *
 * `places` are those of the first files, in order; behind them each file is a group of its own,
 * and seen. A choice only narrows: its export has to be of a file before, and to fit by name and
 * by type, else the import is not served. HUX_KIND_CHOICE comes behind the faults of files, and
 * before those of a link, at the place of the first choice of an import that is not there, or
 * that has one. */
HuxVerdict hux_link_by(
    const uint8_t *bytes,
    size_t bytes_length,
    const HuxSpan *files,
    size_t files_length,
    const HuxPlace *places,
    size_t places_length,
    const HuxChoice *choices,
    size_t choices_length,
    uint8_t *text,
    size_t text_length,
    size_t *wanted);

/* Takes a bundle apart, the one file of a linked set: into its files, and how they are linked.
 * With these, `hux_set_new_by` makes the set that the bundle is of, with no places.
 *
 * `bytes` are those of the bundle. Where the answer is HUX_KIND_FINE, `texts` has its files, one
 * behind the other, `files` says which part of `texts` each is, and `choices` has the link of
 * each import, by file and import: of each as much as there is room for, and `seen` says how
 * much there is. Else the answer is the first fault, of the bundle (HUX_KIND_BUNDLE), of a file,
 * as of `hux_link`, or of what the files are given (HUX_KIND_BUNDLE_LINKS), or HUX_KIND_MEMORY,
 * and nothing is written. What an open bundle imports is given by no file. */
HuxVerdict hux_unbundle(
    const uint8_t *bytes,
    size_t bytes_length,
    HuxBundle *seen,
    HuxSpan *files,
    size_t files_length,
    uint8_t *texts,
    size_t texts_length,
    HuxChoice *choices,
    size_t choices_length);

/* Tells how a type lies in memory, and in core values (CanonicalABI.md, "Alignment", "Element
 * Size" and "Flattening").
 *
 * `component` are the bytes of a component file, `func` the index of a function of it, from 0,
 * and `way` 0 for the tuple of its parameters or 1 for its result. `path` leads from there to
 * the type: a number of a part, from 0, one of a part of that, and so on; empty it leads to the
 * whole.
 *
 * Where the answer is HUX_KIND_FINE, `node` has the type; else `node` stays. HUX_KIND_NO_PART
 * comes where the function has no result, and where the path leads to no type. */
HuxVerdict hux_layout(
    const uint8_t *component,
    size_t component_length,
    uint32_t func,
    uint32_t way,
    const uint32_t *path,
    size_t path_length,
    HuxNode *node);

/* Tells what an engine needs to instantiate the core modules of a component: its definitions, in
 * order, each a part, and behind an instance what it is given (Binary.md, "Core Instance
 * Definitions", "Alias Definitions" and "Canonical Definitions").
 *
 * `component` are the bytes of a component file. Where the answer is HUX_KIND_FINE, `parts` and
 * `texts` have as much as there is room for, and `seen` says how much there is: the texts are
 * the bytes of core modules and names, those of each part behind those of the parts before. Else
 * the answer is the first fault of the file, as of `hux_check`, or HUX_KIND_MEMORY, and nothing
 * is written. */
HuxVerdict hux_plan(
    const uint8_t *component,
    size_t component_length,
    HuxPlan *seen,
    HuxPlanPart *parts,
    size_t parts_length,
    uint8_t *texts,
    size_t texts_length);

/* Runs a command of `hux` in process, over files that are handed over, as `hux_tool` does one of
 * `component_tool`. The file of the name `-` is standard input.
 *
 * No file is written: where a command is to write one, as `hux stub -o` and `hux live --record`,
 * it ends with status 4, as where a file cannot be written. */
HuxEnd hux_main(
    const uint8_t *bytes,
    size_t bytes_length,
    const HuxSpan *words,
    size_t words_length,
    const HuxFile *files,
    size_t files_length,
    uint8_t *out,
    size_t out_length,
    uint8_t *err,
    size_t err_length);

/* Links the components of files, each a part of the bytes, and plays a script on them, another
 * part (docs/COMMAND.md, "Scripts").
 *
 * The answer is HUX_KIND_FINE where each drive ended, HUX_KIND_TRAPPED where one trapped, and
 * else HUX_KIND_STOPPED where one could not begin or reached its 1,000,000 moves; `out` has a
 * line for each event. Where nothing is played, the answer is the first fault: of a part, a file
 * or a link, or HUX_KIND_UNPLAYED, where the script is refused or the machine makes no set.
 * `err` has a line of what went wrong. As many bytes as there is room for are written, and
 * `wanted` says how many there are of each. */
HuxVerdict hux_run(
    const uint8_t *bytes,
    size_t bytes_length,
    const HuxSpan *files,
    size_t files_length,
    const HuxSpan *script,
    uint8_t *out,
    size_t out_length,
    uint8_t *err,
    size_t err_length,
    HuxWanted *wanted);

/* Links the components of files, each a part of the bytes, as `hux_link` does, and has the
 * handle keep a set of them that runs. Each instance has so many pages of zeros, of 65,536
 * bytes: `pages` has one number for each file.
 *
 * The answer is HUX_KIND_FINE; else the handle keeps what it kept. HUX_SET_KIND_FULL comes
 * first, then what `hux_link` says, then HUX_SET_KIND_MISUSE: 5 where there is not one number
 * for each file or one is above 1,024, 6 where there is no memory for the set. */
HuxVerdict hux_set_new(
    const uint8_t *bytes,
    size_t bytes_length,
    const HuxSpan *files,
    size_t files_length,
    const uint32_t *pages,
    size_t pages_length,
    HuxSet *set);

/* Makes a set as `hux_set_new` does, of components that are linked as `hux_link_by` links them.
 *
 * The answer is that of `hux_set_new`, but that what `hux_link_by` says stands for what
 * `hux_link` says: so HUX_KIND_CHOICE comes behind the faults of files, and before those of a
 * link. */
HuxVerdict hux_set_new_by(
    const uint8_t *bytes,
    size_t bytes_length,
    const HuxSpan *files,
    size_t files_length,
    const HuxPlace *places,
    size_t places_length,
    const HuxChoice *choices,
    size_t choices_length,
    const uint32_t *pages,
    size_t pages_length,
    HuxSet *set);

/* Frees the set, where there is one: the handle keeps none from here on. */
void hux_set_free(HuxSet *set);

/* Begins a root call of an instance, from 0, which makes the next move.
 *
 * The answer is HUX_KIND_FINE, and `event` has the event; else handle and event stay as they
 * were: HUX_SET_KIND_EMPTY where no set is kept, HUX_SET_KIND_MISUSE where a call is on the
 * stack (2), else where the instance is closed (3), else where there is none (4). The same holds
 * of each move below, whose HUX_SET_KIND_MISUSE is that no call is on the stack (1). */
HuxVerdict hux_set_begin(HuxSet *set, uint32_t instance, HuxEvent *event);

/* Writes bytes into the memory of the instance that acts, the first one at the address `at`.
 * HUX_KIND_MEMORY comes where there is none for a copy of them. */
HuxVerdict hux_set_write(
    HuxSet *set,
    uint32_t at,
    const uint8_t *bytes,
    size_t bytes_length,
    HuxEvent *event);

/* Asks for so many more pages at the end of the memory of the instance that acts. */
HuxVerdict hux_set_grow(HuxSet *set, uint32_t pages, HuxEvent *event);

/* Calls the core function of the acting instance's component that has this index, from 0.
 *
 * HUX_SET_KIND_NO_KIND comes where a core value has no kind, else HUX_KIND_MEMORY where there is
 * none for a copy of them; these come before HUX_SET_KIND_EMPTY. No core values take no memory. */
HuxVerdict hux_set_call(
    HuxSet *set,
    uint32_t func,
    const HuxCore *args,
    size_t args_length,
    HuxEvent *event);

/* Returns from the function that the instance is in that acts. HUX_SET_KIND_NO_KIND and
 * HUX_KIND_MEMORY come as in `hux_set_call`; and HUX_KIND_MEMORY where there is none for what
 * `hux_set_written` is to tell. */
HuxVerdict hux_set_return(
    HuxSet *set,
    const HuxCore *values,
    size_t values_length,
    HuxEvent *event);

/* Stops the instance that acts: that is a trap. */
HuxVerdict hux_set_unreachable(HuxSet *set, HuxEvent *event);

/* Tells what adapters wrote before the latest event, which a host with memories of its own
 * copies by `hux_set_read`: regions of one instance's memory, in the order in which room was
 * made. Beside them a move changes the memory of the instance that moved, by its own `write` or
 * `grow`, and no other (CanonicalABI.md, "Storing").
 *
 * The answer is HUX_KIND_FINE, and `regions` has as many of them as there is room for; `seen`
 * says how many there are, 0 before the first move and behind a `begin`. Else the answer is
 * HUX_SET_KIND_EMPTY, and both stay. The set stays in any case, also in the calls below. */
HuxVerdict hux_set_written(
    HuxSet *set,
    HuxWritten *seen,
    HuxRegion *regions,
    size_t regions_length);

/* Tells how many instances there are, whose move is next, and how much is kept of the topmost
 * call.
 *
 * The answer is HUX_KIND_FINE, and `seen` has it; else HUX_SET_KIND_EMPTY, and `seen` stays. */
HuxVerdict hux_set_state(HuxSet *set, HuxSetState *seen);

/* Tells how many bytes the memory of an instance has, and whether a trap has closed it.
 *
 * The answer is HUX_KIND_FINE; else HUX_SET_KIND_EMPTY or HUX_SET_KIND_NO_INSTANCE, and `seen`
 * stays. */
HuxVerdict hux_set_instance(HuxSet *set, uint32_t number, HuxInstance *seen);

/* Copies bytes of the memory of an instance, from `at` on: as many as there is room for.
 *
 * The answer is HUX_KIND_FINE; else HUX_SET_KIND_EMPTY, HUX_SET_KIND_NO_INSTANCE, or
 * HUX_KIND_OUTSIDE where the memory has no such bytes, and `into` stays. */
HuxVerdict hux_set_read(HuxSet *set, uint32_t number, size_t at, uint8_t *into, size_t into_length);

/* Tells the handle at an index of an instance's table, which is to be of a resource
 * (CanonicalABI.md, "Table State").
 *
 * The answer is HUX_KIND_FINE; else HUX_SET_KIND_EMPTY, HUX_SET_KIND_NO_INSTANCE, or
 * HUX_SET_KIND_NO_HANDLE, by the number of the `HandleFault`: 1 where no handle stands there, 2
 * where it is of another resource; and `seen` stays. */
HuxVerdict hux_set_handle(
    HuxSet *set,
    uint32_t number,
    uint32_t index,
    const HuxResource *resource,
    HuxHandle *seen);

/* Tells the handle at an index of an instance's table, of whatever resource: all handles, where
 * each of the indices that `hux_set_instance` tells of is asked for (CanonicalABI.md, "Table
 * State").
 *
 * The answer is HUX_KIND_FINE; else HUX_SET_KIND_EMPTY, HUX_SET_KIND_NO_INSTANCE, or
 * HUX_SET_KIND_NO_HANDLE, with the reason 1, where no handle stands there; and `seen` stays. */
HuxVerdict hux_set_handle_at(HuxSet *set, uint32_t number, uint32_t index, HuxHandle *seen);

/* Runs a command of `component_tool` in process, over files that are handed over: its words,
 * those behind the program's name, are parts of the bytes, and so are the names of the files and
 * what stands in them (docs/COMMAND.md). No other file is there, and none is written.
 *
 * As many bytes of what is printed on standard output and standard error as there is room for
 * are written into `out` and `err`, and the answer says how many there are of each. */
HuxEnd hux_tool(
    const uint8_t *bytes,
    size_t bytes_length,
    const HuxSpan *words,
    size_t words_length,
    const HuxFile *files,
    size_t files_length,
    uint8_t *out,
    size_t out_length,
    uint8_t *err,
    size_t err_length);

#ifdef __cplusplus
}
#endif

#endif
