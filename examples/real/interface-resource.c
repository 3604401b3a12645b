#include "realloc.h"
#define EXPORT(name) __attribute__((export_name("example:files/store#" name)))
#define FROM(name) __attribute__((import_module("[export]example:files/store"), import_name(name)))
FROM("[resource-new]file") extern u32 new_file(u32 rep);
FROM("[resource-rep]file") extern u32 rep_of(u32 index);
FROM("[resource-drop]file") extern void drop_file(u32 index);
EXPORT("[constructor]file") u32 make(u8 *name, u32 size) { return new_file(size); }
EXPORT("[method]file.size") u32 size(u32 rep) { return rep; }
EXPORT("[static]file.join") u32 join(u32 a, u32 b) {
    u32 both = rep_of(a) + rep_of(b);
    drop_file(a);
    drop_file(b);
    return new_file(both);
}
EXPORT("total") u32 total(u32 rep) { return rep; }
EXPORT("[dtor]file") void dtor(u32 rep) {}
