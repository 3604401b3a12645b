#define FROM(name) __attribute__((import_module("example:files/files"), import_name(name)))
FROM("[constructor]file") extern void make(unsigned name, unsigned *answer);
FROM("[method]file.size") extern unsigned long long size(unsigned self);
FROM("[resource-drop]file") extern void drop_file(unsigned self);
static unsigned answer[2];
__attribute__((export_name("run"))) unsigned run(void) {
    make(7, answer);
    if (answer[0] != 0) return 0;
    unsigned bytes = (unsigned)size(answer[1]);
    drop_file(answer[1]);
    return bytes;
}
