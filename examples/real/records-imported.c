typedef unsigned int u32;
__attribute__((import_module("example:records/points"), import_name("move")))
extern void move(int x, int y, int by, int *answer);
__attribute__((import_module("example:records/points"), import_name("size")))
extern unsigned long long size(int which, int a, int b);
__attribute__((import_module("example:records/points"), import_name("paint")))
extern void paint(int sides, int color);
static int answer[2];
__attribute__((export_name("run"))) int run(int by) {
    move(1, 2, by, answer);
    paint(3, 1);
    return answer[0] + (int)size(2, answer[0], answer[1]);
}
