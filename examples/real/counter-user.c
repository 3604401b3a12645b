typedef unsigned int u32;
#define FROM(name) __attribute__((import_module("example:counters/counter@1.2.0"), import_name(name)))
FROM("[constructor]counter") extern u32 make(u32 start);
FROM("[method]counter.add") extern void add(u32 self, u32 by);
FROM("[method]counter.get") extern u32 get(u32 self);
FROM("[static]counter.merge") extern u32 merge(u32 a, u32 b);
FROM("total") extern u32 total(u32 c);
FROM("[resource-drop]counter") extern void drop_counter(u32 self);
__attribute__((export_name("run"))) u32 run(void) {
    u32 a = make(1);
    add(a, 2);
    u32 c = merge(a, make(4));
    u32 answer = get(c) + total(c);
    drop_counter(c);
    return answer;
}
