__attribute__((export_name("run"))) int run(int x, int y) { return x + y; }
