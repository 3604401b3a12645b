__attribute__((import_module("$root"), import_name("wait"))) extern unsigned wait(unsigned n);
__attribute__((export_name("run"))) unsigned run(void) { return wait(1); }
