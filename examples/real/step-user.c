__attribute__((import_module("$root"), import_name("inc"))) extern unsigned inc(unsigned x);
__attribute__((export_name("run"))) unsigned run(unsigned x) { return inc(x); }
