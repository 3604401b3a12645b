__attribute__((export_name("inc"))) unsigned inc(unsigned x) { return x + 1; }
