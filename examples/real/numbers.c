__attribute__((export_name("add"))) unsigned add(unsigned a, unsigned b) { return a + b; }
__attribute__((export_name("half"))) long long half(long long x) { return x / 2; }
