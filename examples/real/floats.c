__attribute__((export_name("half"))) double half(double x) { return x / 2; }
