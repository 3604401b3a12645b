__attribute__((export_name("sha-256"))) unsigned sha(unsigned n) { return n * 2654435761u; }
