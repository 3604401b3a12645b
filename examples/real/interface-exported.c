__attribute__((export_name("example:exported/sums#add"))) unsigned add(unsigned a, unsigned b) {
    return a + b;
}
