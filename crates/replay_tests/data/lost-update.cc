// Two threads add one to x with plain accesses. In slots of nine turns both load 0 before either stores, and one update is lost; in
// slots of one turn none is. lost_update_mended.cc puts each addition into a block.
int x;

void add(long) {
    x = x + 1;
}

int main() {
    int a = __txcc_spawn(add, 0);
    int b = __txcc_spawn(add, 0);
    __txcc_join(a);
    __txcc_join(b);
    putchar('0' + x);
    putchar('\n');
    return 0;
}
