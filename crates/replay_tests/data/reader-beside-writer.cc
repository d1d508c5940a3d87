// A plain store beside a block that has read the word waits until the block ends, so the block reads the same value twice.
long x;
long difference = 5;

void reader(long) {
    atomic_noexcept {
        long before = x;
        for (int i = 0; i < 200; ++i) { }
        difference = x - before;
    }
}

void writer(long) {
    for (int i = 0; i < 50; ++i) x = i + 1;
}

int main() {
    int a = __txcc_spawn(reader, 0);
    int b = __txcc_spawn(writer, 0);
    __txcc_join(a);
    __txcc_join(b);
    putchar('0' + difference);
    return 0;
}
