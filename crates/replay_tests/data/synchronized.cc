// Synchronized blocks may write; each runs alone, also beside atomic blocks, so every "a" is followed by its "b".
long x;

void writes(long) {
    for (int i = 0; i < 3; ++i) synchronized {
        putchar('a');
        x = x + 1;
        putchar('b');
    }
}

void adds(long) {
    for (int i = 0; i < 3; ++i) atomic_noexcept {
        x = x + 1;
    }
}

int main() {
    int a = __txcc_spawn(writes, 0);
    int b = __txcc_spawn(adds, 0);
    int c = __txcc_spawn(writes, 0);
    __txcc_join(a);
    __txcc_join(b);
    __txcc_join(c);
    putchar('0' + x);
    return 0;
}
