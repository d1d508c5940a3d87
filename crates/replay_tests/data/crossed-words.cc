// Two blocks take two words in opposite order, so that each comes to wait for the other: one of them is rolled back and tried again.
// Under the policy "older" the younger one gives up; see the turn line for how often.
long a;
long b;

void first(long) {
    atomic_noexcept {
        a = a + 1;
        for (int i = 0; i < 100; ++i) { }
        b = b + 1;
    }
}

void second(long) {
    atomic_noexcept {
        b = b + 1;
        for (int i = 0; i < 100; ++i) { }
        a = a + 1;
    }
}

int main() {
    int s = __txcc_spawn(first, 0);
    int t = __txcc_spawn(second, 0);
    __txcc_join(s);
    __txcc_join(t);
    putchar('0' + a + b);
    return 0;
}
