// One indivisible step on a global, and its value as a digit.
int x;

int main() {
    atomic_noexcept {
        x = x + 1;
    }
    putchar('0' + x);
    return 0;
}
