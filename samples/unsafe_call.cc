// Output can't be taken back, so an atomic block may not write: "txcc explain CallsUnsafe" says more.
int main() {
    atomic_noexcept {
        putchar('a');
    }
    return 0;
}
