// An int that grows past its range: the run stops at the sum, and the store does not happen.
int x;

int main() {
    x = 2147483647;
    putchar('a');
    x = x + 1;
    putchar('b');
    return 0;
}
