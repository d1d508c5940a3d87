// Moves three from one account to another in one indivisible step, and prints both.
int savings;
int wallet;

int main() {
    savings = 9;
    wallet = 1;
    atomic_noexcept {
        savings = savings - 3;
        wallet = wallet + 3;
    }
    putchar('0' + savings);
    putchar(' ');
    putchar('0' + wallet);
    putchar('\n');
    return 0;
}
