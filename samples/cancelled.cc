// A cancelled block leaves all as it found it, its local variables too; the exception carries a number out.
int total = 1;
int parts[2] = {2, 3};

int main() {
    int local = 4;
    try {
        atomic_cancel {
            total = 7;
            parts[1] = 8;
            local = 9;
            throw std::tx_exception<int>(5);
        }
    } catch (const std::tx_exception<int>& e) {
        putchar('0' + total);
        putchar('0' + parts[1]);
        putchar('0' + local);
        putchar('0' + e.get());
    }
    return 0;
}
