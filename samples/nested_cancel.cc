// The inner block is cancelled and takes its store back; the outer one commits its own.
int x;

int main() {
    atomic_commit {
        x = 1;
        try {
            atomic_cancel {
                x = 2;
                throw std::tx_exception<int>(0);
            }
        } catch (...) {
        }
    }
    putchar('0' + x);
    return 0;
}
