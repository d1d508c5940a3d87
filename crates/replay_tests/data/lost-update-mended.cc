// The same as lost_update.cc with each addition in an atomic block: nothing is lost, whatever the schedule.
int x;

void add(long) {
    atomic_noexcept {
        x = x + 1;
    }
}

int main() {
    int a = __txcc_spawn(add, 0);
    int b = __txcc_spawn(add, 0);
    __txcc_join(a);
    __txcc_join(b);
    putchar('0' + x);
    putchar('\n');
    return 0;
}
