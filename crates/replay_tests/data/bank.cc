// Four threads move money between four accounts; a rule that is broken cancels the whole move. The sum stays 400, whatever the schedule.
struct Account { long balance; };

struct Rule {
    virtual bool allows(long balance) const transaction_safe { return balance >= 0; }
};

struct Loose : Rule {
    bool allows(long balance) const transaction_safe { return balance >= -50; }
};

Account accounts[4] = { {100}, {100}, {100}, {100} };
int failed;

void move(const Rule& rule, int from, int to, long amount) transaction_safe {
    accounts[to].balance += amount;
    accounts[from].balance -= amount;
    if (!rule.allows(accounts[from].balance)) throw std::tx_exception<int>(from);
}

void work(long id) {
    Rule strict;
    Loose loose;
    for (int i = 0; i < 20; ++i) {
        try {
            atomic_cancel {
                if (i % 2 == 0) move(strict, (id + i) % 4, (id + 2 * i + 1) % 4, 10 + i);
                else move(loose, (id + i) % 4, (id + 3) % 4, 10 + i);
            }
        } catch (const std::tx_exception<int>& e) {
            atomic_noexcept { failed = failed + 1; }
        }
    }
}

void print(long n) {
    if (n > 9) print(n / 10);
    putchar('0' + n % 10);
}

int main() {
    int threads[4];
    for (int i = 0; i < 4; ++i) threads[i] = __txcc_spawn(work, i);
    for (int i = 0; i < 4; ++i) __txcc_join(threads[i]);
    long sum = 0;
    auto add = [&](int k) { sum += accounts[k].balance; };
    atomic_noexcept { for (int i = 0; i < 4; ++i) add(i); }
    print(sum);
    putchar('\n');
    return 0;
}
