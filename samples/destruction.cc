// Objects go in the reverse order of their construction, also where an exception leaves their scope; of an object whose
// constructor throws, the members that were built.
struct Noisy {
    int number;
    Noisy(int n) : number(n) { }
    ~Noisy() { putchar('0' + number); }
};

struct Half {
    Noisy first;
    Noisy second;
    Half() : first(4), second(5) { throw 'x'; }
};

int main() {
    Noisy one(1);
    try {
        Noisy two(2);
        Noisy three(3);
        Half half;
    } catch (char c) {
        putchar(c);
    }
    return 0;
}
