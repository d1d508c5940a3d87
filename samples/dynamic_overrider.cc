// A transaction_safe_dynamic function may have unsafe overriders: calling one in a block is found when it is called.
struct Shape {
    virtual void draw() transaction_safe_dynamic { }
};

struct Loud : Shape {
    void draw() { putchar('!'); }
};

void show(Shape& shape) transaction_safe {
    shape.draw();
}

int main() {
    Loud loud;
    show(loud);
    atomic_noexcept {
        show(loud);
    }
    return 0;
}
