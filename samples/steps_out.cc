// The bound on turns is smaller than the program needs: steps_out.args asks for six.
int x;

int main() {
    putchar('1');
    x = x + 1;
    putchar('2');
    return 0;
}
