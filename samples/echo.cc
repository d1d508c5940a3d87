// Copies the input to the output; --input names its file.
int main() {
    int c = getchar();
    while (c != -1) {
        putchar(c);
        c = getchar();
    }
    return 3;
}
