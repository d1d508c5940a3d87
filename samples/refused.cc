// A name that nothing declares: the refusal has its place, and "txcc explain UnknownName" says what the rule is.
int main() {
    x = 1;
    return 0;
}
