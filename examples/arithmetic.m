int main(void) {
    printf("%d %d %ld\n", 2 + 3 * 4, -7 / 2, 3000000000 * 3);
    printf("%d\n", 2147483647 + 1);
    return 0;
}
