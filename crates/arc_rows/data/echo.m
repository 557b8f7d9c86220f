int main(void) {
    int c = getchar();
    while (c != -1) {
        printf("%c", c);
        c = getchar();
    }
}
