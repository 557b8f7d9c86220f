int main(void) {
    printf("three bytes, please: ");
    printf("%c%c%c\n", getchar(), getchar(), getchar());
}
