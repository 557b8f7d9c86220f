int main(void) {
    printf("before\n");
    return 1 / 0;
}
