int main(void) { printf("42\n"); return 7; }
