int main(void) { printf("42"); return 7; }
