int main(void) { return '	'; }
