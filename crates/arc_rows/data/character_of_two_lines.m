int main(void) { return '
'; }
