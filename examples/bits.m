// Looks at the bits of numbers.
int bits_of(int n) {
    int count = 0;
    while (n) {
        n &= n - 1;
        count++;
    }
    return count;
}

int turned_round(int n, int width) {
    int result = 0;
    do {
        result = result << 1 | n & 1;
        n >>= 1;
    } while (--width);
    return result;
}

void hexadecimal(int n) {
    for (int at = 28, shown = 0; at >= 0; at -= 4) {
        int digit = n >> at & 15;
        if (!shown && !digit && at) continue;
        shown = 1;
        printf("%c", digit < 10 ? '0' + digit : 'a' + digit - 10);
    }
}

int main(void) {
    printf("13 has %d bits set, and is %d from right to left\n", bits_of(13), turned_round(13, 8));
    printf("-1 has %d bits set, and is %d from right to left\n", bits_of(-1), turned_round(-1, 32));
    printf("4660 in hexadecimal is ");
    hexadecimal(4660);
    int power = 1;
    while (power <= 1000000007 / 2) power *= 2;
    printf("\nthe greatest power of 2 in 1000000007 is %d\n", power);
}
