// Counts the primes below `most` by trial division.
int most = 100;
int count;

BOOL is_prime(int n) {
    for (int d = 2; d * d <= n; d++)
        if (n % d == 0) return NO;
    return n > 1;
}

int main(void) {
    for (int n = 0; n < most; n++) {
        if (!is_prime(n)) continue;
        if (count++) printf(" ");
        printf("%d", n);
    }
    printf("\n%d\n", count);
}
