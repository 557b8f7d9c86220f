// Adds up the bytes of its input as Adler-32 does, and counts its lines.
long low = 1, high;
int lines;

int main(void) {
    long bytes = 0;
    for (int byte; (byte = getchar()) != -1; bytes++) {
        low = (low + byte) % 65521;
        high = (high + low) % 65521;
        if (byte == '\n') lines++;
    }
    printf("%ld bytes, %d lines, %ld\n", bytes, lines, high << 16 | low);
}
