@interface C : NSObject
- (int)m0;
- (int)m1;
- (int)m2;
- (int)m3;
- (int)m4;
- (int)m5;
- (int)m6;
- (int)m7;
- (int)m8;
@end

@implementation C
- (int)m0 {
    return 0;
}
- (int)m1 {
    return 1;
}
- (int)m2 {
    return 2;
}
- (int)m3 {
    return 3;
}
- (int)m4 {
    return 4;
}
- (int)m5 {
    return 5;
}
- (int)m6 {
    return 6;
}
- (int)m7 {
    return 7;
}
- (int)m8 {
    return 8;
}
@end

@interface D : C
@end

@implementation D
- (int)m8 {
    return 80;
}
@end

int main(void) {
    C *c = [C new];
    int n = 2;
    while (n) {
        n = n - 1;
        printf("%d", [c m0]);
        printf("%d", [c m1]);
        printf("%d", [c m2]);
        printf("%d", [c m3]);
        printf("%d", [c m4]);
        printf("%d", [c m5]);
        printf("%d", [c m6]);
        printf("%d", [c m7]);
        printf("%d", [c m8]);
    }
    D *d = [D new];
    printf("%d", [d m8]);
}
