@interface A : NSObject {
@public
    int _v;
}
- (int)v;
@end

@implementation A
- (int)v {
    return _v;
}
- (void)dealloc {
    printf("d%d", _v);
}
@end

int main(void) {
    int i = 0;
    while (i != 2) {
        printf("<%d>", [(i ? [A new] : nil) v]);
        i = i + 1;
    }
    [A new] && printf("x");
    0 && [A new];
    1 || [A new];
    printf("%d", 0 || [A new]);
    (1 ? [A new] : [A new]) != (0 ? nil : [A new]);
    printf("y");
}
