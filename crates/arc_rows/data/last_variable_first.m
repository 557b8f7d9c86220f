@interface A : NSObject {
@public
    int _v;
}
- (int)v;
@end

@implementation A
- (int)v {
    return _v;
}
- (void)dealloc {
    printf("d%d", _v);
}
@end

int main(void) {
    A *a = [A new];
    a = a;
    printf("x");
    A *b = [A new];
}
