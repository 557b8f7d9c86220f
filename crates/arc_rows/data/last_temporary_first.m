@interface A : NSObject {
@public
    int _v;
}
- (int)v;
@end

@implementation A
- (int)v {
    return _v;
}
- (void)dealloc {
    printf("d%d", _v);
}
@end

int main(void) {
    [A new] != [A new];
    printf("x");
}
