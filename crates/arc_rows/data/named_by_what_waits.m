@interface A : NSObject {
@public
    int _v;
}
- (int)v;
@end

@implementation A
- (int)v {
    return _v;
}
- (void)dealloc {
    printf("d%d", _v);
}
@end

@interface B : A
- (void)f;
@end

@implementation B
- (void)f {
    id b = self;
    b = nil;
    printf("f");
}
- (void)dealloc {
    printf("e");
    return;
}
@end

int main(void) {
    B *a = [B new];
    [a f];
    printf("x");
}
