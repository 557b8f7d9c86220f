@interface A : NSObject {
@public
    int _v;
}
- (int)v;
@end

@implementation A
- (int)v {
    return _v;
}
- (void)dealloc {
    printf("d%d", _v);
}
@end

@interface E : NSObject
@end

@implementation E
@end

int main(void) {
    id x = [E new];
    printf("u");
    [x v];
}
