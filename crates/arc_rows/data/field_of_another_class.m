@interface A : NSObject {
@public
    int _v;
}
- (int)v;
@end

@implementation A
- (int)v {
    return _v;
}
- (void)dealloc {
    printf("d%d", _v);
}
@end

@interface B : NSObject {
@public
    int _w;
}
@end

@implementation B
@end

int main(void) {
    B *b = [A new];
    printf("%d", b->_w);
}
