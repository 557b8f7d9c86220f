@interface A : NSObject {
@public
    int _v;
}
- (int)v;
@end

@implementation A
- (int)v {
    return _v;
}
- (void)dealloc {
    printf("d%d", _v);
}
@end

@interface B : A
@end

@implementation B
- (void)dealloc {
    if (_v != 5) {
        printf("B");
        return;
    }
    printf("5");
    return;
}
@end

int main(void) {
    B *b = [B new];
    b->_v = 6;
    b = [B new];
    b->_v = 5;
    printf("x");
}
