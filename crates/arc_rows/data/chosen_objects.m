@interface A : NSObject {
@public
    int _v;
}
- (int)v;
@end

@interface B : A
- (int)w;
- (int)own;
@end

@implementation A
- (int)v {
    return _v;
}
- (void)dealloc {
    printf("d%d", _v);
}
@end

@implementation B
- (int)w {
    return _v + 10;
}
- (int)own {
    return (_v == 2 ? self : nil)->_v;
}
@end

int main(void) {
    A *a = [A new];
    B *b = [B new];
    a->_v = 1;
    b->_v = 2;
    printf("%d%d", [(1 ? a : b) v], [(0 ? a : b) v]);
    printf(",%d", [(0 ? a : b) w]);
    printf(",%d", (0 ? nil : a)->_v);
    printf(",%d", (1 ? b : b)->_v);
    A *c = a ? b : nil;
    printf(",%d", c->_v);
    printf(",%d", [(a == c ? a : nil) v]);
    printf(",%d", [b own]);
}
