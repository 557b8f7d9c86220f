@interface A : NSObject {
@public
    int _v;
}
- (int)v;
@end

@implementation A
- (int)v {
    return _v;
}
- (void)dealloc {
    printf("d%d", _v);
}
@end

int f(void) {
    A *x = [A new];
    x->_v = 4;
    {
        A *y = x;
        return [y v];
    }
}

int main(void) {
    printf("<%d>", f());
}
