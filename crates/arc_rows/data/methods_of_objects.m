@interface A : NSObject {
@public
    int _v;
}
- (int)v;
@end

@implementation A
- (int)v {
    return _v;
}
- (void)dealloc {
    printf("d%d", _v);
}
@end

@interface B : A
- (int)add:(int)a to:(int)b;
@end

@implementation B
- (int)v {
    return [super v] * 10;
}
- (int)add:(int)a to:(int)b {
    id me = self;
    self->_v = a + b;
    me = nil;
    return [self v];
}
@end

int main(void) {
    B *b = [B new];
    printf("%d,", [b add:3 to:4]);
    printf("%d", [(A *)b v]);
}
