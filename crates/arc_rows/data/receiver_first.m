@interface A : NSObject
- (int)f:(int)n;
@end

@implementation A
- (int)f:(int)n {
    return n;
}
@end

int main(void) {
    A *a = [A new];
    printf("%d", [(a = nil) f:printf("a")]);
}
