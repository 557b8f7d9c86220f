@interface P : NSObject
+ (int)f:(int)n;
@end

@implementation P
+ (int)f:(int)n {
    if (n) {
        return [self f:n - 1];
    }
    return 0;
}
@end

int main(void) {
    printf("%d", [P f:1999]);
}
