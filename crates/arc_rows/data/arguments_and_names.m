@class R, S;

@interface R : NSObject
+ (int)of:(int)a less:(int)b;
+ (void)show:(int)a;
@end

@interface S : R
@end

@implementation S
@end

@implementation R
+ (int)of:(int)a less:(int)b; {
    int c = a - b;
    return c;
}
+ (void)show:(int)a {
    printf("<%d>", [self of:a less:1]);
}
@end

int main(void) {
    [S show:[R of:9 less:4]];
    return [S of:3 less:1];
}
