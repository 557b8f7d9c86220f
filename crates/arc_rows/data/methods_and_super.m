@interface P : NSObject
+ (int)a;
+ (int)b;
+ (int)z;
@end

@implementation P
+ (int)a {
    return 1;
}
+ (int)b {
    return [self a] * 10;
}
@end

@interface Q : P
@end

@implementation Q
+ (int)a {
    return [super a] + 1;
}
@end

int main(void) {
    printf("%d %d", [P b], [Q b]);
    [Q z];
}
