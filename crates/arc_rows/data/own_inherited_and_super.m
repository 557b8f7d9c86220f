@interface P : NSObject
+ (int)number;
+ (int)add:(int)n;
@end

@implementation P
+ (int)number {
    return 10;
}
+ (int)add:(int)n {
    return [self number] + n;
}
@end

@interface Q : P
@end

@implementation Q
+ (int)number {
    return [super number] * 2;
}
@end

int main(void) {
    printf("%d %d %d", [P number], [Q number], [Q add:7]);
}
