@interface A : NSObject
@end

@implementation A
- (void)dealloc {
    printf("d");
    [A new];
}
@end

int main(void) {
    [A new];
}
