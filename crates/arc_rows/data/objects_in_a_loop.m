@interface E : NSObject
@end

@implementation E
@end

int main(void) {
    int i = 0;
    while (i != 3) {
        E *e = [E new];
        i = i + 1;
    }
    printf("k");
}
