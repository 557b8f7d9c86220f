// A class whose messages compare and compute with two of its fields.
@interface Range : NSObject {
    int _low;
    int _high;
}
- (void)see:(int)value;
- (int)spread;
- (int)between:(int)value;
- (int)ratio;
@end
@implementation Range
- (void)see:(int)value {
    if (value < _low) _low = value;
    if (value > _high) _high = value;
}
- (int)spread { return _high - _low; }
- (int)between:(int)value { return (value >= _low) + 10 * (value + 1 <= _high); }
- (int)ratio { return _high / _low; }
@end
int main(void) {
    Range *range = [Range new];
    for (int i = 0; i < 10; i++) [range see:i * 7 % 10 - 3];
    printf("%d\n", [range spread]);
    printf("%d\n", [range between:-4]);
    printf("%d\n", [range between:6]);
    printf("%d\n", [range ratio]);
}
