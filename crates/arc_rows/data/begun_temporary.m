#import <Foundation/Foundation.h>
@interface N : NSObject { @public int _v; N *_next; }
- (id)initWith:(int)v;
- (int)v;
@end
@implementation N
- (id)initWith:(int)v { self = [super init]; if (self) _v = v; return self; }
- (int)v { return _v; }
- (void)dealloc { printf("d%d", _v); }
@end
@interface E : NSObject
@end
@implementation E
@end
int main(void) { printf("%d\n", [[[N alloc] initWith:3] v]); printf("x"); }
