@interface X:NSObject
-(void)m;
@end
@implementation X
-(void)m{self=nil;}
@end
int main(void){}