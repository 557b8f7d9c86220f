// A stack of numbers as a linked list. An object ends as soon as nothing holds it: the stack's node when it
// is popped, and all others when the stack itself is dropped, from the top down.
@interface Node : NSObject {
  @public int value;
  Node *next;
}
@end
@implementation Node
- (void)dealloc { printf("drop %d\n", value); }
@end

@interface Stack : NSObject {
  Node *top;
  int count;
}
- (void)push:(int)value;
- (int)pop;
- (int)count;
@end
@implementation Stack
- (void)push:(int)value {
  Node *node = [Node new];
  node->value = value;
  node->next = top;
  top = node;
  count++;
}
- (int)pop {
  int value = top->value;
  top = top->next;
  count--;
  return value;
}
- (int)count { return count; }
@end

int main(void) {
  Stack *stack = [Stack new];
  for (int i = 1; i <= 5; i++) [stack push:i * i];
  printf("pop %d\n", [stack pop]);
  printf("pop %d\n", [stack pop]);
  printf("%d left\n", [stack count]);
  stack = nil;
  printf("end\n");
}
