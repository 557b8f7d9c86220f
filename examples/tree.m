// A search tree of words' lengths: nodes hold their children, so that the tree is dropped with its root.
@interface Tree : NSObject {
  Tree *left, *right;
  int key, times;
}
- (void)begin:(int)first;
- (void)add:(int)other;
- (void)show;
- (int)depth;
@end
@implementation Tree
- (void)begin:(int)first { key = first; times = 1; }
- (void)add:(int)other {
  if (other == key) { times++; return; }
  if (other < key) {
    if (left) [left add:other];
    else { left = [Tree new]; [left begin:other]; }
  } else {
    if (right) [right add:other];
    else { right = [Tree new]; [right begin:other]; }
  }
}
- (void)show {
  [left show];
  printf("%d: %d\n", key, times);
  [right show];
}
- (int)depth {
  int a = [left depth], b = [right depth];
  return (a > b ? a : b) + 1;
}
- (void)dealloc { printf("-%d\n", key); }
@end

Tree *root;

void add(int key) {
  if (root) { [root add:key]; return; }
  root = [Tree new];
  [root begin:key];
}

int main(void) {
  int length = 0;
  for (int c = getchar(); c != -1; c = getchar()) {
    if (c == ' ' || c == '\n') {
      if (length) add(length);
      length = 0;
    } else length++;
  }
  if (length) add(length);
  [root show];
  printf("depth %d\n", [root depth]);
  root = nil;
  printf("end\n");
}
