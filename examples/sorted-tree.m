// A sorted tree of numbers, as a value: adding a number makes a tree that shares all parts of the old one
// but those on the way to the number. Each part ends as soon as no tree has it any more.
@interface Tree : NSObject {
  Tree *left;
  Tree *right;
  int value;
}
+ (instancetype)newWith:(int)value;
- (instancetype)initWith:(int)number left:(Tree *)smaller right:(Tree *)larger;
- (Tree *)copyAdding:(int)number;
- (Tree *)copyOf:(Tree *)tree adding:(int)number;
- (void)print;
@end

@implementation Tree
+ (instancetype)newWith:(int)value {
  return [[self alloc] initWith:value left:nil right:nil];
}

- (instancetype)initWith:(int)number left:(Tree *)smaller right:(Tree *)larger {
  self = [super init];
  if (self) {
    value = number;
    left = smaller;
    right = larger;
  }
  return self;
}

- (Tree *)copyOf:(Tree *)tree adding:(int)number {
  return tree ? [tree copyAdding:number] : [Tree newWith:number];
}

- (Tree *)copyAdding:(int)number {
  if (number < value) {
    Tree *smaller = [self copyOf:left adding:number];
    return [[Tree alloc] initWith:value left:smaller right:right];
  }
  Tree *larger = [self copyOf:right adding:number];
  return [[Tree alloc] initWith:value left:left right:larger];
}

- (void)print {
  [left print];
  printf(" %d", value);
  [right print];
}

- (void)dealloc { printf("(%d)", value); }
@end

int main(void) {
  Tree *tree = [Tree newWith:50];
  for (int i = 1; i <= 4; i++) {
    printf("+%d: ", i * 37 % 100);
    tree = [tree copyAdding:i * 37 % 100];
    printf("\n");
  }
  Tree *old = tree;
  printf("+90: ");
  tree = [tree copyAdding:90];
  printf("\nold:");
  [old print];
  printf("\nnew:");
  [tree print];
  printf("\ndrop the old: ");
  old = nil;
  printf("\ndrop the new: ");
  tree = nil;
  printf("\n");
}
