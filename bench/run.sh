#!/usr/bin/env bash
# Times `arcc run` on a loop of calls, on recursion, on a loop of messages to an object, on a loop that
# makes objects and drops them, on one that makes them by `alloc` and an init method, on linked lists that are made and
# dropped, on primes by trial division, and on a loop of 64-bit arithmetic with all operators, next to Lua 5.4 and
# Python 3 where these are installed, and `arcc check` on sources of 1 KiB, 32 KiB and 1 MiB. Prints seconds (the least
# of five runs) and ratios. It isn't part of the gate.
set -eu
top=$(cd "$(dirname "${BASH_SOURCE[0]}")/.." && pwd)
arcc=$top/crates/arcc/out/arcc
work=$(mktemp -d)
trap 'rm -rf "$work"' EXIT
"$top/arcc" --help >/dev/null 2>&1 # builds it where it has to

# least SECONDS of five runs of a command
least() {
  local best= from to took
  for _ in 1 2 3 4 5; do
    from=$(date +%s%N)
    "$@" >/dev/null 2>&1
    to=$(date +%s%N)
    took=$((to - from))
    if [ -z "$best" ] || [ "$took" -lt "$best" ]; then best=$took; fi
  done
  awk -v n="$best" 'BEGIN { printf "%.4f", n / 1e9 }'
}

ratio() { awk -v a="$1" -v b="$2" 'BEGIN { printf "%.2f", a / b }'; }

cat >"$work/calls.m" <<'END'
int add(int a, int b) { return a + b; }
int main(void) {
  int i = 0;
  int sum = 0;
  while (i != 10000000) { sum = add(sum, i); i = i + 1; }
  printf("%d\n", sum);
}
END
cat >"$work/calls.lua" <<'END'
local function add(a, b) return (a + b) & 0xffffffff end
local i, sum = 0, 0
while i ~= 10000000 do sum = add(sum, i); i = i + 1 end
print(sum)
END
cat >"$work/calls.py" <<'END'
def add(a, b):
    return (a + b) & 0xffffffff
def main():
    i = 0
    total = 0
    while i != 10000000:
        total = add(total, i)
        i = i + 1
    print(total)
main()
END
cat >"$work/fib.m" <<'END'
int fib(int n) { if (n != 0) if (n != 1) return fib(n - 1) + fib(n - 2); return n; }
int main(void) { printf("%d\n", fib(32)); }
END
cat >"$work/fib.lua" <<'END'
local function fib(n) if n ~= 0 then if n ~= 1 then return fib(n - 1) + fib(n - 2) end end return n end
print(fib(32))
END
cat >"$work/fib.py" <<'END'
def fib(n):
    if n != 0:
        if n != 1:
            return fib(n - 1) + fib(n - 2)
    return n
print(fib(32))
END
cat >"$work/sends.m" <<'END'
@interface Adder : NSObject { int _sum; }
- (int)add:(int)n;
@end
@implementation Adder
- (int)add:(int)n { _sum = _sum + n; return _sum; }
@end
int main(void) {
  Adder *a = [Adder new];
  int i = 0;
  while (i != 5000000) { [a add:i]; i = i + 1; }
  printf("%d\n", [a add:0]);
}
END
cat >"$work/sends.lua" <<'END'
local Adder = {}
Adder.__index = Adder
function Adder:add(n) self.sum = (self.sum + n) & 0xffffffff; return self.sum end
local a = setmetatable({ sum = 0 }, Adder)
local i = 0
while i ~= 5000000 do a:add(i); i = i + 1 end
print(a:add(0))
END
cat >"$work/sends.py" <<'END'
class Adder:
    def __init__(self):
        self.sum = 0
    def add(self, n):
        self.sum = (self.sum + n) & 0xffffffff
        return self.sum
def main():
    a = Adder()
    i = 0
    while i != 5000000:
        a.add(i)
        i = i + 1
    print(a.add(0))
main()
END
cat >"$work/objects.m" <<'END'
@interface Leaf : NSObject { @public int _v; }
@end
@implementation Leaf
@end
int main(void) {
  int i = 0;
  int sum = 0;
  while (i != 2000000) { Leaf *l = [Leaf new]; l->_v = i; sum = sum + l->_v; i = i + 1; }
  printf("%d\n", sum);
}
END
cat >"$work/objects.lua" <<'END'
local Leaf = {}
Leaf.__index = Leaf
local i, sum = 0, 0
while i ~= 2000000 do
  local l = setmetatable({ v = 0 }, Leaf)
  l.v = i
  sum = (sum + l.v) & 0xffffffff
  i = i + 1
end
print(sum)
END
cat >"$work/objects.py" <<'END'
class Leaf:
    __slots__ = ("v",)
def main():
    i = 0
    total = 0
    while i != 2000000:
        leaf = Leaf()
        leaf.v = i
        total = (total + leaf.v) & 0xffffffff
        i = i + 1
    print(total)
main()
END

cat >"$work/inits.m" <<'END'
@interface Point : NSObject { int _x; int _y; }
- (instancetype)initWithX:(int)x y:(int)y;
- (int)sum;
@end
@implementation Point
- (instancetype)initWithX:(int)x y:(int)y {
  self = [super init];
  if (self) { _x = x; _y = y; }
  return self;
}
- (int)sum { return _x + _y; }
@end
int main(void) {
  int sum = 0;
  for (int i = 0; i < 2000000; i++) {
    Point *point = [[Point alloc] initWithX:i y:1];
    sum += [point sum];
  }
  printf("%d\n", sum);
}
END
cat >"$work/inits.lua" <<'END'
local Point = {}
Point.__index = Point
function Point.new(x, y)
  local self = setmetatable({ x = 0, y = 0 }, Point)
  if self then self.x = x; self.y = y end
  return self
end
function Point:sum() return self.x + self.y end
local sum = 0
for i = 0, 1999999 do
  local point = Point.new(i, 1)
  sum = (sum + point:sum()) & 0xffffffff
end
print(sum)
END
cat >"$work/inits.py" <<'END'
class Point:
    __slots__ = ("x", "y")
    def __init__(self, x, y):
        self.x = x
        self.y = y
    def sum(self):
        return self.x + self.y
def main():
    total = 0
    for i in range(2000000):
        point = Point(i, 1)
        total = (total + point.sum()) & 0xffffffff
    print(total)
main()
END

cat >"$work/lists.m" <<'END'
@interface Node : NSObject { @public Node *next; int value; }
@end
@implementation Node
@end
int main(void) {
  int sum = 0;
  for (int list = 0; list < 8000; list++) {
    Node *head = nil;
    for (int i = 0; i < 1000; i++) {
      Node *node = [Node new];
      node->value = i;
      node->next = head;
      head = node;
    }
    sum += head->value;
  }
  printf("%d\n", sum);
}
END
cat >"$work/lists.lua" <<'END'
local Node = {}
Node.__index = Node
local sum = 0
for list = 1, 8000 do
  local head = nil
  for i = 0, 999 do
    local node = setmetatable({ next = nil, value = 0 }, Node)
    node.value = i
    node.next = head
    head = node
  end
  sum = (sum + head.value) & 0xffffffff
end
print(sum)
END
cat >"$work/lists.py" <<'END'
class Node:
    __slots__ = ("next", "value")
def main():
    total = 0
    for _ in range(8000):
        head = None
        for i in range(1000):
            node = Node()
            node.value = i
            node.next = head
            head = node
        total = (total + head.value) & 0xffffffff
    print(total)
main()
END
cat >"$work/primes.m" <<'END'
int most = 200000;
int count;
int main(void) {
  for (int n = 2; n < most; n++) {
    BOOL prime = YES;
    for (int d = 2; prime && d * d <= n; d++) prime = n % d != 0;
    if (prime) count++;
  }
  printf("%d\n", count);
}
END
cat >"$work/primes.lua" <<'END'
most = 200000
count = 0
for n = 2, most - 1 do
  local prime = true
  local d = 2
  while prime and d * d <= n do prime = n % d ~= 0; d = d + 1 end
  if prime then count = count + 1 end
end
print(count)
END
cat >"$work/primes.py" <<'END'
most = 200000
count = 0
def main():
    global count
    for n in range(2, most):
        prime = True
        d = 2
        while prime and d * d <= n:
            prime = n % d != 0
            d += 1
        if prime:
            count += 1
    print(count)
main()
END
cat >"$work/longs.m" <<'END'
int main(void) {
  long a = 1, b = 3, sum = 0;
  for (long i = 1; i <= 1000000; i++) {
    a = (a * 1103515245 + 12345) & 2147483647;
    b = ((a >> 3) ^ (b << 2)) & 1073741823;
    sum += (a & 65535) | (b % 1000);
    sum -= b / i;
    if (a < b || b == i) sum = ~sum;
    if (b >= 5000 && !(a != b)) sum -= -b;
    if (a > b && b <= i) sum--;
  }
  printf("%ld\n", sum);
}
END
cat >"$work/longs.lua" <<'END'
local a, b, sum = 1, 3, 0
for i = 1, 1000000 do
  a = (a * 1103515245 + 12345) & 2147483647
  b = ((a >> 3) ~ (b << 2)) & 1073741823
  sum = sum + ((a & 65535) | (b % 1000))
  sum = sum - b // i
  if a < b or b == i then sum = ~sum end
  if b >= 5000 and not (a ~= b) then sum = sum - -b end
  if a > b and b <= i then sum = sum - 1 end
end
print(sum)
END
cat >"$work/longs.py" <<'END'
def main():
    a, b, total = 1, 3, 0
    for i in range(1, 1000001):
        a = (a * 1103515245 + 12345) & 2147483647
        b = ((a >> 3) ^ (b << 2)) & 1073741823
        total += (a & 65535) | (b % 1000)
        total -= b // i
        if a < b or b == i:
            total = ~total
        if b >= 5000 and not (a != b):
            total -= -b
        if a > b and b <= i:
            total -= 1
    print(total)
main()
END

echo "machine: $(uname -m), $(nproc) processors, $(awk -F': ' '/model name/ { print $2; exit }' /proc/cpuinfo)"
for name in calls fib sends objects inits lists primes longs; do
  ours=$(least "$arcc" run "$work/$name.m" --steps 9000000000)
  line="$name: arcc $ours s"
  if command -v lua5.4 >/dev/null; then
    theirs=$(least lua5.4 "$work/$name.lua")
    line="$line, Lua 5.4 $theirs s (arcc takes $(ratio "$ours" "$theirs") of it)"
  fi
  if command -v python3 >/dev/null; then
    theirs=$(least python3 "$work/$name.py")
    line="$line, Python 3 $theirs s (arcc takes $(ratio "$ours" "$theirs") of it)"
  fi
  echo "$line"
done

# a source of about so many bytes: functions that call the one before them
functions_of() {
  awk -v most="$1" 'BEGIN {
    text = "int f0(int a) { return a; }\n"
    size = length(text); printf "%s", text
    for (n = 1; ; n++) {
      text = "int f" n "(int a) { int b = f" (n - 1) "(a) + 1; while (b != 0) { b = b - 1; if (b != 7) printf(\"%d\", b * 2); } return b; }\n"
      if (size + length(text) + 40 > most) break
      size += length(text); printf "%s", text
    }
    text = "int main(void) { return f" (n - 1) "(1); }\n"
    printf "%s", text
  }'
}

# the same of classes, each of which comes from the class of half its number and sends messages to itself
classes_of() {
  awk -v most="$1" 'BEGIN {
    size = 0
    for (n = 0; ; n++) {
      above = n == 0 ? "NSObject" : "C" int((n - 1) / 2)
      text = "@interface C" n " : " above "\n+ (int)m" n ":(int)a;\n+ (void)p;\n@end\n"
      text = text "@implementation C" n "\n+ (int)m" n ":(int)a { return a + " n "; }\n+ (void)p { printf(\"%d\", [self m" n ":1]); }\n@end\n"
      if (n > 0 && size + length(text) + 40 > most) break
      size += length(text); printf "%s", text
    }
    printf "int main(void) { [C0 p]; }\n"
  }'
}

for kind in functions classes; do
  for size in 1024 32768 1048576; do
    "${kind}_of" "$size" >"$work/source.m"
    bytes=$(wc -c <"$work/source.m")
    took=$(least "$arcc" check "$work/source.m")
    awk -v kind="$kind" -v t="$took" -v n="$bytes" 'BEGIN { printf "check of %s: %d bytes in %s s, %.0f ns a byte\n", kind, n, t, t * 1e9 / n }'
  done
done
