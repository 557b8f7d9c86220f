"""Sources of 1 MiB of each form, and one byte more; long names, texts and numbers."""
import os
import tempfile

from expressions import CLASSES, FUNCTIONS, MOST_TOKENS, NUMBERS
from running import MOST_SOURCE, Ended, Refused, Shown, StepsUsed, filled, names, padded

# the most actions that a program may become
MOST_ACTIONS = 16_777_216

MAIN = b"int main(void) { printf(\"e\"); return 3; }"
END = dict(shown=Shown(b"e"), stop=Ended(3))


def blank_cases(runner):
    for blank, name in ((b" ", "spaces"), (b"\n", "newlines"), (b"\t\r\f\n", "blanks")):
        runner.case(f"1 MiB of {name}", blank * (MOST_SOURCE // len(blank)), stop=Refused(29, 0))
    runner.case("1 MiB with spaces at its end", padded(MAIN), **END)
    runner.case("one byte more: spaces", b" " * (MOST_SOURCE + 1), stop=Refused(6, MOST_SOURCE))
    runner.case("one byte more: a program", MAIN + b" " * (MOST_SOURCE + 1 - len(MAIN)), stop=Refused(6, MOST_SOURCE))
    runner.case("one byte more: bad bytes", b"$" * (MOST_SOURCE + 1), stop=Refused(6, MOST_SOURCE))
    runner.case("64 MiB", b"$" * (64 << 20), stop=Refused(6, MOST_SOURCE))
    runner.case("1 MiB of bad bytes", b"$" * MOST_SOURCE, stop=Refused(1, 0))
    runner.case("a bad byte at the end", MAIN + b" " * (MOST_SOURCE - 1 - len(MAIN)) + b"$", stop=Refused(1, MOST_SOURCE - 1))
    runner.case("an open text at the end", MAIN + b" " * (MOST_SOURCE - 1 - len(MAIN)) + b'"', stop=Refused(3, MOST_SOURCE - 1))
    runner.case("an open text of 1 MiB", b'"' + b"a" * (MOST_SOURCE - 1), stop=Refused(3, 0))
    runner.case("an open text of backslashes", b'"' + b"\\" * (MOST_SOURCE - 1), stop=Refused(3, 0))
    runner.case("a comment of 1 MiB", b"/*" + b"a" * (MOST_SOURCE - 4) + b"*/", stop=Refused(29, 0))
    runner.case("a comment of 1 MiB of stars", b"/*" + b"*" * (MOST_SOURCE - 3) + b"/", stop=Refused(29, 0))
    runner.case("a comment to the end of 1 MiB", b"/" * MOST_SOURCE, stop=Refused(29, 0))
    runner.case("1 MiB of comments", b"/**/" * (MOST_SOURCE // 4), stop=Refused(29, 0))
    runner.case("1 MiB of / and *", b"/*" * (MOST_SOURCE // 2), stop=Refused(2, MOST_SOURCE - 4))
    runner.case("1 MiB of * and /", b"*/" * (MOST_SOURCE // 2), stop=Refused(2, MOST_SOURCE - 3))
    runner.case("an open comment at the end", MAIN + b" " * (MOST_SOURCE - 2 - len(MAIN)) + b"/*", stop=Refused(2, MOST_SOURCE - 2))
    runner.case("1 MiB of skipped lines", b"#import\n" * (MOST_SOURCE // 8), stop=Refused(29, 0))
    runner.case("a skipped line of 1 MiB", b"#import" + b"#" * (MOST_SOURCE - 7), stop=Refused(29, 0))
    runner.case("an open character of 1 MiB", b"'" + b"a" * (MOST_SOURCE - 1), stop=Refused(3, 0))
    runner.case("a character of 1 MiB", b"'" + b"a" * (MOST_SOURCE - 2) + b"'", stop=Refused(4, 0))
    runner.case("1 MiB of hexadecimal digits", b"0x" + b"f" * (MOST_SOURCE - 2), stop=Refused(4, 0))
    runner.case("1 MiB of @", b"@" * MOST_SOURCE, stop=Refused(5, 0))
    runner.case("1 MiB of digits", b"1" * MOST_SOURCE, stop=Refused(4, 0))
    runner.case("a number above the greatest at the end", padded(b"int main(void) { return 9223372036854775808; }"), stop=Refused(4, 24))
    for byte in (b";", b")", b"}", b"]", b"=", b"1 ", b"\"\"", b"@end ", b"->"):
        runner.case(f"1 MiB of {byte.decode()}", byte * (MOST_SOURCE // len(byte)), stop=Refused(11, 0))
    # a class's name begins a variable of the whole program
    runner.case("1 MiB of names", b"x " * (MOST_SOURCE // 2), stop=Refused(11, 2))


def top_cases(runner):
    def case(name, head, part, tail, **expected):
        source, _ = filled(head, part, tail)
        runner.case(f"1 MiB of {name}", source, **expected)

    known = names(300_000)
    case("functions", b"", lambda n: b"int %s_(){}" % known[n], MAIN, **END)
    case("functions with results", b"", lambda n: b"int %s_(int n){return n;}" % known[n], MAIN, **END)
    case("declarations of functions", b"", lambda n: b"int %s_();" % known[n], MAIN, **END)
    case("declarations of one function", b"", b"int f();", MAIN, **END)
    case("declarations of main", b"", b"int main();", MAIN, **END)
    case("global variables", b"", lambda n: b"int %s_;" % known[n], MAIN, **END)
    case("global variables with a value", b"long a", lambda n: b",%s_=-9" % known[n], b";" + MAIN, **END)
    case("names after @class", b"@class a", lambda n: b"," + known[n], b";" + MAIN, **END)
    case("@class", b"", b"@class a;", MAIN, **END)
    case("classes", b"", lambda n: b"@interface %s_:NSObject@end@implementation %s_@end" % (known[n], known[n]), MAIN, **END)
    case("methods that are declared", b"@interface A:NSObject ", lambda n: b"-(int)%s;" % known[n], b"@end@implementation A@end " + MAIN, **END)
    case("one method that is declared", b"@interface A:NSObject ", b"-(int)m;", b"@end@implementation A@end " + MAIN, **END)
    case("methods", b"@interface A:NSObject@end@implementation A ", lambda n: b"-(int)%s{}" % known[n], b"@end " + MAIN, **END)
    case("class methods with an argument", b"@interface A:NSObject@end@implementation A ", lambda n: b"+(void)%s:(int)n{}" % known[n], b"@end " + MAIN, **END)
    case("classes of one method", b"", lambda n: b"@interface %s_:NSObject-(int)m;@end@implementation %s_-(int)m{}@end" % (known[n], known[n]), MAIN, **END)
    case("classes of a field", b"", lambda n: b"@interface %s_:NSObject{int a;}@end@implementation %s_@end" % (known[n], known[n]), MAIN, **END)
    fields = b",".join(b"f%d" % n for n in range(120))
    head = b"@interface R:NSObject{int " + fields + b";}@end@implementation R@end "
    case("classes with 120 fields", head, lambda n: b"@interface %s_:%s@end@implementation %s_@end" % (known[n], b"R" if n == 0 else known[n - 1] + b"_", known[n]), MAIN, **END)
    # refused ones: the first broken rule by its place
    source, _ = filled(b"", b"int f(){}", MAIN)
    runner.case("1 MiB of one function", source, stop=Refused(21, 13))
    source, _ = filled(b"", b"int g;", MAIN)
    runner.case("1 MiB of one global variable", source, stop=Refused(21, 10))
    source, _ = filled(b"int f(){} BOOL g", lambda n: b",%s_" % known[n], b",f;" + MAIN)
    runner.case("1 MiB of global variables, and a function's name", source, stop=Refused(21, len(source.rstrip()) - len(MAIN) - 2))
    one = b"@interface A:NSObject@end "
    source, _ = filled(b"", one, b"@implementation A@end " + MAIN)
    runner.case("1 MiB of one interface", source, stop=Refused(21, len(one) + 11))
    one = b"@implementation A@end "
    source, _ = filled(b"@interface A:NSObject@end ", one, MAIN)
    runner.case("1 MiB of one implementation", source, stop=Refused(21, 26 + len(one) + 16))
    source, _ = filled(b"", lambda n: b"@implementation %s_@end " % known[n], MAIN)
    runner.case("1 MiB of implementations without interface", source, stop=Refused(22, 16))
    source, _ = filled(b"", lambda n: b"@interface %s_:NSObject@end " % known[n], MAIN)
    runner.case("1 MiB of interfaces without implementation", source, stop=Refused(26, 11))
    source, _ = filled(b"@interface A:NSObject@end@implementation A ", b"-(int)m{}", b"@end " + MAIN)
    runner.case("1 MiB of one method", source, stop=Refused(21, 43 + 9))
    source, _ = filled(b"@interface A:NSObject{int a", lambda n: b"," + known[n] + b"_", b";}@end@implementation A@end " + MAIN)
    runner.case("1 MiB of fields", source, stop=Refused(27, 11))
    source, _ = filled(b"@interface A:NSObject{int a", b",a", b";}@end@implementation A@end " + MAIN)
    runner.case("1 MiB of one field", source, stop=Refused(27, 11))
    source, _ = filled(b"int f(int a", lambda n: b",int " + known[n] + b"_", b"){}" + MAIN)
    runner.case("1 MiB of parameters", source, stop=Refused(45, 4))
    source, _ = filled(b"int f(int a", b",int a", b"){}" + MAIN)
    runner.case("1 MiB of one parameter", source, stop=Refused(21, 16))
    source, _ = filled(b"@interface A:NSObject -(int)a:(int)a", lambda n: b" " + known[n] + b":(int)" + known[n] + b"_", b";@end@implementation A@end " + MAIN)
    runner.case("1 MiB of a selector", source, stop=Refused(45, 22))
    source, _ = filled(b"int main(void){}", b"int ", b"")
    runner.case("1 MiB of int", source, stop=Refused(11, 20))
    source, _ = filled(b"", lambda n: b"int %s_(){zork();}" % known[n], MAIN)
    runner.case("1 MiB of functions with unknown names", source, stop=Refused(41, 9))


def chain_of_classes(room):
    """As many classes as fit, each below the one before, the first with methods; and the last one's name."""
    head = b"@interface R:NSObject-(int)m;+(int)m;@end@implementation R-(int)m{return 4;}+(int)m{return 5;}-(void)dealloc{printf(\"d\");}@end "
    known = names(300_000)
    source, count = filled(head, lambda n: b"@interface %s_:%s@end@implementation %s_@end" % (known[n], b"R" if n == 0 else known[n - 1] + b"_", known[n]), b"", room)
    return source.rstrip(), known[count - 1] + b"_", count


def chain_cases(runner):
    room = MOST_SOURCE - 400
    source, last, count = chain_of_classes(room)
    name = f"a chain of {count} classes"
    main = b"int main(void){%s*a=[%s new];printf(\"%%d%%d%%d\",[a m],[%s m],[%s m]);a=nil;return 3;}" % (last, last, last, b"R")
    runner.case(f"{name}: a method of the first", padded(source + main), Shown(b"455", (1, last), b"d"), Ended(3))
    main = b"int main(void){int n=1000;%s*a=[%s new];while(n){n=n-[a m]+3;}return 3;}" % (last, last)
    runner.case(f"{name}: 1,000 messages", padded(source + main), Shown((1, last), b"d"), Ended(3))
    main = b"int main(void){int n=1000;while(n){n=n-1;[%s new];}return 3;}" % last
    runner.case(f"{name}: 1,000 ends", padded(source + main), Shown(*[e for n in range(1, 1001) for e in ((n, last), b"d")]), Ended(3))
    main = b"int main(void){id a=[%s new];[a zork];}" % last
    runner.case(f"{name}: no such method", padded(source + main), stop=Refused(42, len(source) + len(main) - 7))
    source, last, count = chain_of_classes(MOST_SOURCE // 2)
    begin, part = b"int main(void){%s*a=nil;" % last, b"[a m];"
    whole, times = filled(source + begin, part, b"}")
    runner.case(f"a chain of {count} classes: {times} messages to nil", whole)
    part = b"[%s m];" % last
    whole, times = filled(source + b"int main(void){", part, b"}")
    runner.case(f"a chain of {count} classes: {times} messages to the last class", whole)
    known = names(300_000)
    source, count = filled(b"@interface R:NSObject-(int)m;@end@implementation R-(int)m{}@end ", lambda n: b"@interface %s_:%s-(int)%s;@end@implementation %s_-(int)%s{}@end" % (known[n], b"R" if n == 0 else known[n - 1] + b"_", known[n], known[n], known[n]), b"", MOST_SOURCE // 2)
    source, last = source.rstrip(), known[count - 1] + b"_"
    whole, times = filled(source + b"int main(void){%s*a=nil;" % last, b"[a m];", b"}")
    runner.case(f"a chain of {count} classes with a method each: {times} messages to nil", whole)
    whole, times = filled(source + b"int main(void){%s*a=nil;" % last, lambda n: b"[a %s];" % known[n % count], b"}")
    runner.case(f"a chain of {count} classes with a method each: {times} messages of each to nil", whole)
    fields = b"@interface R:NSObject{@public int _f;R*_o;}@end@implementation R@end "
    for chains, name in (1, "a chain"), (2, "two chains that take turns"):
        source, count = filled(fields, lambda n: b"@interface %s_:%s@end@implementation %s_@end" % (known[n], b"R" if n < chains else known[n - chains] + b"_", known[n]), b"", MOST_SOURCE // 2)
        source, last = source.rstrip(), known[count - 1] + b"_"
        for sort, statement in ("fields", b"a->_f=1;"), ("fields that name objects", b"a->_o=nil;"):
            whole, times = filled(source + b"int main(void){%s*a=[%s new];" % (last, last), statement, b"}")
            runner.case(f"{name} of {count} classes: {times} {sort}", whole, Shown((1, last)))
    source, count = filled(b"@interface A:NSObject@end@implementation A ", lambda n: b"+(int)%s{}" % known[n], b"@end ", MOST_SOURCE // 2)
    source = source.rstrip()
    whole, times = filled(source + b" int main(void){", b"[A %s];" % known[count - 1], b"}")
    runner.case(f"{count} methods: {times} messages of the last", whole)
    whole, times = filled(source + b" int main(void){", lambda n: b"[A %s];" % known[n % count], b"}")
    runner.case(f"{count} methods: {times} messages", whole)
    head = b"".join(b"int %s_(){return 1;}" % known[n] for n in range(20_000))
    whole, times = filled(head + b"int main(void){", lambda n: b"%s_();" % known[n % 20_000], b"}")
    runner.case(f"20000 functions: {times} calls", whole)


def body_cases(runner):
    def case(name, part, head=b"", opening=b"int main(void){int a=0;id o=nil;", shown=None):
        source, times = filled(head + opening, part, b'printf("e");return 3;}')
        expected = dict(END)
        if shown:
            expected["shown"] = Shown(shown * times, b"e")
        runner.case(f"one function of {times} statements: {name}", source, **expected)

    case("empty ones", b";")
    case("blocks", b"{}")
    case("numbers", b"0;")
    case("variables", b"a;")
    case("references", b"o;")
    case("assignments", b"a=1;")
    case("assignments of objects", b"o=nil;")
    case("if", b"if(a);")
    case("if with else", b"if(a);else;")
    case("while", b"while(a);")
    case("do", b"do;while(a);")
    case("for", b"for(;a;);")
    case("break", b"for(;;)break;")
    case("continue", b"do continue;while(a);")
    case("calls", b"f();", b"void f(){}")
    case("printf", b'printf("a");', shown=b"a")
    case("printf of nothing", b'printf("");')
    case("printf of numbers", b'printf("%d",1);', shown=b"1")
    case("messages to nil", b"[o m];", b"@interface A:NSObject-(void)m;@end@implementation A-(void)m{}@end ")
    case("messages to a class", b"[A m];", b"@interface A:NSObject+(void)m;@end@implementation A+(void)m{}@end ")
    case("parentheses", b"((((((((((((((((((((a))))))))))))))))))));")
    case("minus", b"- " * 900 + b"a;")
    # all variables of a body are counted, whatever their blocks
    for part in (b"{int b;}", b"{id b;}"):
        head = b"int main(void){"
        source, times = filled(head, part, b"}")
        runner.case(f"one function of {times} statements: {part.decode()}", source, stop=Refused(50, len(head) + 200 * len(part) + part.index(b"b")))
    source, times = filled(b"@interface A:NSObject@end@implementation A@end int main(void){", b"[A new];", b"}")
    runner.case(f"one function of {times} statements: new objects", source, Shown(*[(n, b"A") for n in range(1, times + 1)]))
    source, times = filled(b"int main(void){", b"return 3;", b"}")
    runner.case(f"one function of {times} statements: return", source, stop=Ended(3))
    source, times = filled(b"int main(void){", b"int a;", b"}")
    runner.case(f"one function of {times} statements: one variable", source, stop=Refused(21, 25))
    known = names(300_000)
    source, times = filled(b"int main(void){", lambda n: b"int " + known[n] + b"_;", b"}")
    at = len(b"int main(void){" + b"".join(b"int " + known[n] + b"_;" for n in range(200))) + 4
    runner.case(f"one function of {times} statements: variables", source, stop=Refused(50, at))
    source, times = filled(b"int main(void){", b"zork;", b"}")
    runner.case(f"one function of {times} statements: unknown names", source, stop=Refused(41, 15))
    source, times = filled(b"int main(void){", b"0;", b"zork;}", MOST_SOURCE)
    runner.case("an unknown name at the end", source, stop=Refused(41, source.index(b"zork")))


def expression_cases(runner):
    """1 MiB of full-expressions of 1,000 tokens, of each form."""
    for name, form in NUMBERS.items():
        # the statement's own two tokens
        part = ("a=" + " ".join(form(MOST_TOKENS - 2)[0]) + ";").encode()
        head = CLASSES + b"@implementation B -(int)go { return 0; } @end " + FUNCTIONS + b"int main(void){int a=0;"
        source, times = filled(head, part, b'printf("e");return 3;}')
        runner.case(f"{times} statements of 1,000 tokens: {name}", source, **END)
    objects = {
        "messages in receivers": b"[" * 200 + b"A alloc]" + b" init]" * 199 + b";",
        "messages in receivers in parentheses": b"[(" * 199 + b"[A alloc]" + b") init]" * 199 + b";",
        "casts": b"(id)" * 330 + b"o;",
        "casts of messages": b"[(A*)" * 140 + b"[A alloc]" + b" init]" * 140 + b";",
        "assignments of objects": b"o=" * 200 + b"nil;",
        "messages to self": b"[self m:" * 199 + b"1" + b"]" * 199 + b";",
        "messages to super": b"[super m:" * 199 + b"1" + b"]" * 199 + b";",
        "fields": b"_v=" * 199 + b"1;",
    }
    for name, part in objects.items():
        head = CLASSES + b"@implementation B -(int)go{id o=nil;"
        source, times = filled(head, part, b"return 3;}@end int main(void){B*b=[B new];return [b go];}")
        ends = [(n, b"A") for n in range(2, times + 2)] if b"alloc" in part else []
        runner.case(f"{times} statements of objects: {name}", source, Shown(*ends, (1, b"B")), Ended(3))


def limit_cases(runner):
    """As many variables, parameters and fields as there may be, and one more."""
    for count in (200, 201):
        names = [b"v%d" % n for n in range(count)]
        head = b"int main(void){int " + b"=1,".join(names[:-1]) + b"=2,"
        stop = Ended(3) if count == 200 else Refused(50, len(head))
        runner.case(f"{count} variables", head + names[-1] + b"=3;return %s;}" % names[-1], stop=stop)
        head = b"int main(void){"
        parts = [b"{id %s=nil;" % name for name in names]
        runner.case(f"{count} references in blocks", head + b"}".join(parts) + b"}return 3;}",
                    stop=Ended(3) if count == 200 else Refused(50, len(head + b"}".join(parts[:-1])) + 5))
    for count in (16, 17):
        names = [b"p%d" % n for n in range(count)]
        declared = b",".join(b"int " + name for name in names)
        given = b",".join(b"%d" % n for n in range(count))
        source = b"int f(%s){return %s;} int main(void){return f(%s);}" % (declared, names[-1], given)
        runner.case(f"{count} parameters", source, stop=Ended(15) if count == 16 else Refused(45, 4))
        declared = b" ".join(b"%s:(int)%s" % (name, name) for name in names)
        given = b" ".join(b"%s:%d" % (name, n) for n, name in enumerate(names))
        head = b"@interface A:NSObject "
        source = head + b"+(int)%s;@end@implementation A+(int)%s{return %s;}@end int main(void){return [A %s];}" % (declared, declared, names[-1], given)
        runner.case(f"{count} parameters of a method", source, stop=Ended(15) if count == 16 else Refused(45, len(head)))
    for count in (120, 121):
        names = b",".join(b"f%d" % n for n in range(60))
        more = b",".join(b"f%d" % n for n in range(60, count))
        first = b"@interface A:NSObject{@public int %s;}@end@implementation A@end " % names
        second = b"@interface B:A{@public int %s;}@end@implementation B@end " % more
        source = first + second + b"int main(void){B*b=[B new];b->f0=1;b->f%d=2;return b->f0+b->f%d;}" % (count - 1, count - 1)
        runner.case(f"{count} fields", source, Shown((1, b"B")), Ended(3) if count == 120 else Refused(27, len(first) + 11))


def text_cases(runner):
    head, tail = b'int main(void) { return printf("', b'"); }'
    room = MOST_SOURCE - len(head) - len(tail)
    runner.case(f"a text of {room} bytes", head + b"a" * room + tail, Shown(b"a" * room), Ended(room))
    runner.case("a text of bytes above 127", padded(head + bytes(range(128, 256)) * (room // 128) + tail), Shown(bytes(range(128, 256)) * (room // 128)), Ended(room // 128 * 128))
    runner.case("a text of escapes", padded(head + b"\\0" * (room // 2) + tail), Shown(b"\0" * (room // 2)), Ended(room // 2))
    runner.case("a text of percent signs", padded(head + b"%%" * (room // 2) + tail), Shown(b"%" * (room // 2)), Ended(room // 2))
    runner.case("a text of conversions without values", padded(head + b"%d" * (room // 2) + tail), stop=Refused(46, 24))
    runner.case("a text that no program prints", padded(b'int main(void) { "' + b"a" * (room - 100) + b'"; }'), stop=Refused(43, 17))
    texts = 10
    each = (1_000_000 // texts)
    source = b"int main(void) { " + b"".join(b'printf("%s");' % (b"%d" % n * each) for n in range(texts)) + b" }"
    runner.case("texts of 1,000,000 bytes", source, Shown(b"".join(b"%d" % n * each for n in range(texts))))
    source, times = filled(b"int main(void) { ", lambda n: b'printf("%07d");' % n, b" }")
    runner.case(f"{times} texts", source, Shown(b"".join(b"%07d" % n for n in range(times))))
    # printed over and over: the number of bytes of one call
    source = b'int main(void) { int n = 100; while (n) { n = n - 1; printf("' + b"a" * 100_000 + b'"); } }'
    runner.case("100 times a text of 100,000 bytes", source, Shown(b"a" * 10_000_000))


def name_cases(runner):
    room = MOST_SOURCE
    long = b"f" * (room // 2 - 100)
    runner.case("a function's long name", padded(b"int %s(){return 3;} int main(void){return %s();}" % (long, long)), stop=Ended(3))
    runner.case("an unknown long name", padded(b"int main(void){return %s();}" % (long + b"g" * 500_000)), stop=Refused(41, 22))
    runner.case("a variable's long name", padded(b"int main(void){int %s=3;return %s;}" % (long, long)), stop=Ended(3))
    third = b"C" * (room // 3 - 100)
    runner.case("a class's long name", padded(b"@interface %s:NSObject@end@implementation %s@end int main(void){[%s new];}" % (third, third, third)), Shown((1, third)))
    runner.case("a selector's long name", padded(b"@interface A:NSObject+(int)%s;@end@implementation A+(int)%s{return 3;}@end int main(void){return [A %s];}" % (third, third, third)), stop=Ended(3))
    fourth = b"m" * (room // 4 - 100)
    runner.case("a field's long name", padded(b"@interface A:NSObject{int %s;}-(int)m;@end@implementation A-(int)m{%s=3;return %s;}@end int main(void){return [[A new] m];}" % (fourth, fourth, fourth)), Shown((1, b"A")), Ended(3))
    # A name can begin the declaration of a variable that names objects, so it is the end that is unexpected.
    runner.case("a name at the end", padded(MAIN)[:-1] + b"x", stop=Refused(11, MOST_SOURCE))
    runner.case("a name of 1 MiB", b"x" * MOST_SOURCE, stop=Refused(11, MOST_SOURCE))
    variables = [b"v" * 2000 + b"%03d" % n for n in range(200)]
    head = b"int main(void){int " + b",".join(variables) + b";"
    source, times = filled(head, lambda n: variables[199 - n % 2] + b"=3;", b"return %s;}" % variables[199])
    runner.case(f"200 variables with long names: {times} uses", source, stop=Ended(3))


def steps_cases(runner):
    endless = b"int main(void) { while (1) ; }"
    runner.case("--steps 1", MAIN, Shown(), StepsUsed(), options=("--steps", "1"), commands=("run", "trace"))
    runner.case("--steps 9223372036854775807", MAIN, options=("--steps", "9223372036854775807"), commands=("run", "trace"), **END)
    runner.case("10,000,000 steps of a loop", endless, Shown(), StepsUsed(), options=("--steps", "10000000"), commands=("run", "trace"))
    runner.case("100,000,000 steps of a loop", endless, Shown(), StepsUsed(), options=("--steps", "100000000"), commands=("run",))
    for number in ("0", "9223372036854775808", "-1", "18446744073709551616", ""):
        refused_words(runner, number)
    exact_steps(runner)


def refused_words(runner, number):
    name = f"--steps {number!r}"
    if not runner.is_asked_for(name):
        return
    with tempfile.TemporaryDirectory() as folder:
        status, out, err, seconds, memory = runner.call(folder, ["run", "source.m", "--steps", number])
    wanted = (101, b"", b"arcc: usage: check, run, trace or code, and FILE\n")
    runner.judge(name, [] if (status, out, err) == wanted else [f"{status} {out!r} {err!r}"], seconds, memory)


def exact_steps(runner):
    """A program that makes so many steps ends with that many, and is cut with one less, whether it is run or traced."""
    name = "exactly as many steps as a program makes"
    if not runner.is_asked_for(name):
        return
    source = (b"@interface A:NSObject@end@implementation A -(void)dealloc{printf(\"d\");}@end "
              b"int main(void){int n=9;while(n){n=n-1;[A new];}return 3;}")
    problems = []
    least = {}
    with tempfile.TemporaryDirectory() as folder:
        path = os.path.join(folder, "source.m")
        with open(path, "wb") as file:
            file.write(source)
        for command in ("run", "trace"):
            few, enough = 0, 10_000
            while few + 1 < enough:
                middle = (few + enough) // 2
                status, _, _, seconds, memory = runner.call(folder, [command, path, "--steps", str(middle)])
                if status == 3:
                    enough = middle
                elif status == 105:
                    few = middle
                else:
                    problems.append(f"{command} --steps {middle}: status {status}")
                    break
            least[command] = enough
    if least["run"] != least["trace"]:
        problems.append(f"run ends after {least['run']} steps and trace after {least['trace']}")
    runner.judge(name, problems, seconds, memory)


def device_cases(runner):
    echo = b'int main(void){int c=getchar();while(c!=-1){printf("%c",c);c=getchar();}}'
    given = bytes(range(256)) * 4096
    runner.case("1 MiB of input", echo, Shown(given), given=given)
    if not runner.is_asked_for("a device that is full"):
        return
    with tempfile.TemporaryDirectory() as folder:
        path = os.path.join(folder, "source.m")
        with open(path, "wb") as file:
            file.write(b'int main(void){int n=100000;while(n){n=n-1;printf("aaaaaaaaaaaaaaaa");}}')
        for command in ("check", "code", "run", "trace"):
            status, _, err, seconds, memory = runner.call(folder, [command, path], output="/dev/full")
            wanted = (106, b"arcc: io 92 Write\n")
            problems = [] if (status, err) == wanted else [f"{status} {err!r}"]
            runner.judge(f"a device that is full: {command}", problems, seconds, memory)


def address_cases(runner):
    """What the stacks of a long function ask for doesn't grow with its length."""
    source, _ = filled(b"int main(void){int a;a=0;", b"a=a+1;", b"return 3;}")
    runner.case("1 MiB of statements in 1 GiB of addresses", source, stop=Ended(3), addresses=1 << 30)


def size_cases(runner):
    """Code of as many actions as there may be, and of more."""
    head = b"void f(void){%s}int main(void){" % b"".join(b"int v%d;" % n for n in range(200))
    # A variable begins with 0 by four actions. A function takes its variables and goes back, and gives 0 at its end before. Ten actions are the start's
    # and those of the functions that give nothing. A call puts a 0 for each variable, and its number is dropped.
    calls, rest = divmod(MOST_ACTIONS - (200 * 4 + 200 + 3 + 3 + 10), 200 + 2)
    body = head + b"f();" * calls + b"0;" * (rest // 2)
    runner.case(f"code of {MOST_ACTIONS} actions", body + b"}", commands=("check",))
    runner.case(f"code of {MOST_ACTIONS + 2} actions", body + b"0;}", stop=Refused(71, 0), commands=("check",))


def run(runner):
    blank_cases(runner)
    top_cases(runner)
    chain_cases(runner)
    body_cases(runner)
    size_cases(runner)
    expression_cases(runner)
    limit_cases(runner)
    text_cases(runner)
    name_cases(runner)
    steps_cases(runner)
    device_cases(runner)
    address_cases(runner)
