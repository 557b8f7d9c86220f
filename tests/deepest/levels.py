"""2,000 calls, messages and ends of objects within one another, and one more."""
from running import Ended, Faulted, Shown

MOST_LEVELS = 2000
ROOT = "@interface A : NSObject { @public int _n; } +(int)f:(int)n; -(int)g:(int)n; @end "

# what runs n levels more when it is given n - 1, and how main begins it
FORMS = {
    "functions": ("int f(int n) { if (n) return f(n - 1) + 1; return 7; }", "f(COUNT)"),
    "functions in turn": ("int f(int n); int g(int n) { if (n) return f(n - 1) + 1; return 7; } int f(int n) { if (n) return g(n - 1) + 1; return 7; }", "f(COUNT)"),
    "functions in a test": ("int f(int n) { while (n) { if (f(n - 1)) return n + 7; } return 7; }", "f(COUNT)"),
    "messages to a class": (ROOT + "@implementation A +(int)f:(int)n { if (n) return [self f:n - 1] + 1; return 7; } @end", "[A f:COUNT]"),
    "messages to an object": (ROOT + "@implementation A -(int)g:(int)n { if (n) return [self g:n - 1] + 1; return 7; } @end", "[[A new] g:COUNT]"),
    "messages to new objects": (ROOT + "@implementation A -(int)g:(int)n { if (n) return [[A new] g:n - 1] + 1; return 7; } @end", "[[A new] g:COUNT]"),
    "functions and messages in turn": (
        ROOT + "int f(int n) { if (n) return [A f:n - 1] + 1; return 7; } "
        "@implementation A +(int)f:(int)n { if (n) return [[A new] g:n - 1] + 1; return 7; } "
        "-(int)g:(int)n { if (n) return f(n - 1) + 1; return 7; } @end", "f(COUNT)"),
}


def deep_operands(layers):
    return "int f(int n) { if (n) return " + "1 + (" * layers + "f(n - 1)" + ")" * layers + f" - {layers} + 1; return 7; }}"


def many_variables():
    ints = " ".join(f"int v{n} = n;" for n in range(184))
    parameters = ", ".join(f"int p{n}" for n in range(15))
    arguments = ", ".join("n" for _ in range(15))
    return f"int f(int n, {parameters}) {{ {ints} if (n) return f(n - 1, {arguments}) + v183 - v0 + 1; return 7; }}", f"f(COUNT, {', '.join('1' for _ in range(15))})"


def many_references():
    ids = " ".join(f"id v{n} = o;" for n in range(198))
    return ROOT + f"@implementation A @end int f(int n) {{ A *o = [A new]; {ids} if (n) return f(n - 1) + 1; return 7; }}", "f(COUNT)"


def super_chain(count):
    """So many classes, whose methods of one name each send it to super."""
    known = [f"C{n}" for n in range(count)]
    text = "@interface C0 : NSObject -(int)m; @end @implementation C0 -(int)m { return 7; } @end "
    for upper, lower in zip(known, known[1:]):
        text += f"@interface {lower} : {upper} @end @implementation {lower} -(int)m {{ return [super m] + 1; }} @end "
    return text, f"[[C{count - 1} new] m]"


def run(runner):
    forms = dict(FORMS)
    forms["functions under 200 operands"] = (deep_operands(200), "f(COUNT)")
    forms["functions with 200 variables"] = many_variables()
    forms["functions with 199 references"] = many_references()
    for name, (text, call) in forms.items():
        # main is the first level; the innermost function's object needs one of its own to end in
        most = MOST_LEVELS - 3 if name == "functions with 199 references" else MOST_LEVELS - 2
        for deep in (most, most + 1):
            called = call.replace("COUNT", str(deep))
            source = f'{text} int main(void) {{ printf("%d", {called}); return 3; }}'
            objects = {"messages to an object": 1, "messages to new objects": deep + 1, "functions with 199 references": deep + 1}.get(name, 0)
            if name == "functions and messages in turn":
                objects = (deep + 1) // 3
            if deep == most:
                # what is printed: each level adds 1 but for the loop, which gives its own number
                value = str(deep + 7).encode()
                runner.case(f"2,000 levels: {name}", source.encode(), ended(name, objects, value), Ended(3))
            else:
                runner.case(f"2,001 levels: {name}", source.encode(), Shown(), Faulted(85))
    for count in (MOST_LEVELS - 1, MOST_LEVELS):
        text, call = super_chain(count)
        source = f'{text} int main(void) {{ printf("%d", {call}); }}'.encode()
        if count < MOST_LEVELS:
            runner.case("2,000 levels: messages to super", source, Shown(str(count + 6).encode(), (1, f"C{count - 1}".encode())))
        else:
            runner.case("2,001 levels: messages to super", source, Shown(), Faulted(85))
    end_cases(runner)
    field_cases(runner)
    again = FORMS["functions"][0] + " int main(void) { int i = 300; while (i) { i = i - 1; if (f(1998) != 2005) return 1; } }"
    runner.case("300 times 2,000 levels", again.encode())


def ended(name, objects, value):
    """What is shown where the objects end in the reverse of their order: a temporary's after its message, before or after the
    number is printed by where its full-expression stands."""
    if name == "messages to an object":
        return Shown(value, (1, b"A"))
    if name == "messages to new objects":
        return Shown(*[(n, b"A") for n in range(objects, 1, -1)], value, (1, b"A"))
    return Shown(*[(n, b"A") for n in range(objects, 0, -1)], value)


def end_cases(runner):
    """Ends of objects within one another: each object's end makes the next object and lets it go."""
    head = "@interface A : NSObject { @public int _n; } -(void)more; @end "
    bodies = {
        "a variable": ("-(void)more { } -(void)dealloc { printf(\".\"); if (_n) { A *a = [A new]; a->_n = _n - 1; } }", 1),
        "an assignment": ("-(void)more { } -(void)dealloc { printf(\".\"); if (_n) { A *a = [A new]; a->_n = _n - 1; a = nil; printf(\"\"); } }", 1),
        "a message": ("-(void)more { if (_n) { A *a = [A new]; a->_n = _n - 1; } } -(void)dealloc { printf(\".\"); [self more]; }", 2),
    }
    for name, (body, width) in bodies.items():
        # main is the first level, and each object takes so many
        most = (MOST_LEVELS - 1) // width
        for count in (most, most + 1):
            source = f"{head} @implementation A {body} @end int main(void) {{ A *a = [A new]; a->_n = {count - 1}; a = nil; printf(\"e\"); }}"
            events = [event for n in range(1, most + 1) for event in ((n, b"A"), b".")]
            if count == most:
                runner.case(f"2,000 levels: ends by {name}", source.encode(), Shown(*events, b"e"))
            elif width == 1 or (MOST_LEVELS - 1) % width == 0:
                runner.case(f"2,001 levels: ends by {name}", source.encode(), Shown(*events), Faulted(85))
            else:
                # the last level is that of the end, and its message is one more
                runner.case(f"2,001 levels: ends by {name}", source.encode(), Shown(*events, (count, b"A"), b"."), Faulted(85))
    superclasses = "".join(f"@interface D{n} : {'D%d' % (n - 1) if n else 'NSObject'} @end @implementation D{n} -(void)dealloc {{ printf(\"{n % 10}\"); }} @end " for n in range(3000))
    text = "".join(str(n % 10) for n in range(2999, -1, -1)).encode()
    runner.case("one end through 3,000 deallocs", (superclasses + "int main(void) { [D2999 new]; }").encode(), Shown((1, b"D2999"), text))


# a list of COUNT objects: the last one that is made is its head
LIST = "@interface L : NSObject { @public int v; L *next; } @end @implementation L BODY @end L *kept; int main(void) { L *head = nil; for (int i = 0; i < COUNT; i++) { L *n = [L new]; n->v = i; n->next = head; head = n; } "


def list_of(count, body, rest):
    return (LIST.replace("BODY", body).replace("COUNT", str(count)) + rest + " }").encode()


def field_cases(runner):
    """Ends of objects within one another, each as a field of the one before is destroyed, and lists without nested ends."""
    bodies = {
        "fields": "",
        "fields that the deallocs read": "-(void)dealloc { if (next) v = next->v; }",
        "fields that the deallocs write": "-(void)dealloc { next = nil; }",
    }
    for name, body in bodies.items():
        # main is the first level
        for count in (MOST_LEVELS - 1, MOST_LEVELS):
            source = list_of(count, body, 'head = nil; printf("e");')
            if count < MOST_LEVELS:
                runner.case(f"2,000 levels: ends by {name}", source, Shown(*ends_from(count, 1), b"e"))
            else:
                runner.case(f"2,001 levels: ends by {name}", source, Shown(*ends_from(count, 2)), Faulted(85))
    source = list_of(MOST_LEVELS - 1, "", 'kept = head; head = nil; printf("k"); kept = nil; printf("e");')
    runner.case("2,000 levels: ends from a global variable", source, Shown(b"k", *ends_from(MOST_LEVELS - 1, 1), b"e"))
    for count in (MOST_LEVELS, 100000):
        source = list_of(count, "", 'while (head) head = head->next; printf("e");')
        runner.case(f"a list of {count:,} objects that is taken apart", source, Shown(*ends_from(count, 1), b"e"))
    source = list_of(100000, "-(void)dealloc { v = 0; }", 'kept = head; head = nil; while (kept) { L *n = kept->next; kept->next = nil; kept = n; } printf("e");')
    runner.case("a list of 100,000 objects that is taken apart from a global variable", source, Shown(*ends_from(100000, 1), b"e"))
    fields = " ".join(f"A *f{n};" for n in range(120))
    filled = " ".join(f"a->f{n} = [A new];" for n in range(120))
    source = f'@interface A : NSObject {{ @public {fields} }} @end @implementation A @end int main(void) {{ A *a = [A new]; {filled} a = nil; printf("e"); }}'
    runner.case("an object of 120 fields", source.encode(), Shown((1, b"A"), *[(n, b"A") for n in range(2, 122)], b"e"))


def ends_from(first, last):
    return [(n, b"L") for n in range(first, last - 1, -1)]
