"""Statements nested 200 deep in each form, and one level more."""
from running import Ended, Refused, Shown, filled

MOST_DEPTH = 200

# a statement's text in front of the one in it, and after it
FORMS = {
    "blocks": [("{", "}")],
    "blocks with numbers": [("{ int a = 1; ", " a = 0; }")],
    "blocks with references": [("{ id o; ", " o = nil; }")],
    "if": [("if (1) ", "")],
    "if with else": [("if (1) ", " else printf(\"n\");")],
    "else": [("if (0) printf(\"n\"); else ", "")],
    "else of else": [("if (0) ; else ", "")],
    "while": [("while (i) ", "")],
    "blocks of while": [("while (i) {", "}")],
    "do": [("do ", " while (i);")],
    "blocks of do": [("do {", "} while (i);")],
    "for": [("for (i = 1; i; i = i) ", "")],
    "for without its parts": [("for (;;) {", " break; }")],
    "for with numbers": [("for (int a = i; a; a = i) ", "")],
    "for with references": [("for (id o = nil; i; ) ", "")],
    "loops that go on": [("while (i) {", " continue; }"), ("for (; i; i = i) {", " continue; }"), ("do {", " continue; } while (i);")],
    "loops that are left": [("while (1) {", " break; }"), ("for (;; i = 1) {", " break; }"), ("do {", " break; } while (1);")],
    "blocks of references that are left": [("for (;;) { id o; ", " break; }")],
    "all of them": [("{", "}"), ("if (1) ", " else ;"), ("while (i) ", ""), ("if (0) ; else ", ""), ("{ id o; ", "}"), ("do ", " while (i);"), ("for (; i; ) ", "")],
}


def nested(form, depth):
    """What stands in front of the statement at that depth of a body, what stands after it, and where the first statement at
    that depth begins. The body's statements are at depth 2."""
    before, after = "", ""
    at = 2
    layers = []
    while at < depth:
        layer = form[len(layers) % len(form)]
        width = layer[0].count("{") + (0 if layer[0].startswith("{") else 1)
        if at + width > depth:
            layer, width = ("{", "}"), 1
        layers.append(layer)
        at += width
    for first, last in layers:
        before += first
        after = last + after
    last = layers[-1][0]
    first = len(before) - len(last) + last.index(") ") + 2 if "else" in last else len(before)
    return before, after, first


BODIES = {
    "main": ("int main(void) { int i = 1; ", " }"),
    "a method": ("@interface A : NSObject +(void)m; @end @implementation A +(void)m { int i = 1; ", " } @end int main(void) { [A m]; }"),
    "dealloc": ("@interface A : NSObject @end @implementation A -(void)dealloc { int i = 1; ", " } @end int main(void) { [A new]; }"),
}


def run(runner):
    for body, (head, tail) in BODIES.items():
        events = [(1, b"A")] if body == "dealloc" else []
        for name, form in FORMS.items():
            for depth in (MOST_DEPTH, MOST_DEPTH + 1):
                before, after, first = nested(form, depth)
                # it prints once, and ends the loops
                source = head + before + 'i = printf("x") - 1;' + after + tail
                if depth == MOST_DEPTH:
                    runner.case(f"200 statements within one another: {name}, {body}", source.encode(), Shown(*events, b"x"))
                else:
                    runner.case(f"201 statements within one another: {name}, {body}", source.encode(), stop=Refused(12, len(head) + first))
    for name, form in FORMS.items():
        if any("int " in layer[0] or "id " in layer[0] for layer in form):
            # a body has at most 200 variables
            continue
        before, after, _ = nested(form, MOST_DEPTH)
        part = "i=1;" + before + 'i=printf("x")-1;' + after
        source, times = filled(b"int main(void){int i=1;", part.encode(), b"}")
        runner.case(f"{times} times 200 statements: {name}", source, Shown(b"x" * times))
    head = "int main(void) "
    for depth in (MOST_DEPTH, MOST_DEPTH + 1):
        source = (head + "{" * depth + 'int a = printf("x");' + "}" * depth).encode()
        stop = Ended() if depth == MOST_DEPTH else Refused(12, len(head) + MOST_DEPTH)
        runner.case(f"{depth} blocks round a declaration", source, Shown(b"x"), stop)
    # where in a part of the source a statement begins
    begun = {"{": [0], "if(1)": [0], "while(1)": [0], "{int a;": [0], "while(1){": [0, 8], "if(1){": [0, 5],
             "do ": [0], "do{": [0, 2], "for(;;)": [0], "for(int a;;)": [0], "for(;;){": [0, 7]}
    head = "int main(void){"
    for part, offsets in begun.items():
        whole, place = divmod(MOST_DEPTH - 1, len(offsets))
        source, _ = filled(head.encode(), part.encode(), b"")
        runner.case(f"1 MiB that begins statements: {part}", source, stop=Refused(12, len(head) + whole * len(part) + offsets[place]))
    part = "if(1);else "
    source, _ = filled(head.encode(), part.encode(), b"")
    runner.case(f"1 MiB that begins statements: {part}", source, stop=Refused(12, len(head) + (MOST_DEPTH - 2) * len(part) + 5))
