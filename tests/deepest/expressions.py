"""Full-expressions of 1,000 tokens in each form, and of one token more."""
from running import MOST_SOURCE, Ended, Refused, Shown, padded

MOST_TOKENS = 1000

CLASSES = b"""@interface A : NSObject { @public int _v; } +(int)m:(int)n; -(int)m:(int)n; -(int)v; @end
@implementation A +(int)m:(int)n { return n + 1; } -(int)m:(int)n { return n + 1; } -(int)v { return 3; } @end
@interface B : A -(int)go; @end
"""
FUNCTIONS = b"""int f(int n) { return n + 1; }
int wide(int a, int b, int c, int d, int e, int g, int h, int i, int j, int k, int l, int m, int n, int o, int p, int q)
{ return a + b + c + d + e + g + h + i + j + k + l + m + n + o + p + q; }
"""


def number(size):
    """So many tokens that give 1 or -1, and what they give."""
    return ["-"] * (size - 1) + ["1"], 1 if size % 2 else -1


def around(size, before, after, change):
    """The number with as many layers round it as there are tokens for."""
    width = len(before) + len(after)
    layers = (size - 1) // width
    inner, value = number(size - width * layers)
    for _ in range(layers):
        value = change(value)
    return before * layers + inner + after * layers, value


def chain(size, sign, change):
    """Ones with a sign between two; the first takes what is left of the tokens."""
    further = (size - 1) // 2
    first, value = number(size - 2 * further)
    for _ in range(further):
        value = change(value)
    return first + [sign, "1"] * further, value


def increments(size):
    """The sum of what `a` is before each of its increments, of which the first finds 0, and of what is left of the tokens."""
    times = (size - 1) // 3
    last, value = number(size - 3 * times)
    return ["a", "++", "+"] * times + last, times * (times - 1) // 2 + value


def shifted(value, count):
    """An int that is shifted to the left."""
    return ((value << count % 32) + 2**31) % 2**32 - 2**31


def all_levels(value):
    return 1 | 1 ^ (1 & int(1 == int(1 < shifted(1, 1 + value))))


def wide_layer(place):
    arguments = ["1"] * 16
    before, after = arguments[:place], arguments[place + 1:]
    return ["wide", "("] + [t for a in before for t in (a, ",")], [t for a in after for t in (",", a)] + [")"]


NUMBERS = {
    "parentheses": lambda n: around(n, ["("], [")"], lambda v: v),
    "unary minus": number,
    "unary plus": lambda n: around(n, ["+"], [], lambda v: v),
    "unary plus and minus": lambda n: around(n, ["+", "-"], [], lambda v: -v),
    "complements": lambda n: around(n, ["~"], [], lambda v: ~v),
    "nots": lambda n: around(n, ["!"], [], lambda v: int(v == 0)),
    "minus and parentheses": lambda n: around(n, ["-", "("], [")"], lambda v: -v),
    "sums": lambda n: chain(n, "+", lambda v: v + 1),
    "differences": lambda n: chain(n, "-", lambda v: v - 1),
    "products": lambda n: chain(n, "*", lambda v: v),
    "quotients": lambda n: chain(n, "/", lambda v: v),
    "comparisons": lambda n: chain(n, "!=", lambda v: int(v != 1)),
    "remainders": lambda n: chain(n, "%", lambda v: 0),
    "shifts to the left": lambda n: chain(n, "<<", lambda v: shifted(v, 1)),
    "shifts to the right": lambda n: chain(n, ">>", lambda v: v >> 1),
    "relations": lambda n: chain(n, "<", lambda v: int(v < 1)),
    "equalities": lambda n: chain(n, "==", lambda v: int(v == 1)),
    "bits of both": lambda n: chain(n, "&", lambda v: v & 1),
    "bits that differ": lambda n: chain(n, "^", lambda v: v ^ 1),
    "bits of either": lambda n: chain(n, "|", lambda v: v | 1),
    "bits of either nested on the right": lambda n: around(n, ["1", "|", "("], [")"], lambda v: 1 | v),
    "bits of either nested on the left": lambda n: around(n, ["("], ["|", "1", ")"], lambda v: v | 1),
    "counts of shifts": lambda n: around(n, ["1", "<<", "("], [")"], lambda v: shifted(1, v)),
    "operators of all levels": lambda n: around(n, "1 | 1 ^ 1 & 1 == 1 < 1 << 1 + 1 * (".split(), [")"], all_levels),
    "sums nested on the left": lambda n: around(n, ["("], ["+", "1", ")"], lambda v: v + 1),
    "sums nested on the right": lambda n: around(n, ["1", "+", "("], [")"], lambda v: v + 1),
    "differences nested on the right": lambda n: around(n, ["1", "-", "("], [")"], lambda v: 1 - v),
    "products of sums": lambda n: around(n, ["1", "*", "(", "2", "+"], [")"], lambda v: 2 + v),
    "comparisons nested on the right": lambda n: around(n, ["1", "!=", "("], [")"], lambda v: int(v != 1)),
    "ands": lambda n: chain(n, "&&", lambda v: int(v != 0)),
    "ors": lambda n: chain(n, "||", lambda v: 1),
    "ands nested on the left": lambda n: around(n, ["("], ["&&", "1", ")"], lambda v: int(v != 0)),
    "ands nested on the right": lambda n: around(n, ["1", "&&", "("], [")"], lambda v: int(v != 0)),
    "ors nested on the right": lambda n: around(n, ["0", "||", "("], [")"], lambda v: int(v != 0)),
    "choices in last operands": lambda n: around(n, ["0", "?", "7", ":"], [], lambda v: v),
    "choices in second operands": lambda n: around(n, ["1", "?"], [":", "7"], lambda v: v),
    "choices in second operands and parentheses": lambda n: around(n, ["1", "?", "("], [")", ":", "7"], lambda v: v),
    "choices in tests": lambda n: around(n, ["("], ["?", "1", ":", "0", ")"], lambda v: int(v != 0)),
    "ands, ors and choices": lambda n: around(n, "1 && ( 0 || ( 1 ?".split(), [":", "7", ")", ")"], lambda v: int(v != 0)),
    "casts to int": lambda n: around(n, ["(", "int", ")"], [], lambda v: v),
    "casts to BOOL": lambda n: around(n, ["(", "BOOL", ")"], [], lambda v: int(v != 0)),
    "casts to long and int": lambda n: around(n, ["(", "int", ")", "(", "long", "long", "int", ")"], [], lambda v: v),
    "assignments": lambda n: around(n, ["a", "="], [], lambda v: v),
    "assignments in parentheses": lambda n: around(n, ["a", "=", "("], [")"], lambda v: v),
    "sums of assignments": lambda n: around(n, ["1", "+", "(", "a", "="], [")"], lambda v: v + 1),
    "sums with an operator": lambda n: around(n, ["a", "+="], [], lambda v: v),
    "differences with an operator": lambda n: around(n, ["a", "-="], [], lambda v: -v),
    "updates in parentheses": lambda n: around(n, ["a", "|=", "("], [")"], lambda v: v),
    "sums of increments": lambda n: increments(n),
    "calls": lambda n: around(n, ["f", "("], [")"], lambda v: v + 1),
    "calls in the first of 16 arguments": lambda n: around(n, *wide_layer(0), lambda v: v + 15),
    "calls in the last of 16 arguments": lambda n: around(n, *wide_layer(15), lambda v: v + 15),
    "messages to a class in arguments": lambda n: around(n, ["[", "A", "m", ":"], ["]"], lambda v: v + 1),
    "calls, messages and sums": lambda n: around(n, ["f", "(", "1", "+", "[", "A", "m", ":", "a", "=", "("], [")", "]", ")"], lambda v: v + 3),
}

# in a method of an object
OF_SELF = {
    "messages to self in arguments": lambda n: around(n, ["[", "self", "m", ":"], ["]"], lambda v: v + 1),
    "messages to super in arguments": lambda n: around(n, ["[", "super", "m", ":"], ["]"], lambda v: v + 1),
}

# how a number's full-expression stands in a function
PLACES = {
    "return": ("return", ";", lambda v: (b"", v)),
    "initializer": ("int b =", "; return b;", lambda v: (b"", v)),
    "statement": ("a =", '; printf("%d", a);', lambda v: (str(v).encode(), 0)),
    "if": ("if (", ') printf("y"); else printf("n");', lambda v: (b"y" if v else b"n", 0)),
    "while": ("while (", ') return 5;', lambda v: (b"", 5 if v else 0)),
    "do": ("int b = 0; do { if (b) return 5; b = 1; } while (", ");", lambda v: (b"", 5 if v else 0)),
    "beginning of for": ("for (int b =", "; ; ) return b;", lambda v: (b"", v)),
    "test of for": ("for (; ", "; ) return 5;", lambda v: (b"", 5 if v else 0)),
    "step of for": ("for (int b = 1; b; a =", ') b = 0; printf("%d", a);', lambda v: (str(v).encode(), 0)),
}

# of these full-expressions so many tokens stand in front
TAKEN = {"statement": 2, "step of for": 2}


def spelled(head, tokens, tail):
    """The source, and where each token begins."""
    places = []
    at = len(head)
    for token in tokens:
        places.append(at)
        at += len(token) + 1
    return head + b" ".join(t.encode() for t in tokens) + b" " + tail, places


def number_case(runner, name, form, head, tail, place, ends=()):
    """The form of 1,000 tokens, which is accepted, and of one more. These ends of objects come after what is printed."""
    opening, closing, answer = PLACES[place]
    taken = TAKEN.get(place, 0)
    full_head = head + opening.encode() + b" "
    tokens, value = form(MOST_TOKENS - taken)
    assert len(tokens) == MOST_TOKENS - taken
    source, _ = spelled(full_head, tokens, closing.encode() + tail)
    printed, status = answer(value)
    runner.case(f"1,000 tokens: {name}, {place}", source, Shown(printed, *ends), Ended(status))
    tokens, _ = form(MOST_TOKENS + 1 - taken)
    source, places = spelled(full_head, tokens, closing.encode() + tail)
    runner.case(f"1,001 tokens: {name}, {place}", source, stop=Refused(12, places[MOST_TOKENS - taken]))


def object_cases(runner):
    """200 objects of one full-expression, and one more; the rest of the 1,000 tokens are parentheses."""
    def sends(count, size):
        """So many messages in the receivers of one another, and parentheses and a cast."""
        tokens = ["[", "A", "alloc", "]"]
        pairs, odd = divmod(size - 4 - 3 * (count - 1), 2)
        if odd:
            pairs -= 1
        for n in range(count - 1):
            if n < pairs:
                tokens = ["("] + tokens + [")"]
            tokens = ["["] + tokens + ["init", "]"]
        for _ in range(pairs - (count - 1)):
            tokens = ["("] + tokens + [")"]
        return ["(", "id", ")"] * odd + tokens

    def places_of(tokens, places, words):
        return [p for t, p in zip(tokens, places) if t in words]

    head, tail = CLASSES + b"@implementation B -(int)go { return 0; } @end int main(void) { A *x; A *a = [A new]; int i; ", b"; }"
    for count in (200, 201):
        tokens = sends(count, MOST_TOKENS)
        source, places = spelled(head, tokens, tail)
        if count == 200:
            assert len(tokens) == MOST_TOKENS, len(tokens)
            runner.case("200 messages in receivers, 1,000 tokens", source, Shown((2, b"A"), (1, b"A")))
        else:
            at = sorted(places_of(tokens, places, ("alloc", "init")))[200]
            runner.case("201 messages in receivers", source, stop=Refused(50, at))
        tokens = ["x", "="] * (count - 1) + ["[", "A", "new", "]"]
        source, places = spelled(head, tokens, tail)
        if count == 200:
            runner.case("199 assignments of an object", source, Shown((1, b"A"), (2, b"A")))
        else:
            at = sorted(places_of(tokens, places, ("=", "new")))[200]
            runner.case("200 assignments of an object", source, stop=Refused(50, at))
        tokens = ["i", "="] + ["a", "->", "_v", "="] * count
        inner, _ = number(MOST_TOKENS - len(tokens))
        source, places = spelled(head, tokens + inner, b'; printf("%d", i)' + tail)
        if count == 200:
            runner.case("200 assignments of a field, 1,000 tokens", source, Shown(b"1" if len(inner) % 2 else b"-1", (1, b"A")))
        else:
            runner.case("201 assignments of a field", source, stop=Refused(50, places[2 + 4 * 200]))
        tokens = ["i", "="] + ["a", "->", "_v", "+"] * count
        inner, value = number(MOST_TOKENS - len(tokens))
        source, places = spelled(head, tokens + inner, b'; printf("%d", i)' + tail)
        if count == 200:
            runner.case("200 fields read, 1,000 tokens", source, Shown(str(value).encode(), (1, b"A")))
        else:
            runner.case("201 fields read", source, stop=Refused(50, places[2 + 4 * 200]))
    one = ["(", "[", "A", "new", "]", "!=", "[", "A", "new", "]", ")"]
    tokens = ["i", "="] + one + (["+"] + one) * 82
    inner, value = number(MOST_TOKENS - len(tokens) - 1)
    source, _ = spelled(head, tokens + ["+"] + inner, b'; printf("%d", i)' + tail)
    ends = [(n, b"A") for n in range(167, 1, -1)]
    runner.case("166 new objects, 1,000 tokens", source, Shown(*ends, str(83 + value).encode(), (1, b"A")))


def cast_cases(runner):
    head, tail = CLASSES + b"@implementation B -(int)go { return 0; } @end int main(void) { A *a = [A new]; return ", b"; }"

    def casts(size, layer, leaf, after):
        room = size - len(leaf) - len(after)
        first = []
        layers = room // len(layer)
        if (room - layers * len(layer)) % 2:
            layers -= 1
        if (room - layers * len(layer)) % 2:
            first = ["(", "id", ")"]
        pairs = (room - len(first) - layers * len(layer)) // 2
        return layer * layers + first + ["("] * pairs + leaf + [")"] * pairs + after

    forms = {
        "casts to id": lambda n: casts(n, ["(", "id", ")"], ["nil"], ["!=", "nil"]),
        "casts to a class": lambda n: casts(n, ["(", "A", "*", ")"], ["a"], ["!=", "nil"]),
        "a field after casts": lambda n: ["("] + casts(n - 4, ["(", "A", "*", ")"], ["a"], []) + [")", "->", "_v"],
        "a field after casts in parentheses": lambda n: field_after_casts(n),
        "messages to casts": lambda n: messages_to_casts(n),
    }
    for name, form in forms.items():
        tokens = form(MOST_TOKENS)
        assert len(tokens) == MOST_TOKENS, (name, len(tokens))
        source, _ = spelled(head, tokens, tail)
        value = {"casts to a class": 1, "messages to casts": 3}.get(name, 0)
        runner.case(f"1,000 tokens: {name}", source, Shown((1, b"A")), Ended(value))
        tokens = form(MOST_TOKENS + 1)
        source, places = spelled(head, tokens, tail)
        runner.case(f"1,001 tokens: {name}", source, stop=Refused(12, places[MOST_TOKENS]))
    # a field of a field is no object's: the kinds are refused at the first field, and the limit is reported before
    for size in (999, 1001):
        tokens = ["a"] + ["->", "_v"] * ((size - 1) // 2)
        source, places = spelled(head, tokens, tail)
        stop = Refused(43, places[2]) if size == 999 else Refused(12, places[MOST_TOKENS])
        runner.case(f"{size} tokens: fields of fields", source, stop=stop)


def field_after_casts(size):
    tokens = ["a"]
    while len(tokens) + 6 <= size - 2:
        tokens = ["(", "(", "A", "*", ")"] + tokens + [")"]
    while len(tokens) + 2 <= size - 2:
        tokens = ["("] + tokens + [")"]
    return (["-"] if len(tokens) + 2 < size else []) + tokens + ["->", "_v"]


def messages_to_casts(size):
    tokens = ["a"]
    while len(tokens) + 7 <= size - 3:
        tokens = ["[", "(", "A", "*", ")"] + tokens + ["init", "]"]
    while len(tokens) + 2 <= size - 3:
        tokens = ["("] + tokens + [")"]
    spare = size - 3 - len(tokens)
    return ["-"] * spare + ["["] + tokens + ["v", "]"]


def update_cases(runner):
    """Updates of updates, which are no variables; the limit is reported before that."""
    head, tail = b"int main(void) { int a; ", b"; }"
    for size in (MOST_TOKENS, MOST_TOKENS + 1):
        for name, tokens, at in (
            ("++ before an operand", ["++"] * (size - 1) + ["a"], 0),
            ("-- after an operand", ["a"] + ["--"] * (size - 1), 2),
        ):
            source, places = spelled(head, tokens, tail)
            stop = Refused(44, places[at]) if size == MOST_TOKENS else Refused(12, places[MOST_TOKENS])
            runner.case(f"{size} tokens: {name}", source, stop=stop)


def printf_cases(runner):
    head, tail = b"int main(void) { return ", b"; }"

    def layers(size):
        inner, value = number((size - 1) % 5 + 1)
        text = ""
        for _ in range((size - 1) // 5):
            text += str(value)
            value = len(str(value))
            inner = ["printf", "(", '"%d"', ","] + inner + [")"]
        return inner, value, text

    def values(size):
        count = (size - 4) // 2
        first, value = number(size - 4 - 2 * count + 1)
        text = str(value) + "1" * (count - 1)
        return ["printf", "(", '"' + "%d" * count + '"', ","] + first + [",", "1"] * (count - 1) + [")"], len(text), text

    def reads(size):
        further = (size - 3) // 4
        signs = ["-"] * (size - 3 - 4 * further)
        return signs + ["getchar", "(", ")"] + ["+", "getchar", "(", ")"] * further, (1 if len(signs) % 2 == 0 else -1) * 65 + 65 * further, ""

    for name, form in (("printf within printf", layers), ("values of printf", values), ("sums of what is read", reads)):
        tokens, value, text = form(MOST_TOKENS)
        assert len(tokens) == MOST_TOKENS, (name, len(tokens))
        source, _ = spelled(head, tokens, tail)
        runner.case(f"1,000 tokens: {name}", source, Shown(text.encode()), Ended(value), given=b"A" * 1000)
        tokens, _, _ = form(MOST_TOKENS + 1)
        source, places = spelled(head, tokens, tail)
        runner.case(f"1,001 tokens: {name}", source, stop=Refused(12, places[MOST_TOKENS]))


def run(runner):
    plain_head = CLASSES + b"@implementation B -(int)go { return 0; } @end " + FUNCTIONS + b"int main(void) { int a; "
    for name, form in NUMBERS.items():
        for place in PLACES:
            number_case(runner, name, form, plain_head, b" }", place)
    method_head = CLASSES + b"@implementation B -(int)go { int a; "
    for name, form in OF_SELF.items():
        for place in PLACES:
            if place not in TAKEN:
                number_case(runner, name, form, method_head, b" } @end int main(void) { B *b = [B new]; int r = [b go]; b = nil; return r; }", place, [(1, b"B")])
    object_cases(runner)
    cast_cases(runner)
    update_cases(runner)
    printf_cases(runner)
    nested_cases(runner)
    begun_cases(runner)


def nested_cases(runner):
    """An expression of 1,000 tokens in a statement that is nested 200 deep, in blocks or in branches and loops with such
    expressions as their tests."""
    tokens, value = NUMBERS["parentheses"](MOST_TOKENS)
    one = " ".join(tokens)
    tokens, other = NUMBERS["parentheses"](MOST_TOKENS - 3)
    no = " ".join(tokens) + f" != {other}"
    layers = {
        "blocks": ("{ ", " }", 198),
        "branches": (f"if ({one}) ", "", 198),
        "else": (f"if ({no}) return 9; else ", "", 198),
        "loops": (f"while ({one}) ", "", 198),
        "loops with a step": (f"for (; {one}; {one}) ", "", 198),
        "loops with the test after": ("do ", f" while ({one});", 198),
    }
    for name, (before, after, times) in layers.items():
        source = f"int main(void) {{ {before * times} return {one}; {after * times} }}"
        runner.case(f"1,000 tokens in 200 statements: {name}", source.encode(), stop=Ended(value))


def begun_cases(runner):
    """Sources of 1 MiB whose one expression never ends: the 1,001st token is too deep."""
    head = b"int main(void) { return "
    for part in ("(", "-", "+", "[", "f (", "1 + (", "1 +", "a = (", "a =", "a += (", "a -=", "++", "a ++ +", "[ A m :", "f ( 1 ,", "( id )", "( A * )"):
        tokens = part.split()
        source = padded(head + (part.encode() + b" ") * ((MOST_SOURCE - len(head)) // (len(part) + 1)))
        whole, place = divmod(MOST_TOKENS, len(tokens))
        at = len(head) + whole * (len(part) + 1) + sum(len(t) + 1 for t in tokens[:place])
        runner.case(f"1 MiB that begins expressions: {part}", source, stop=Refused(12, at))
