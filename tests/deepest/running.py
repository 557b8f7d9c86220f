"""Runs a source by each of the program's commands, and says whether each answer is the one that is expected."""
import os
import resource
import subprocess
import tempfile
import time

# The system's usual stack, and the seconds of processor time that a command may take.
STACK_BYTES = 8 << 20
MOST_SECONDS = 5.0
MOST_SOURCE = 1 << 20

RULES = {
    1: "BadByte", 2: "OpenComment", 3: "OpenLiteral", 4: "Literal", 5: "Directive", 6: "TooLong", 11: "Unexpected",
    12: "TooDeep",
    21: "Duplicate", 22: "UnknownClass", 24: "SelectorKinds", 26: "NoImplementation", 27: "TooManyFields",
    28: "HookMethod", 29: "NoMain", 41: "UnknownName", 42: "NoSuchMethod", 43: "KindMismatch", 44: "NotAssignable",
    45: "ArgumentCount", 46: "Format", 49: "FieldHidden", 50: "TooManyLocals", 71: "TooLarge",
}
FAULTS = {81: "Arithmetic", 82: "Unrecognized", 83: "NilField", 84: "FieldClass", 85: "Depth", 86: "Resurrected"}


class Ended:
    """A program that ends with a number."""

    def __init__(self, number=0):
        self.status = number % 256
        self.errors = b""
        self.line = b"end %d\n" % number


class Faulted:
    """A program that is stopped by a fault."""

    def __init__(self, number):
        name = FAULTS[number].encode()
        self.status = 103
        self.errors = b"arcc: fault %d %s\n" % (number, name)
        self.line = b"fault %d %s\n" % (number, name)


class StepsUsed:
    """A program that is cut."""

    status = 105
    errors = b"arcc: steps used\n"
    line = b"steps\n"


class Refused:
    """A source that is no program."""

    def __init__(self, number, at):
        self.status = 102
        self.errors = b"arcc: refused %d %s at %d\n" % (number, RULES[number].encode(), at)


class Shown:
    """What a program shows: bytes that it prints, and pairs of an object's number and its class's name."""

    def __init__(self, *events):
        self.events = events

    def output(self):
        return b"".join(e for e in self.events if isinstance(e, bytes))

    def trace(self, stop):
        text = bytearray()
        is_open = False
        for event in self.events:
            if isinstance(event, bytes):
                if event:
                    text += (b"" if is_open else b"out ") + event.hex().encode()
                    is_open = True
            else:
                text += (b"\n" if is_open else b"") + b"dealloc %d %s\n" % event
                is_open = False
        return bytes(text + (b"\n" if is_open else b"") + stop.line)


def limit(addresses):
    """At most the usual stack, and at most so many bytes of addresses, in the program that is about to run."""
    _, hard = resource.getrlimit(resource.RLIMIT_STACK)
    resource.setrlimit(resource.RLIMIT_STACK, (STACK_BYTES, hard))
    if addresses is not None:
        resource.setrlimit(resource.RLIMIT_AS, (addresses, addresses))


class Runner:
    def __init__(self, program, words):
        self.program = os.path.abspath(program)
        self.words = words
        self.passed = 0
        self.failed = 0
        self.times = []

    def is_asked_for(self, name):
        return not self.words or any(word in name for word in self.words)

    def call(self, folder, words, given=b"", output=None, addresses=None):
        """The status, standard output, standard error, seconds of processor time and megabytes of a call."""
        paths = [os.path.join(folder, name) for name in ("in", "out", "err")]
        with open(paths[0], "wb") as file:
            file.write(given)
        with open(paths[0], "rb") as stdin, open(output or paths[1], "wb") as stdout, open(paths[2], "wb") as stderr:
            child = subprocess.Popen([self.program, *words], stdin=stdin, stdout=stdout, stderr=stderr,
                                     preexec_fn=lambda: limit(addresses))
            _, status, used = os.wait4(child.pid, 0)
            child.returncode = os.waitstatus_to_exitcode(status)
        shown = b"" if output else open(paths[1], "rb").read()
        return child.returncode, shown, open(paths[2], "rb").read(), used.ru_utime + used.ru_stime, used.ru_maxrss >> 10

    def judge(self, name, problems, seconds, memory):
        verdict = "ok    " if not problems else "FAILED"
        print(f"{verdict} {seconds:6.2f} s {memory:5d} MB  {name}", flush=True)
        for problem in problems:
            print(f"       {problem}", flush=True)
        if problems:
            self.failed += 1
        else:
            self.passed += 1
        self.times.append((seconds, name))

    def case(self, name, source, shown=Shown(), stop=Ended(), given=b"", options=(), commands=("check", "code", "run", "trace"), addresses=None):
        """One source by each command. What a command wrote, reported and ended with must be what is expected."""
        if not self.is_asked_for(name):
            return
        problems = []
        slowest = 0.0
        largest = 0
        with tempfile.TemporaryDirectory() as folder:
            path = os.path.join(folder, "source.m")
            with open(path, "wb") as file:
                file.write(source)
            for command in commands:
                reported, wrote, status = self.expected(command, shown, stop)
                words = [command, path, *(options if command in ("run", "trace") else ())]
                got_status, got_out, got_err, seconds, memory = self.call(folder, words, given, addresses=addresses)
                slowest = max(slowest, seconds)
                largest = max(largest, memory)
                if got_status != status:
                    problems.append(f"{command}: status {got_status} and not {status}; {got_err[:200]!r}")
                elif got_err != reported:
                    problems.append(f"{command}: reported {got_err[:200]!r} and not {reported[:200]!r}")
                elif wrote is not None and got_out != wrote:
                    problems.append(f"{command}: wrote {difference(got_out, wrote)}")
                elif wrote is None and not is_listing(got_out):
                    problems.append(f"{command}: no listing: {got_out[:100]!r}")
                if seconds > MOST_SECONDS:
                    problems.append(f"{command}: took {seconds:.1f} s")
        self.judge(name, problems, slowest, largest)

    def expected(self, command, shown, stop):
        """What a command reports, what it writes (None is a listing) and its status."""
        if isinstance(stop, Refused):
            return stop.errors, b"", stop.status
        if command == "check":
            return b"", b"ok\n", 0
        if command == "code":
            return b"", None, 0
        if command == "run":
            return stop.errors, shown.output(), stop.status
        return stop.errors, shown.trace(stop), stop.status

    def end(self):
        self.times.sort(reverse=True)
        for seconds, name in self.times[:5]:
            print(f"slowest: {seconds:6.2f} s  {name}")
        print(f"{self.passed} passed, {self.failed} failed")
        return 1 if self.failed else 0


def is_listing(text):
    """Whether the lines of a text are numbered from 0."""
    lines = text.split(b"\n")
    return len(lines) > 1 and lines[-1] == b"" and all(line.split(b" ", 1)[0] == b"%d" % n for n, line in enumerate(lines[:-1]))


def difference(got, wanted):
    at = next((n for n, (a, b) in enumerate(zip(got, wanted)) if a != b), min(len(got), len(wanted)))
    return f"{len(got)} bytes and not {len(wanted)}; at {at} {got[at:at + 40]!r} and not {wanted[at:at + 40]!r}"


def padded(source, size=MOST_SOURCE):
    """A source, with spaces at its end up to so many bytes."""
    assert len(source) <= size, len(source)
    return source + b" " * (size - len(source))


def filled(head, part, tail, size=MOST_SOURCE):
    """The head, as many parts as there is room for, and the tail: the source, and how many parts. A part is bytes, or a
    function of its number."""
    if isinstance(part, bytes):
        times = (size - len(head) - len(tail)) // len(part)
        return padded(head + part * times + tail, size), times
    parts = []
    room = size - len(head) - len(tail)
    while True:
        one = part(len(parts))
        if len(one) > room:
            return padded(head + b"".join(parts) + tail, size), len(parts)
        parts.append(one)
        room -= len(one)


FIRST = b"abcdefghijklmnopqrstuvwxyzABCDEFGHIJKLMNOPQRSTUVWXYZ"
LATER = FIRST + b"0123456789_"
TAKEN = {b"do", b"if", b"id", b"nil", b"NO", b"for", b"int", b"YES"}


def short_names():
    """Names, the shortest first."""
    size = 1
    while True:
        for number in range(len(FIRST) * len(LATER) ** (size - 1)):
            number, name = number // len(FIRST), FIRST[number % len(FIRST):number % len(FIRST) + 1]
            for _ in range(size - 1):
                name += LATER[number % len(LATER):number % len(LATER) + 1]
                number //= len(LATER)
            if name not in TAKEN:
                yield name
        size += 1


def names(count):
    all_names = short_names()
    return [next(all_names) for _ in range(count)]
