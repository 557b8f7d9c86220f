"""deepest.py PROGRAM [WORD..]: runs the cases whose names have one of the words, or all."""
import sys

import expressions
import lengths
import levels
import statements
from running import Runner


def main():
    runner = Runner(sys.argv[1], sys.argv[2:])
    for part in (statements, expressions, levels, lengths):
        part.run(runner)
    return runner.end()


if __name__ == "__main__":
    sys.exit(main())
