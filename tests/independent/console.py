"""The model on a keyboard: reads the console's language on standard input and answers on standard output, as bin/console does.

  python3 tests/independent/console.py < SCRIPT
"""
import sys

from language import Console


def main():
    if len(sys.argv) > 1:
        print(f"console.py: takes no argument, but was given {sys.argv[1]}", file=sys.stderr)
        return 2
    console = Console()
    for line in sys.stdin.buffer:
        for answer in console.answer(line.removesuffix(b"\n")):
            print(answer)
    return 0


if __name__ == "__main__":
    sys.exit(main())
