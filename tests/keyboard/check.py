"""Checks what is said to who types at the console: see tests/keyboard/run."""
import argparse
import signal
import sys
from pathlib import Path

ROOT = Path(__file__).resolve().parents[2]
sys.path[:0] = [str(ROOT / "bin" / "parts"), str(ROOT / "tests" / "independent")]

import building  # noqa: E402
import earlier  # noqa: E402
import explaining  # noqa: E402
import typing_in  # noqa: E402
from program import asked  # noqa: E402


def main():
    signal.signal(signal.SIGINT, signal.default_int_handler)  # a shell that starts this behind other work has Ctrl-C ignored by all that is started
    _, words = asked(argparse.ArgumentParser(description=__doc__))
    wrong, counts = [], []
    for check in (explaining.logs, explaining.sessions, typing_in.passes, typing_in.help_fits, building.builds, earlier.early):
        found, count = check(words)
        wrong += found
        counts.append(count)
    for text in wrong:
        print(text)
    print(f"{', '.join(counts)}: {f'{len(wrong)} wrong' if wrong else 'each as expected'}")
    return bool(wrong)


sys.exit(main())
