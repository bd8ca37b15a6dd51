"""Compares the console, line by line, with the independent model of document 01 and of what document 02 has added to it.

  python3 tests/independent/compare.py [--seeds A..B] [--console COMMAND]

Each seed makes one script of some two thousand lines: the traffic of other nodes, requests of every kind, property lists, makers' segments, unread lines.
Without --seeds the fixed ones and the scripts of edges.py are run, and every kind of answer that coverage.py lists must occur. Where an answer
differs, the seed, the line and both answers are printed, and the script is cut down to a short one, which is also left in target/independent.
"""
import argparse
import sys
from collections import Counter

import coverage
import differing
import edges
import program
import samples
import script

FIXED = range(1, 25)
SHOWN = 300


def shown(line):
    text = line.decode("latin-1").encode("unicode_escape").decode()
    return text if len(text) <= SHOWN else f"{text[:SHOWN]}.. ({len(line)} octets)"


def tell(name, words, lines, found):
    """Prints the difference, and the short script that still shows one."""
    at, model, answer = found
    line = shown(lines[at]) if lines else "(none)"
    print(f"{name}, line {at + 1} of {len(lines)}: {line}\n  model:   {model}\n  program: {answer}")
    short, (at, model, answer) = differing.shortest(words, lines, found)
    folder = program.ROOT / "target" / "independent"
    folder.mkdir(parents=True, exist_ok=True)
    file = folder / name.replace(" ", "-")
    file.write_bytes(program.text_of(short))
    print(f"cut down to {len(short)} lines, {file}:")
    for line in short:
        print("  " + shown(line))
    print(f"  model:   {model}\n  program: {answer}")


def scripts(chosen, counts):
    """Each script by its name: its lines, whether the last has its newline, and the model's answers; counts grows by their kinds."""
    if not chosen:
        for number, (lines, ended) in enumerate(edges.scripts(), 1):
            yield f"edge {number}", lines, ended, differing.expected(lines)
    for seed in chosen or FIXED:
        steps = script.made(seed)
        for step in steps:
            counts.update(step.kinds)
        yield f"seed {seed}", [step.line for step in steps], seed % 2 == 0, [(at, answer) for at, step in enumerate(steps) for answer in step.answers]


def main():
    parser = argparse.ArgumentParser(description="Compares the console with the independent model of document 01.")
    parser.add_argument("--seeds", type=program.seeds, help="one seed, or A..B; without it the fixed ones")
    parser.add_argument("--console", help="the command that runs the console (bin/console)")
    chosen, words = program.asked(parser)
    published = samples.check()
    counts, number, total = Counter(), 0, 0
    for name, lines, ended, wanted in scripts(chosen.seeds, counts):
        found = differing.difference(words, lines, ended, wanted)
        if found:
            tell(name, words, lines, found)
            return 1
        number, total = number + 1, total + len(wanted)
    missing, unlisted = coverage.report(counts)
    if unlisted or missing and not chosen.seeds:
        print("not reached: " + ("; ".join(missing) or "none") + "\nnot listed: " + ("; ".join(unlisted) or "none"))
        return 1
    kinds = len(coverage.required())
    print(f"{total} answers to {number} scripts are the model's; {kinds - len(missing)} of {kinds} kinds of answer occurred;"
          f" the model gives {published} published values")
    return 0


if __name__ == "__main__":
    sys.exit(main())
