"""Runs demand 3's scenario through the console: random interleavings of up to eight senders, judged by the three conclusions.

  python3 tests/demand3/check.py [--seeds A..B]

The console is bin/console, or the command of GOREPHAN_CONSOLE. Nothing here models a receiver; of tests/independent only the ciphers and the
forms of PDUs are used, and how the program is run. Every kind of answer must occur.
"""
import argparse
import sys
from collections import Counter
from pathlib import Path

sys.path.insert(0, str(Path(__file__).resolve().parents[1] / "independent"))

import program  # noqa: E402
from judge import Run, Wrong, ends  # noqa: E402
from scenario import Scenario  # noqa: E402

FIXED = range(1, 41)
KINDS = ("handed up", "handed up to a label", "stored", "repeat", "refused 5", "opened by no key", "acknowledgement")


class Answers:
    """The program's answers, taken in the order of the script's lines."""

    def __init__(self, lines):
        self.lines, self.at = lines, 0

    def take(self, count):
        self.at += count
        return self.lines[self.at - count:self.at]

    def shown(self):
        """The lines of one `show`."""
        return self.take(self.lines.index("end", self.at) + 1 - self.at)


def script(scenario):
    """Both runs: all speeches mixed, then one after another, each on a fresh receiver and with what it leaves."""
    for arrivals in (scenario.arrivals, scenario.sequential()):
        yield from scenario.setup()
        yield from (arrival.line for arrival in arrivals)
        yield "show"


def judged(scenario, answers):
    """The mixed run, or Wrong."""
    runs, shown = [], []
    for arrivals in (scenario.arrivals, scenario.sequential()):
        if answers.take(len(scenario.setup()))[-1:] != ["ready"]:
            raise Wrong(-1, "a receiver that is ready")
        run = Run(scenario)
        got = answers.take(len(arrivals))
        try:
            run.judge(arrivals, got)
        except Wrong as wrong:
            raise Wrong(wrong.at, f"{wrong.wanted}\n  line:     {arrivals[wrong.at].line}\n  answered: {got[wrong.at]}") from None
        runs.append(run)
        shown.append(answers.shown())
    ends(scenario, runs[0], shown[0], runs[1], shown[1])
    return runs[0]


def main():
    parser = argparse.ArgumentParser(description="Runs demand 3's scenario through the console.")
    parser.add_argument("--seeds", type=program.seeds, default=FIXED, help="one seed, or A..B; without it the fixed ones")
    chosen, words = program.asked(parser)
    scenarios = [(seed, Scenario(seed)) for seed in chosen.seeds]
    lines = [line.encode() for _, scenario in scenarios for line in script(scenario)]
    answers, counts, most = Answers(program.answers(words, program.text_of(lines))), Counter(), 0
    for seed, scenario in scenarios:
        try:
            run = judged(scenario, answers)
            counts.update(run.counts)
            most = max(most, run.most)
        except Wrong as wrong:
            print(f"seed {seed}, arrival {wrong.at + 1} (0: the end) of {len(scenario.arrivals)}\n  wanted:   {wrong.wanted}")
            return 1
        except ValueError:
            print(f"seed {seed}: answers are missing; the last is {answers.lines[-1:]}")
            return 1
    print(", ".join(f"{kind} {counts[kind]}" for kind in KINDS) + f", at most {most} messages open at once")
    if chosen.seeds == FIXED and (most < 8 or not all(counts[kind] for kind in KINDS)):
        print("a kind of answer, or eight messages at once, did not occur")
        return 1
    print(f"{len(scenarios)} interleavings of 1 to 8 senders: {counts['handed up'] + counts['handed up to a label']} messages handed up once each,"
          f" {counts['acknowledgement']} acknowledgements exact, entries as one after another")
    return 0


if __name__ == "__main__":
    sys.exit(main())
