"""Holds bench/sizes to functions whose figures are known (known.s), and to C compiled at several levels: see tests/sizes/run."""
import os
import re
import subprocess
import sys

SIZES, OBJECTS = "bench/sizes", sys.argv[1]
# Of functions of known.s: the code where it is known, constants, stack, and the options beside their name.
KNOWN = [
    ("framed", None, 0, 120),
    ("below_pointer", None, 0, 72),
    ("returns_early", None, 0, 1016),
    ("chain", ("chain", "chain_second", "framed"), 0, 200),
    ("jumps_on", ("jumps_on", "framed"), 0, 120),
    ("jumps_within", ("jumps_within", "framed"), 0, 184),
    ("aligned", None, 0, 200),
    ("page_by_page", None, 0, 12312),
    ("walks_frame", None, 0, 8200),
    ("recursive", ("recursive", "chain_second", "framed"), 0, 328, "--depth", "recursive=5"),
    ("one_of_two", ("one_of_two", "other_of_two"), 0, 144, "--depth", "one_of_two=3"),
    ("by_table", ("by_table", "framed"), 8, 136),
    ("by_two_tables", None, 16, 520),
    ("calls_library", None, 0, 24),
    ("reads_sized", None, 300, 8),
    ("reads_unsized", None, 40, 8),
    ("reads_next", None, 5, 8),
    ("names_by_address", ("names_by_address", "framed"), 8, 8),
]
# Options, and words of the error that they must give.
UNTOLD = [
    (["--from", "varies"], "otherwise than by a constant"),
    (["--from", "by_pointer"], "what is called cannot be told"),
    (["--from", "recursive"], "recursive -> recursive is recursive"),
    (["--from", "one_of_two"], "one_of_two -> other_of_two -> one_of_two is recursive"),
    (["--from", "nobody"], "has 0 functions named nobody"),
    (["--from", "framed", "--depth", "framed"], "FUNCTION=N is wanted"),
]
# Of known.c, at each level: the least that a function's stack is and the constants that it reads.
LEAST = {"local": (1000, 0), "third": (1000, 300), "second": (1500, 300), "first": (1600, 300)}
MOST_BESIDE = 128  # octets of a function's stack beside its locals
wrong = 0


def measured(*arguments):
    """What bench/sizes prints, or its error."""
    run = subprocess.run([SIZES, *arguments], capture_output=True, text=True, check=False)
    return run.stdout.strip() if run.returncode == 0 else f"error {run.stderr.strip()}"


def expect(right, what):
    global wrong
    if not right:
        wrong += 1
        print(f"FAILED: {what}")


def sizes_of(file):
    """The octets of each function, by the symbols."""
    listed = subprocess.run([os.environ["NM"], "-S", file], capture_output=True, text=True, check=True).stdout
    return {name: int(size, 16) for size, name in re.findall(r"^\S+ (\S+) [tT] (\S+)$", listed, re.M)}


def known():
    file = f"{OBJECTS}/known_s.o"
    sizes = sizes_of(file)
    for name, functions, constants, stack, *options in KNOWN:
        code = sum(sizes[one] for one in functions or (name,))
        wanted, found = f"code {code} constants {constants} stack {stack}", measured("--archive", file, "--from", name, *options)
        expect(found == wanted, f"{name}: {found}, and not {wanted}")
    for options, words in UNTOLD:
        found = measured("--archive", file, *options)
        expect(found.startswith("error") and words in found, f"{' '.join(options)}: {found}, and not an error with {words!r}")
    return len(KNOWN) + len(UNTOLD)


def compiled(level):
    file = f"{OBJECTS}/known{level}.o"
    for name, (stack, constants) in LEAST.items():
        found = measured("--archive", file, "--from", name)
        match = re.fullmatch(r"code (\d+) constants (\d+) stack (\d+)", found)
        expect(match and int(match[2]) == constants, f"{name} at {level}: {found}, and not {constants} octets of constants")
        expect(match and stack <= int(match[3]) <= stack + MOST_BESIDE * 3, f"{name} at {level}: {found}, and not {stack} of stack and little more")
    return len(LEAST)


def main():
    count = known() + sum(compiled(level) for level in sys.argv[2:])
    print(f"{count} measured, {wrong} wrong")
    return int(wrong > 0)


sys.exit(main())
