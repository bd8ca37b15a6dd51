"""Prints the figures of an archive, or the page docs/SIZES.md: see bench/sizes."""
import argparse
import os
import pathlib
import re
import subprocess
import sys
from collections import namedtuple

from measured import Archive, Unmeasured
from spent import spent

ROOT = pathlib.Path(__file__).resolve().parents[2]
PAGE = ROOT / "docs" / "SIZES.md"
OUT = ROOT / "target" / "sizes"
RADIO = ROOT / "target" / "staticlib" / "libradio.a"
SPEED = ROOT / "target" / "staticlib" / "libspeed.a"
HANDHELD = ROOT / "target" / "handheld" / "libradio.a"
GCC, OBJDUMP, UNDER = (os.environ.get(name, default) for name, default in (("GCC", "gcc"), ("OBJDUMP", "objdump"), ("UNDER", "")))
THREE = ("credentials", "open", "seal")
HEAR = "receiver::hear::hear"
# The crates that the radio archive is made of.
CRATES = ("common", "aes", "modes", "keys", "network", "radio", "radio_c")
TABLE = 256  # octets of the S-box
# How many calls of a recursive function may be open at once: the exponent 254 is halved until it is 0, nine in all.
DEPTHS = {"aes::worked_out::to_the": 9}
WIDTH = 160
BEFORE = 13_095  # octets of the radio archive's code and constants before its shapes were looked at (docs/changes/W6.md)
COPIES = """Counted in a run (bench/copies.c). A copy of 176 octets is one of a key schedule, which is handed on by value. Copies by single instructions are not
seen."""

# One line of the page's table: what it is of, the figures, and the stack that a run wrote to.
Row = namedtuple("Row", "what figures seen")


def run(*command):
    """What a command prints."""
    return subprocess.run([str(part) for part in command if str(part)], cwd=ROOT, stdout=subprocess.PIPE, text=True, check=True).stdout


def compiled(source, level):
    """An object of a C file in bench/, each function and constant in a section of its own."""
    made = OUT / f"{source}{level}.o"
    run(GCC, "-std=c11", "-Wall", "-Wextra", "-Werror", level, "-ffunction-sections", "-fdata-sections", "-c", ROOT / "bench" / f"{source}.c", "-o", made)
    return made


def ran(program, linked, *options):
    """What a program of bench/ prints, linked with an archive or object and compiled with these options: the words of each line."""
    made = OUT / f"{program}_{linked.parent.name}_{linked.stem}"
    run(GCC, "-std=gnu11", "-Wall", "-Wextra", "-O2", "-static", *options, ROOT / "bench" / f"{program}.c", linked, "-o", made)
    return [line.split() for line in run(UNDER, made).splitlines()]


def held(name, depth, counted):
    """A depth that a run wrote to; an error where it is more than what was counted."""
    if depth > counted:
        raise Unmeasured(f"{name} wrote {depth} octets deep in a run, and only {counted} were counted")
    return depth


def radio_row(what, path, prefix, depths):
    """The three functions, by what stands before their names. Of an archive all counts, of an object what they reach."""
    archive = Archive(path, OBJDUMP, depths)
    names = [f"{prefix}_{name}" for name in THREE]
    renamed = [f"-Dgorephan_{name}={prefix}_{name}" for name in THREE if prefix != "gorephan"]
    seen = max(held(name, int(depth), archive.stack(archive.named(f"{prefix}_{name}"))) for name, depth, *_ in ran("stack", path, *renamed))
    return Row(what, archive.figures(() if path.suffix == ".a" else names), seen)


def our_hear(depths):
    """`hear` is called by speed_hear_row: what a run of that wrote, less the depth at which it calls `hear`."""
    archive = Archive(SPEED, OBJDUMP, depths)
    hear = archive.named(HEAR)
    (_, depth, *_), = ran("stack_hear", SPEED)
    seen = int(depth) - archive.frame(archive.named("speed_hear_row")).calls[hear]
    return Row("`hear` of crates/receiver, with all that it calls", archive.figures([HEAR]), held(HEAR, seen, archive.stack(hear)))


def plain_hear(level, depths):
    path = compiled("plain_hear", level)
    archive = Archive(path, OBJDUMP, depths)
    (_, depth, *_), = ran("stack_hear", path, "-DPLAIN", ROOT / "bench" / "plain_setup.c", ROOT / "bench" / "plain_radio.c")
    figures = archive.figures(["plain_hear"])
    return Row(f"the same in plain C (bench/plain_hear.c), gcc {level}", figures, held("plain_hear", int(depth), figures["stack"]))


def rows(depths):
    yield radio_row("the radio archive, as `bin/built --archive radio` builds it", RADIO, "gorephan", depths)
    yield radio_row("the radio archive of the handheld set, as `bin/handheld` builds it", HANDHELD, "gorephan", depths)
    for level in ("-O2", "-Os"):
        yield radio_row(f"the same three functions in plain C (bench/plain_radio.c), gcc {level}", compiled("plain_radio", level), "plain", depths)
    yield our_hear(depths)
    for level in ("-O2", "-Os"):
        yield plain_hear(level, depths)


def table(heads, lines):
    return "\n".join(f"| {' | '.join(str(cell) for cell in cells)} |" for cells in (heads, ["---"] * len(heads), *lines))


def figures_table(depths):
    lines = []
    for row in rows(depths):
        if row.figures["variables"]:
            raise Unmeasured(f"{row.what}: it has variables, {row.figures['variables']} octets, and the page says that there are none")
        code, constants, stack = (row.figures[name] for name in ("code", "constants", "stack"))
        lines.append([row.what] + [f"{n:,}" for n in (code, constants, code + constants, stack, row.seen)])
    return table(["octets, x86-64", "code", "constants", "code and constants", "stack, counted", "stack, seen in a run"], lines)


def functions_table(archive):
    lines = []
    for function in sorted(archive.functions.values(), key=lambda one: -one.size):
        found, frame = spent(archive, function), archive.frame(function).own
        varied = f", {found.unknown} of any length" if found.unknown else ""
        copies = f"{found.copies}: {found.copied:,} octets{varied}" if found.copies else "none"
        numbers = [f"{n:,}" for n in (found.laid, frame, archive.stack(function))]
        lines.append([f"`{function.name}`", f"{function.size:,}", found.loops, f"{found.vectors}, {found.vector_octets:,} octets", copies, *numbers])
    spent_on = ["loops", "vector instructions", "calls that copy or fill", "constants laid on the stack"]
    return table(["function", "code", *spent_on, "its frame", "stack with what it calls"], lines)


def written_functions():
    """How many functions the sources of the archive's crates have."""
    files = [file for name in CRATES for file in (ROOT / "crates" / name / "src").glob("*.rt")]
    return sum(len(re.findall(r'^(?:pub(?:\(crate\))? )?(?:extern "C" )?fn \w+', file.read_text(), re.M)) for file in files)


def copies_table():
    lines = []
    for name, *numbers in ran("copies", RADIO, "-Wl,--wrap=memcpy", "-Wl,--wrap=memset"):
        lines.append([f"`gorephan_{name}`: {' '.join(numbers[5:])}"] + [f"{int(n):,}" for n in numbers[:5]])
    return table(["one call", "calls of memcpy", "octets copied", "of these calls, of 176 octets", "calls of memset", "octets filled"], lines)


def wrapped(text):
    """A paragraph in lines of the documents' width."""
    lines = [""]
    for word in text.split():
        if len(lines[-1]) + 1 + len(word) > WIDTH:
            lines.append("")
        lines[-1] = f"{lines[-1]} {word}".strip()
    return "\n".join(lines)


def opening(compiler, version):
    return f"""What the C functions and the hearing of a PDU take of a machine, beside the same in plain C. `bench/sizes --write` measures it and writes this
    page; here with {compiler} and {version}."""


def measuring(archive):
    constants, merged, outside = archive.figures()["constants"], archive.merged(), " and ".join(archive.left_out(archive.functions.values()))
    return f"""Code is what stands in sections for code, constants in those for reading only; there are no variables. A linker puts equal constants of sixteen
    octets together: of the first line's {constants:,} that leaves {merged:,}. The stack is counted from the instructions, along the deepest chain of calls,
    with return addresses and what is written below the stack pointer; {outside}, which the archive's user gives, count 8 octets. A frame or call that cannot be
    told is an error, so the figure is a bound. The last column is what runs wrote to a stack filled with a pattern (bench/stack.c, bench/stack_hear.c): the
    three functions with four credentials and PDUs of 29 octets, `hear` with two segments that complete a message. The script refuses a run that is deeper
    than what was counted. `hear` is taken from the archive of crates/speed_c; the states that it is given and gives stand in its caller's memory and are not
    counted."""


def explaining(archive):
    functions = sorted(archive.functions.values(), key=lambda one: -one.size)
    code = archive.figures()["code"]
    laying = [f"`{function.name}`" for function in functions if spent(archive, function).laid == TABLE]
    table_said = f" {' and '.join(laying)} so make a copy of the S-box ({TABLE} octets) at each call." if laying else ""
    without = [f"`{function.name}`" for function in functions if not spent(archive, function).loops]
    traps = archive.traps(functions)
    bounds = "no instruction stops the program, where a failed test would lead"
    if traps:
        bounds = f"yet {traps} instructions stop the program or leave the archive otherwise"
    first, three = (100 * sum(one.size for one in functions[:count]) // code for count in (1, 3))
    return f"""The largest function has {first} in a hundred of the code, the three largest {three}. The sources of its crates have {written_functions()}
    functions, the archive {len(functions)}: the others were put into their callers, once for each call, or are not used. Where the source has more loops
    than the table, the compiler has unrolled them, or made copies or vector instructions of them. Without any left:
    {', '.join(without) or 'none'}. Constants laid on the stack are loaded into vector registers and stored there.{table_said} Bounds are proved and not
    tested: {bounds}."""


def brought_down(archive):
    now = archive.figures()["code"] + archive.figures()["constants"]
    return f"""Before document 02's W6 the archive had {BEFORE:,} octets of code and constants, {BEFORE - now:,} more than now: docs/changes/W6.md has what each
    change of shape took away, and docs/DECISIONS.md, "Speed", what they cost. What is left beside plain C is that values are handed on by copy, which makes
    every contract an equation between values, and that the compiler writes out loops over sixteen octets; plain C changes a buffer in place."""


def page(depths):
    archive = Archive(RADIO, OBJDUMP, depths)
    parts = [
        "# Code, constants and stack",
        wrapped(opening(run(GCC, "--version").splitlines()[0], run("rt", "version").strip())),
        figures_table(depths),
        wrapped(measuring(archive)),
        "## The radio archive by function",
        functions_table(archive),
        wrapped(explaining(archive)),
        wrapped(brought_down(archive)),
        "## What a call copies",
        wrapped(COPIES),
        copies_table(),
    ]
    return "\n\n".join(parts) + "\n"


def arguments():
    parser = argparse.ArgumentParser(prog="bench/sizes")
    parser.add_argument("--write", action="store_true")
    parser.add_argument("--archive", metavar="FILE")
    parser.add_argument("--from", dest="names", metavar="FUNCTION", action="append", default=[])
    parser.add_argument("--depth", metavar="FUNCTION=N", action="append", default=[])
    return parser.parse_args()


def depth(text):
    name, _, count = text.rpartition("=")
    if not name or not count.isdecimal() or not int(count):
        sys.exit(f"bench/sizes: --depth {text}: FUNCTION=N is wanted, N from 1")
    return name, int(count)


def figures(asked, depths):
    """One archive's figures in a line; variables only where there are any."""
    found = Archive(pathlib.Path(os.environ.get("CALLED_FROM", ".")) / asked.archive, OBJDUMP, depths).figures(asked.names)
    return " ".join(f"{name} {count}" for name, count in found.items() if count or name != "variables")


def built_page(depths):
    """The page, after building what it is of."""
    OUT.mkdir(parents=True, exist_ok=True)
    for name in ("radio", "speed"):
        subprocess.run(["bin/built", "--archive", name], cwd=ROOT, check=True)
    if not HANDHELD.is_file():
        sys.exit(f"bench/sizes: {HANDHELD.relative_to(ROOT)} is not there: bin/handheld builds it")
    return page(depths)


def main():
    asked = arguments()
    depths = {**DEPTHS, **dict(map(depth, asked.depth))}
    try:
        text = figures(asked, depths) + "\n" if asked.archive else built_page(depths)
    except (Unmeasured, ValueError, OSError) as why:
        sys.exit(f"bench/sizes: {why}")
    except subprocess.CalledProcessError as why:
        sys.exit(f"bench/sizes: {' '.join(why.cmd)} ended with status {why.returncode}\n{why.stdout or ''}")
    if asked.write and not asked.archive:
        PAGE.write_text(text)
    else:
        sys.stdout.write(text)


main()
