#!/usr/bin/env python3
"""Spells the repository's own definitions, lemmas and fields in snake case: `hasBit` becomes `has_bit`, `with-of-set` becomes `with_of_set`.

usage: tools/respell.py               once, at the top of the repository, behind port.py
       tools/respell.py --anyway      although names fall together: after a look at those that it lists
       tools/respell.py --table       prints each name that turns, and what to

A name turns if a file of specs/ or a lemma file of proofs/ declares it. Types, modules and constructors keep their capitals. Functions of src/, exported
C names, strings, inputs and outputs keep their names. In a function's own proof what the check made keeps its name. A comment's words turn in code
spans, where they head a line of a table, and where they are spelled with a capital inside. Names that fall together are listed, and nothing is written.
"""
import collections
import glob
import os
import re
import sys

WORD = re.compile(r'[^\s(){}.;,@"«»]+')
DECL = re.compile(r"(?m)^ *(?:(?:pub|abbrev|unfoldable|data|record|opaque|private) +)*([^\s(){}.;,@\"«»:]+)(?: \{[^{}\n]*\})* :(?=\s|$)")
COMMENT = re.compile(r"--[^\n]*")
BINDER = re.compile(r"[({]([\w'′₀-₉-]+(?: [\w'′₀-₉-]+)*) :(?=\s)")
RULESET = re.compile(r"(?m)^ *(?:pub +)?ruleset +([^\s=]+) =")
ROW = re.compile(r"^( *(?:--|//)   )(\S.*?)( {2,})(\S.*)$")
# A name that would fall together with a definition, and that is no lemma.
NAMED = {"in_use": "told_in_use"}
# Two names whose words a script does not tell apart.
APART = {"xPower": "x_power", "segNAs": "seg_n_as"}
OWN = ("Proof.antt", "Answers.antt", "Invariants.antt")


def function_file(path):
    """Whether path is a file of a function's own proof."""
    return os.path.basename(path) in OWN and path.count("/") > 3


def snake(name):
    if name in APART:
        return APART[name]
    words = re.sub(r"(?<=[a-z0-9])[A-Z]", lambda m: "_" + m[0].lower(), name)
    return words.replace("-", "_")


def table():
    names, bound = set(), set()
    for path in glob.glob("crates/*/specs/**/*.antt", recursive=True) + glob.glob("crates/*/proofs/**/*.antt", recursive=True):
        if function_file(path):
            continue
        text = COMMENT.sub("", open(path, encoding="utf-8").read())
        names |= {m[1] for m in DECL.finditer(text)} | set(RULESET.findall(text))
        bound |= {w for m in BINDER.finditer(text) for w in m[1].split()}
    turn = {}
    for n in sorted(names | bound):
        if n in APART or "-" in n.strip("-") and re.fullmatch(r"[\w′'₀-₉-]+", n) or re.fullmatch(r"[a-z]\w*[a-z0-9][A-Z]\w*", n):
            turn[n] = snake(n)
    apart(names, turn)
    return names, turn


def apart(names, turn):
    """Of names that would fall together a definition keeps the plain spelling, and a lemma gets `_law` behind it."""
    meet = collections.defaultdict(set)
    for old, new in turn.items():
        meet[new].add(old)
    for new, olds in sorted(meet.items()):
        camels = {o for o in olds if "-" not in o}
        if new in names and camels:
            turn[new] = NAMED.get(new, new + "_law")
        if new in names or camels:
            for old in olds - camels:
                turn[old] = NAMED.get(old, new + "_law")


def words(text, turn):
    return WORD.sub(lambda m: turn.get(m[0], m[0]), text)


def spans(text, turn):
    """A comment's or a page's code spans."""
    return re.sub(r"`[^`\n]+`", lambda m: code(m[0], turn), text)


def code(text, turn):
    return re.sub(r"[\w′'₀-₉][\w′'₀-₉-]*", lambda m: turn.get(m[0], m[0]), text)


def camel(text, turn):
    return re.sub(r"(?<![\w-])[a-z]\w*[A-Z]\w*(?![\w-])", lambda m: turn.get(m[0], m[0]), text)


def comment(line, turn):
    line = camel(spans(line, turn), turn)
    m = ROW.match(line)
    if m:
        head = code(m[2], turn)
        line = m[1] + head + m[3] + m[4]
    return line


def align(lines):
    """The rows of a comment's table get one column."""
    out, i = [], 0
    while i < len(lines):
        j = i
        rows = []
        while j < len(lines) and ROW.match(lines[j]):
            rows.append(ROW.match(lines[j]))
            j += 1
        if len(rows) > 1:
            wide = max(len(m[2]) for m in rows) + 3
            starts = {len(m[1]) + len(m[2]) + len(m[3]) for m in rows}
            if len(starts) > 1:
                out += [m[1] + m[2].ljust(wide) + m[4] for m in rows]
                i = j
                continue
        out += lines[i:max(j, i + 1)]
        i = max(j, i + 1)
    return out


def antt(text, turn, own):
    out = []
    for line in text.split("\n"):
        at = re.search(r"(?:^|(?<=\s))--(?=\s|$)", line)
        body, rest = (line[: at.start()], line[at.start() :]) if at else (line, "")
        if own:
            body = own_words(body, turn)
        else:
            body = words(body, turn)
        out.append(body + comment(rest, turn))
    return "\n".join(align(out))


def own_words(body, turn):
    """A function's own proof: what stands behind tie. and goal. is the check's."""
    parts = re.split(r"((?<![^\s(){};,])(?:tie|goal)\.[^\s(){}.;,@\"]+)", body)
    return "".join(p if i % 2 else words(p, turn) for i, p in enumerate(parts))


RUST = re.compile(r'(?P<comment>//[^\n]*)|(?P<string>b?"(?:\\.|[^"\\])*")|(?P<word>[A-Za-z_][\w′\']*(?:-[\w′\']+)*)|(?P<other>.)', re.S)


def rust(text, turn):
    def one(m):
        if m["comment"]:
            return comment(m[0], turn)
        if m["word"]:
            return turn.get(m[0], m[0])
        return m[0]

    return "\n".join(align(RUST.sub(one, text).split("\n")))


def page(text, turn):
    out = []
    fenced = False
    for line in text.split("\n"):
        if line.startswith("    ") or fenced:
            out.append(code(line, turn))
        else:
            out.append(spans(line, turn))
        if line.lstrip().startswith("```"):
            fenced = not fenced
    return "\n".join(out)


def main():
    names, turn = table()
    bad = collections.defaultdict(set)
    for old, new in turn.items():
        bad[new].add(old)
        if new in names and new not in turn:
            bad[new].add(new)
    together = {n: o for n, o in bad.items() if len(o) > 1}
    files = glob.glob("crates/*/specs/**/*.antt", recursive=True) + glob.glob("crates/*/proofs/**/*.antt", recursive=True) + glob.glob("crates/*/src/**/*.rt", recursive=True)
    clash = []
    for path in files:
        text = open(path, encoding="utf-8").read()
        seen = collections.defaultdict(set)
        for w in WORD.findall(COMMENT.sub("", text)):
            if w in turn:
                seen[turn[w]].add(w)
        for w in WORD.findall(COMMENT.sub("", text)):
            if w in seen and w not in turn:
                seen[w].add(w)
        clash += [(path, n, o) for n, o in seen.items() if len(o) > 1]
    if "--table" in sys.argv:
        for old in sorted(turn):
            print(old, turn[old], sep="\t")
        return 0
    if together or clash:
        for n, o in sorted(together.items()):
            print("together:", n, *sorted(o))
        for path, n, o in clash:
            print("clash:", path, n, *sorted(o))
        if "--anyway" not in sys.argv:
            return 1
    for path in files:
        text = open(path, encoding="utf-8").read()
        new = antt(text, turn, function_file(path)) if path.endswith(".antt") else rust(text, turn)
        if new != text:
            open(path, "w", encoding="utf-8").write(new)
    for path in ["README.md"] + [p for p in glob.glob("docs/*.md") if os.path.basename(p) != "PORT.md"]:
        text = open(path, encoding="utf-8").read()
        new = page(text, turn)
        if new != text:
            open(path, "w", encoding="utf-8").write(new)
    return 0


if __name__ == "__main__":
    raise SystemExit(main())
