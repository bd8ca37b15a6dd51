#!/usr/bin/env python3
"""The places of docs/DESIGN-PASS.md's eight points in the sources, found by their shape.

    tools/places.py [COMMIT] [POINT..]

Without COMMIT the work tree is read. Each place is a line; each point ends with its number of places. What a shape finds is looked at by eye: the
page says which of them are none.
"""
import re
import subprocess
import sys
from collections import defaultdict


def git(*words):
    return subprocess.run(['git', *words], check=True, capture_output=True, text=True).stdout


def sources(commit):
    if commit:
        names = [n for n in git('ls-tree', '-r', '--name-only', commit, 'crates').split('\n') if n]
        read = lambda name: git('show', f'{commit}:{name}')
    else:
        names = [n for n in git('ls-files', 'crates').split('\n') if n]
        read = lambda name: open(name, encoding='utf-8').read()
    return names, read


class Function:
    def __init__(self, file, line, name, parameters, result, requires, body):
        self.file, self.line, self.name = file, line, name
        self.parameters, self.result, self.requires, self.body = parameters, result, requires, body

    def __str__(self):
        return f'{self.file}:{self.line}: {self.name}'


def braced(text, at):
    """The end of the braces that open at `at`."""
    depth = 0
    for i in range(at, len(text)):
        depth += {'{': 1, '}': -1}.get(text[i], 0)
        if depth == 0:
            return i + 1
    return len(text)


HEAD = re.compile(r'^[ ]*(?:pub(?:\(crate\))? )?(?:const )?(?:extern "C" )?fn (\w+)(?:<[^>]*>)?\(', re.M)


def functions(file, text):
    bare = re.sub(r'//[^\n]*', '', text)
    for head in HEAD.finditer(bare):
        i = head.end() - 1
        depth = 0
        for j in range(i, len(bare)):
            depth += {'(': 1, ')': -1}.get(bare[j], 0)
            if depth == 0:
                break
        parameters = [re.sub(r'\s+', ' ', p).strip() for p in re.split(r',(?![^<\[(]*[>\])])', bare[i + 1:j]) if p.strip()]
        k = j + 1
        requires, result = [], ''
        arrow = re.match(r'\s*->\s*([^\n{]+)', bare[k:])
        if arrow:
            result = arrow.group(1).strip()
            k += arrow.end()
        while True:
            clause = re.match(r'\s*(requires|ensures)(?:\s+\w+)?\s*\{', bare[k:])
            if not clause:
                break
            start = k + clause.end() - 1
            end = braced(bare, start)
            if clause.group(1) == 'requires':
                requires.append(re.sub(r'\s+', ' ', bare[start + 1:end - 1]).strip())
            k = end
        opening = re.match(r'\s*\{', bare[k:])
        if not opening:
            continue
        start = k + opening.end() - 1
        line = bare.count('\n', 0, head.start() + len(head.group(0)) - len(head.group(0).lstrip())) + 1
        yield Function(file, line, head.group(1), parameters, result, requires, bare[start:braced(bare, start)])


def types(file, text):
    for head in re.finditer(r'^(?:pub(?:\(crate\))? )?(enum|struct) (\w+)[^{;]*\{', text, re.M):
        body = text[head.end():braced(text, head.end() - 1) - 1]
        body = re.sub(r'//[^\n]*', '', body)
        yield head.group(1), head.group(2), text.count('\n', 0, head.start()) + 1, body


NONE = re.compile(r'^\s*(None|Nothing|Nowhere|Refused|Unfit|NotHex|Cut|Past|Unsealed|Replayed|Wrong\w*|NotOpened|Unnamed|End|Fault|Stale|OutsideRules|ShortBuffer)\b', re.M)


def own_options(all_types, all_functions, texts):
    """1: enums with a case for what is not there or is refused, flags beside a value, numbers that stand for none or for a refusal."""
    for file, kind, name, line, body in all_types:
        if kind == 'enum' and NONE.search(body) and name not in ('Refusal', 'Unopened'):
            yield f'{file}:{line}: enum {name}'
        if kind == 'struct' and re.search(r'^\s*(?:pub )?(ok|fits|opened): bool', body, re.M):
            yield f'{file}:{line}: struct {name}, a flag'
        if kind == 'struct' and re.search(r'^\s*(?:pub )?answer: ', body, re.M):
            yield f'{file}:{line}: struct {name}, an answer beside a value'
    for file, text in texts.items():
        for n, row in enumerate(text.split('\n'), 1):
            if re.search(r'//.*\b([SD]RC|DST) 0 marks|//.*, or (the|their) number( of slots)?\.|//.*[:;] (8|16) where (none|it is none)|//.*, or 8\.', row):
                yield f'{file}:{n}: a number for none: {row.strip()}'
    for f in all_functions:
        if f.name == 'number' and f.result == 'u32' and len(f.parameters) == 1 and 'text' not in f.parameters[0]:
            yield f'{f}: the number of an answer'


def shape(body):
    words = re.findall(r'\w+|[^\w\s]', body)
    keep = {'let', 'mut', 'if', 'else', 'match', 'while', 'for', 'in', 'loop', 'break', 'return', 'true', 'false', 'as'}
    return ' '.join(w if w in keep or not re.match(r'\w', w) else ('1' if w[0].isdigit() else 'x') for w in words)


def twins(all_types, all_functions, texts):
    """2: functions of 25 words or more that are alike but for names, types and numbers; structs of the same fields."""
    alike = defaultdict(list)
    for f in all_functions:
        if f.file.split('/')[1] in ('radio_c', 'speed_c'):
            continue
        s = shape(f.body)
        if len(s.split()) >= 25:
            alike[s].append(f)
    for group in alike.values():
        if len(group) > 1:
            yield '; '.join(str(f) for f in group)
    same = defaultdict(list)
    for file, kind, name, line, body in all_types:
        if kind == 'struct':
            same[re.sub(r'\s+', ' ', re.sub(r'\bpub ', '', body)).strip()].append(f'{file}:{line}: struct {name}')
    for group in same.values():
        if len(group) > 1:
            yield '; '.join(group)


def loops(all_types, all_functions, texts):
    """3: while, and loop."""
    for f in all_functions:
        for word in re.findall(r'^\s*(while|loop)\b[^\n]*', f.body, re.M):
            yield f'{f}: {word}'


def by_hand(all_types, all_functions, texts):
    """4: yes and no case by case, equality and order field by field, octets of a number one by one."""
    for f in all_functions:
        arms = re.findall(r'=>\s*([^,\n]+)', f.body)
        if f.result == 'bool' and arms and sum(a.strip() in ('true', 'false') for a in arms) >= 2:
            yield f'{f}: case by case'
        elif f.result == 'bool' and len(re.findall(r'\w+\.\w+ (?:!=|==) \w+\.\w+', f.body)) >= 2:
            yield f'{f}: field by field'
        elif f.name in ('max', 'is_newer'):
            yield f'{f}: order'
        if len(re.findall(r'/ 256\b|\* 256\b|/ 8192\b', f.body)) >= 1 or re.search(r'256 \* ', f.body):
            yield f'{f}: octets of a number'


def together(all_types, all_functions, texts):
    """5: a fact in the requires of three or more functions of a crate; three parameters, or a buffer and a place, that three or more take."""
    facts = defaultdict(list)
    taking = defaultdict(list)
    for f in all_functions:
        crate = f.file.split('/')[1]
        for r in f.requires:
            for fact in re.split(r'\s×\s', r):
                facts[crate, fact.strip().strip('()')].append(f)
        taking[crate].append(frozenset(p for p in f.parameters if ':' in p))
    for (crate, fact), fs in sorted(facts.items()):
        if len(fs) >= 3:
            yield f'{crate}: {fact} ({len(fs)} functions)'
    for crate, sets in sorted(taking.items()):
        shared = {a & b for i, a in enumerate(sets) for b in sets[:i]}
        often = {}
        for group in shared:
            buffer = any(p.startswith('out: &mut [u8]') for p in group) and any(p.startswith('at: ') for p in group)
            count = sum(group <= s for s in sets)
            if count >= 3 and (len(group) >= 3 or buffer):
                often[group] = count
        for group, count in sorted(often.items(), key=lambda g: (-g[1], sorted(g[0]))):
            if not any(group < other and count == often[other] for other in often):
                yield f'{crate}: {", ".join(sorted(group))} ({count} functions)'


def beside(all_types, all_functions, texts):
    """6: a length with an array behind it; a search by halving; a buffer taken with a place in it."""
    for file, kind, name, line, body in all_types:
        if kind == 'struct':
            fields = re.findall(r'(\w+): ([^\n]+?),?\s*$', body, re.M)
            for (a, t), (b, u) in zip(fields, fields[1:]):
                if t == 'usize' and u.startswith('['):
                    yield f'{file}:{line}: struct {name}: {a}, {b}'
                if t.startswith('[') and u.startswith('[') and t.split(';')[-1] == u.split(';')[-1] and len(t.split(';')) > 1:
                    yield f'{file}:{line}: struct {name}: {a}, {b} side by side'
    for f in all_functions:
        if re.search(r'\(low \+ high\) / 2', f.body):
            yield f'{f}: a search by halving'


def switches(all_types, all_functions, texts):
    """7: a match of which each of four arms or more only calls a function; a flag that picks one of two functions."""
    for f in all_functions:
        arms = re.findall(r'=>\s*([\w:]+\([^\n]*\)),?\s*$', f.body, re.M)
        if len(arms) >= 4 and len(set(a.split('(')[0] for a in arms)) >= 4:
            yield f'{f}: {len(arms)} arms'
        if any(p.startswith('worked: bool') for p in f.parameters):
            yield f'{f}: a flag'


POINTS = [own_options, twins, loops, by_hand, together, beside, switches]


def proofs(names, read):
    """8: files and lines of proofs."""
    lines = defaultdict(int)
    answers = defaultdict(int)
    for n in names:
        if '/proofs/' in n and n.endswith('.antt'):
            crate = n.split('/')[1]
            lines[crate] += read(n).count('\n')
            if n.endswith('/Answers.antt'):
                answers[crate] += 1
    for crate in sorted(lines):
        yield f'{crate}: {lines[crate]} lines, {answers[crate]} files of answers'
    yield f'all: {sum(lines.values())} lines, {sum(answers.values())} files of answers'


def main():
    words = sys.argv[1:]
    commit = words.pop(0) if words and not words[0].isdigit() else None
    wanted = [int(w) for w in words] or list(range(1, 9))
    names, read = sources(commit)
    texts = {n: read(n) for n in names if '/src/' in n and n.endswith('.rt')}
    all_functions = [f for n, t in texts.items() for f in functions(n.removeprefix('crates/').replace('/src/', '/') and n, t)]
    all_types = [(n, *rest) for n, t in texts.items() for rest in types(n, t)]
    for number in wanted:
        if number == 8:
            print('8.', proofs.__doc__.split(': ', 1)[1])
            for place in proofs(names, read):
                print('  ', place)
            continue
        point = POINTS[number - 1]
        places = list(point(all_types, all_functions, texts))
        print(f'{number}. {point.__doc__.split(": ", 1)[1]}')
        for place in places:
            print('  ', place)
        print(f'   {len(places)} places')


main()
