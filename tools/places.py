#!/usr/bin/env python3
"""Lists the places in src/ that could read in a newer form of the language, point by point.

    tools/places.py [--root DIR] [--list] [POINT]

With no --list it prints a count for each rule, and in the last column how many crates have such a place. It goes by text: a place that
it lists is one to read, not yet one to change. --root DIR reads another checkout."""
import argparse
import collections
import glob
import os
import re


def files(root):
    for path in sorted(glob.glob(os.path.join(root, 'crates/*/src/**/*.rt'), recursive=True)):
        yield os.path.relpath(path, root), open(path, encoding='utf-8').read()


def lines_with(root, pattern, skip=None):
    """(file:line, text) of each line of code that fits."""
    found = []
    for path, text in files(root):
        for i, line in enumerate(text.split('\n'), 1):
            code = line.strip()
            if code.startswith('//') or code.startswith('ghost use') or code.startswith('use '):
                continue
            if re.search(pattern, code) and not (skip and re.search(skip, code)):
                found.append((f'{path}:{i}', code))
    return found


def functions(root):
    """(file:line, name, parameters, clauses, body) of each function that has a body."""
    for path, text in files(root):
        for m in re.finditer(r'^( *)(?:pub(?:\([a-z]+\))? )?fn (\w+)', text, re.M):
            indent = m.group(1)
            start = text.index('(', m.end())
            depth, i = 0, start
            while True:
                depth += text[i] == '('
                depth -= text[i] == ')'
                i += 1
                if depth == 0:
                    break
            params = re.sub(r'\s+', ' ', text[start + 1:i - 1]).strip().rstrip(',')
            open_ = re.compile(r'^(?:' + indent + r'\{|.*[^\n]\{)[ ]*$', re.M)
            head = re.match(r'[^\n]*', text[i:]).group(0)
            if head.rstrip().endswith(';') and '{' not in head:
                continue
            if head.rstrip().endswith('{'):
                clauses, body_at = '', i + len(head)
            else:
                b = re.search(r'\n' + indent + r'\{\n', text[i:])
                if not b:
                    continue
                clauses, body_at = text[i:i + b.start()], i + b.end()
            end = re.search(r'\n' + indent + r'\}', text[body_at:])
            if not end:
                continue
            body = text[body_at:body_at + end.start()]
            yield f'{path}:{text.count(chr(10), 0, m.start()) + 1}', m.group(2), params, clauses, body


def option_like(root):
    """Enums of two or three variants, one of which holds one value and the others nothing, or two that hold one each."""
    found = []
    for path, text in files(root):
        for m in re.finditer(r'enum (\w+)[^{\n]*\{\n(.*?)\n\}', text, re.S):
            variants = [v.strip() for v in m.group(2).split('\n') if v.strip() and not v.strip().startswith('//')]
            holds = [v for v in variants if re.fullmatch(r'\w+\([^,()]*\),?', v)]
            bare = [v for v in variants if re.fullmatch(r'\w+,?', v)]
            if len(holds) + len(bare) == len(variants) and 1 <= len(holds) <= 2 and len(variants) in (2, 3):
                found.append((path, m.group(1)))
    return found


def shape(body):
    """A body with names and literals taken out."""
    body = re.sub(r'//[^\n]*', '', body)
    words = re.findall(r'b?"[^"]*"|b?\'[^\']\'|\w+|[^\s\w]', body)
    keep = {'for', 'while', 'if', 'else', 'match', 'let', 'mut', 'return', 'in', 'as', 'Some', 'None', 'Ok', 'Err', 'self'}
    return ' '.join(w if w in keep or not re.match(r'[\w"\']', w) else '_' for w in words)


def twins(root):
    """Functions whose bodies have one shape."""
    by = collections.defaultdict(list)
    for at, name, _params, _clauses, body in functions(root):
        s = shape(body)
        if len(s.split()) >= 16:
            by[s].append((at, name))
    return [(at, name) for group in by.values() if len(group) > 1 for at, name in group]


def delegates(root):
    """Functions that only call one other function of their crate with their own parameters."""
    all_ = list(functions(root))
    names = collections.defaultdict(set)
    for at, name, *_ in all_:
        names[at.split('/')[1]].add(name)
    found = []
    for at, name, params, _clauses, body in all_:
        m = re.fullmatch(r'\s*(?:\*self = )?(?:self\.|Self::)?(\w+)(?:::<\w+>)?\(([\w&,. ]*)\);?\s*', body)
        if not m or m.group(1) not in names[at.split('/')[1]] or m.group(1) == name:
            continue
        own = [p.split(':')[0].strip().lstrip('&').replace('mut ', '') for p in params.split(',') if p.strip()]
        given = [g.strip().lstrip('&') for g in m.group(2).split(',') if g.strip()]
        if 'self' in own and 'self.' in body:
            given = ['self'] + given
        if sorted(own) == sorted(given):
            found.append((at, f'{name} -> {m.group(1)}'))
    return found


def repeated_clauses(root):
    """Clauses that stand in three or more functions of a crate, with parameters' names as they are."""
    by = collections.defaultdict(list)
    for at, name, _params, clauses, _body in functions(root):
        for kind, text in re.findall(r'(requires|ensures)(?: \w+)? \{ (.*?) \}\n', clauses + '\n'):
            if kind == 'requires':
                by[(at.split('/')[1], kind, text)].append((at, name))
    return [(at, f'{name}: {key[2]}') for key, group in by.items() if len(group) > 2 for at, name in group]


def repeated_words(root):
    """Clauses that spell a coding by its four members."""
    return lines_with(root, r'coding_of K\.wide')


def travelling(root):
    """Functions with a pair of parameters that stands in three or more functions of the crate."""
    by = collections.defaultdict(list)
    for at, name, params, _clauses, _body in functions(root):
        parts = [re.sub(r'\s+', ' ', p).strip() for p in re.split(r',(?![^<(\[]*[>)\]])', params) if ':' in p]
        parts = [p for p in parts if not re.match(r'(rt|heap|f): ', p)]
        for i, a in enumerate(parts):
            for b in parts[i + 1:]:
                by[(at.split('/')[1], a, b)].append((at, name))
    found = {}
    for (crate, a, b), group in by.items():
        if len(group) > 2:
            for at, name in group:
                found.setdefault((at, name), []).append(f'({a}, {b})')
    return [(at, f'{name} {pairs[0]}') for (at, name), pairs in sorted(found.items())]


def switches(root):
    """Matches on a state that three or more functions of the crate match on."""
    by = collections.defaultdict(list)
    for at, name, _params, _clauses, body in functions(root):
        for m in re.finditer(r'match (?:\*?&?\w+\.)(\w+) \{', body):
            by[(at.split('/')[1], m.group(1))].append((at, f'{name}: match {m.group(1)}'))
    return [hit for group in by.values() if len(group) > 2 for hit in group]


def proofs(root, name):
    found = []
    for path in sorted(glob.glob(os.path.join(root, f'crates/*/proofs/**/{name}.antt'), recursive=True)):
        found.append((os.path.relpath(path, root), str(open(path, encoding='utf-8').read().count('\n')) + ' lines'))
    return found


def lemma_lines(root):
    found = []
    for path in sorted(glob.glob(os.path.join(root, 'crates/*/proofs/*.antt'))):
        text = open(path, encoding='utf-8').read()
        for m in re.finditer(r'^pub (\w[^\s:]*) :', text, re.M):
            found.append((os.path.relpath(path, root), m.group(1)))
    return found


def casts(root):
    return lines_with(root, r'\bas (u8|u16|u32|u64|u128|usize|char)\b')


RULES = [
    (1, 'enums of the shape of Option or Result', option_like),
    (1, 'numbers for refusals', lambda r: lines_with(r, r'Refusal\(u8\)|match number|number: u8,?$')),
    (1, 'flags or sentinels beside a value', lambda r: lines_with(r, r'^(pub )?\w+: \[bool; \d+\],|depth\[.*\] == 0|joined: u16|parent: 0|Some\(0\)')),
    (2, 'bodies of one shape', twins),
    (2, 'functions that only call another of the crate', delegates),
    (3, 'index loops', lambda r: lines_with(r, r'^for \w+ in [^{]*\.\.')),
    (3, 'while loops', lambda r: lines_with(r, r'^while ')),
    (3, 'counters by hand', lambda r: lines_with(r, r'\+= 1;|-= 1;|= \w+\.(saturating|wrapping)_add\(1\)')),
    (4, 'comparison by key', lambda r: lines_with(r, r'\.key\(\)|\.same\(')),
    (4, 'bytes of a number by hand', lambda r: lines_with(r, r'(/|%|\*) (256|65536|4294967296)\b|256 \*|byte - 32')),
    (4, 'casts', casts),
    (4, 'Some of what a Some held', lambda r: lines_with(r, r'Some\(.*\) => Some\(|None => None,')),
    (4, 'texts made by hand', lambda r: lines_with(r, r'fn \w*(_text|write_\w+)\b|fn text\(|struct LayerName|fn joined')),
    (4, 'fields copied one by one', lambda r: lines_with(r, r'^(\w+): (self|line|grading|left|right)\.\1,')),
    (5, 'requires that three functions share', repeated_clauses),
    (5, 'clauses that spell a coding by four members', repeated_words),
    (5, 'functions with parameters that travel together', travelling),
    (6, 'arrays of a fixed length as parameters or fields', lambda r: lines_with(r, r'^(\w+|pub \w+): (&mut |&)?\[[^\]]*; \d+\],|fn .*\[\w+; \d+\]')),
    (6, 'arrays on the stack', lambda r: lines_with(r, r'= \[[^\]]*; \d+\];')),
    (6, 'indices for links', lambda r: lines_with(r, r'parent: u16|joined: u16|up: &|-> u16$')),
    (7, 'matches on one state in three functions', switches),
    (8, 'Answers.antt', lambda r: proofs(r, 'Answers')),
    (8, 'Invariants.antt', lambda r: proofs(r, 'Invariants')),
    (8, 'lemmas that proofs share', lemma_lines),
]


def main():
    args = argparse.ArgumentParser()
    args.add_argument('--root', default=os.path.join(os.path.dirname(os.path.abspath(__file__)), '..'))
    args.add_argument('--list', action='store_true')
    args.add_argument('point', nargs='?', type=int)
    given = args.parse_args()
    for point, title, rule in RULES:
        if given.point not in (None, point):
            continue
        hits = rule(given.root)
        crates = len({at.split('/')[1] for at, _ in hits})
        print(f'{point} {title}: {len(hits)} ({crates} crates)')
        if given.list:
            for at, what in hits:
                print(f'    {at}  {what}')


if __name__ == '__main__':
    main()
