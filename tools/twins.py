#!/usr/bin/env python3
"""Lists functions of crates/*/src whose bodies are the same but for names, numbers and texts: likely twins.

Run it at the top of the repository. Bodies of 24 characters and less, so reduced, say nothing and are left out.
"""
import collections
import glob
import re

WORDS = {'match', 'if', 'else', 'for', 'in', 'let', 'mut', 'return', 'self', 'Ok', 'Err', 'Some', 'None', 'while'}


def body_end(text, start):
    depth = 0
    for place in range(start, len(text)):
        depth += {'{': 1, '}': -1}.get(text[place], 0)
        if depth == 0:
            return place + 1
    return len(text)


def body_start(text, start):
    """Clauses stand between a signature and its body, whose brace ends a line."""
    line = re.compile(r'\{[ \t]*$', re.M).search(text, start)
    return line.start() if line else None


def shape(body):
    body = re.sub(r'//.*', '', body)
    body = re.sub(r'\b0[xb][0-9a-f_]+|\b\d[\d_]*\b', 'N', body)
    body = re.sub(r'"[^"]*"', 'S', body)
    body = re.sub(r'\b[a-zA-Z_]\w*\b', lambda m: m.group(0) if m.group(0) in WORDS else 'x', body)
    return re.sub(r'\s+', '', body)


def functions():
    for path in sorted(glob.glob('crates/*/src/*.rt')):
        text = open(path, encoding='utf-8').read()
        for found in re.finditer(r'\bfn (\w+)', text):
            start = body_start(text, found.end())
            semicolon = text.find(';\n', found.end())
            if start is None or (0 <= semicolon < start and '{' not in text[found.end():semicolon].split('\n')[0]):
                continue
            yield path, found.group(1), shape(text[start:body_end(text, start)])


def main():
    groups = collections.defaultdict(list)
    for path, name, form in functions():
        if len(form) > 24:
            groups[form].append(f'{path}: {name}')
    twins = [group for group in groups.values() if len(group) > 1]
    for group in sorted(twins, key=len, reverse=True):
        print('; '.join(group))
    print(f'{len(twins)} groups, {sum(map(len, twins))} functions')


if __name__ == '__main__':
    main()
