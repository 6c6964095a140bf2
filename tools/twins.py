#!/usr/bin/env python3
"""Functions of crates/*/src whose bodies are the same but for names of types, numbers, texts and what they call: python3 tools/twins.py"""
import pathlib
import re
from collections import defaultdict


def functions(text):
    for head in re.finditer(r'^( *)(?:pub )?(?:extern "C" )?fn (\w+)', text, re.M):
        opening = re.compile(r'^' + head.group(1) + r'(?:\{|.*\{)$', re.M).search(text, head.end())
        closing = re.compile(r'^' + head.group(1) + r'\}$', re.M).search(text, head.end())
        if opening and closing and opening.end() < closing.start():
            yield head.group(2), text[opening.end():closing.start()]


def shape(body):
    body = re.sub(r'//.*', '', body)
    body = re.sub(r'b?"(?:\\.|[^"\\])*"|b?\'(?:\\.|[^\'\\])\'', '"', body)
    body = re.sub(r'\b(?!let\b|mut\b|if\b|else\b|match\b|while\b|for\b|in\b|return\b)\w+', 'x', body)
    return re.sub(r'\s+', '', body)


twins = defaultdict(list)
for path in sorted(pathlib.Path('crates').glob('*/src/**/*.rt')):
    for name, body in functions(path.read_text()):
        if len(body.split('\n')) > 4:
            twins[shape(body)].append(f'{path}: {name}')
groups = [names for names in twins.values() if len(names) > 1]
for names in groups:
    print('\n'.join(names) + '\n')
print(len(groups), 'groups of', sum(map(len, groups)), 'functions')
