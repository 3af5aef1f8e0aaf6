#!/usr/bin/env python3
"""Spells the repository's own definitions, lemmas, fields and constructors in snake case, once, behind port.py.

usage: tools/respell.py ROOT [--list]

Types, and functions into Type, keep their capitals; so do the words that the published meaning writes in capitals. Names of a library keep
their spelling. A name that would meet another one is named and left.
"""
import os
import re
import sys

CUT = r'[^\s(){}\[\].;,@"«»|]+'
MARKS = r'(?:pub |abbrev |unfoldable |pattern |data |record )*'
DECLARED = re.compile(r'(?m)^ *' + MARKS + r'((?:' + CUT + r' )*?' + CUT + r')(?: \{[^{}\n]*\})*(?: \([^()\n]*\))*(?: \{[^{}\n]*\})* : ')
BINDER = re.compile(r'[({]((?:' + CUT + r' )*' + CUT + r') : ')
LET = re.compile(r'\blet (' + CUT + r')(?: :| =)')
LAMBDA = re.compile(r'λ ((?:' + CUT + r' )*' + CUT + r')\.')
OWN = re.compile(r'(?m)^((?:pub |ghost )*use (?:Rattle\.(?:' + '%s' + r')\.)?)')
USE = re.compile(r'(?m)^\s*(?:pub |ghost )*use ([^\s;{]+?)\.?(?:\{([^}]*)\})?;?\s*$')
# Lemmas whose names were in snake case already, beside a definition that comes to that name.
MET = ['after_minus', 'any_name', 'by_lengths', 'row_words', 'rows_before', 'same_row', 'step_words']


def texts(root):
    for d, ds, fs in os.walk(os.path.join(root, 'crates')):
        ds[:] = sorted(x for x in ds if x not in ('out', '.git'))
        for f in sorted(fs):
            if f.endswith(('.antt', '.rt')):
                yield os.path.join(d, f)


def snake(name):
    if not name or not (name[0].islower() or name[0] in '◌') or '·' in name:
        return name
    out = re.sub(r'(?<=[a-z0-9])[A-Z]+', lambda m: '_' + m.group(0).lower(), name)
    return out.replace('-', '_')


def is_name(word):
    return re.fullmatch(r"[a-z][A-Za-z0-9_'₀-₉-]*", word) is not None


def free(word):
    return re.compile(r'(?<![^\s(){}\[\],;@|])%s(?![^\s(){}\[\].,;|])' % re.escape(word))


def main():
    root = sys.argv[1]
    crates = sorted(os.listdir(os.path.join(root, 'crates')))
    declared, library, tokens = set(), set(), {}
    for path in texts(root):
        text = open(path, encoding='utf-8').read()
        for m in USE.finditer(text):
            own = re.match(r'Rattle\.(%s)\.' % '|'.join(crates), m.group(1) + '.')
            if path.endswith('.rt') and 'ghost use' not in m.group(0):
                continue
            if not own and m.group(2):
                library.update(w.strip().split(' as ')[0] for w in m.group(2).split(','))
        if path.endswith('.antt'):
            for rule in (DECLARED, BINDER, LAMBDA):
                for m in rule.finditer(text):
                    declared.update(m.group(1).split(' '))
            declared.update(LET.findall(text))
        tokens[path] = set(re.findall(CUT, text))
    table = {w: snake(w) for w in declared if is_name(w) and w not in library and snake(w) != w}
    every = set().union(*tokens.values())
    back = {}
    for w, s in table.items():
        back.setdefault(s, []).append(w)
    for s, ws in sorted(back.items()):
        # A lemma that would have its definition's name ends in _lem.
        for w in sorted(ws):
            if '-' in w and (len(ws) > 1 or s in declared):
                table[w] = s + '_lem'
                print('look: %s -> %s beside %s' % (w, table[w], ', '.join(x for x in ws + [s] * (s in declared) if x != w)))
        if len([w for w in ws if '-' not in w]) > 1:
            print('left: %s meet in %s' % (', '.join(sorted(ws)), s))
    for w, s in sorted(table.items()):
        if s in library:
            print('left: %s -> %s is a library name' % (w, s))
        for path, words in sorted(tokens.items()):
            if path.endswith('.antt') and w in words and s in words:
                text = open(path, encoding='utf-8').read()
                found = re.findall(r"(?<![^\s(){}\[\],;@|])%s(?![^\s(){}\[\].,;|])" % re.escape(s), text)
                if found:
                    print('meet: %s -> %s in %s (%d)' % (w, s, os.path.relpath(path, root), len(found)))
    if '--list' in sys.argv:
        for w in sorted(table):
            print('%s\t%s' % (w, table[w]))
        return
    for path in texts(root):
        text = open(path, encoding='utf-8').read()
        new = text
        if path.endswith('.antt'):
            for w in MET:
                if re.search(r'(?m)^ *(?:pub )?%s :|^use [^\n]*\{[^}\n]*\b%s\b' % (w, w), text):
                    new = free(w).sub(w + '_lem', new)
            # A local name that a definition would come to.
            for w, s in table.items():
                if w in tokens[path] and re.search(r'\blet %s =' % re.escape(s), new):
                    new = free(s).sub('the_' + s, new)
        new = re.sub(CUT, lambda m: table.get(m.group(0), m.group(0)), new)
        if new != text:
            open(path, 'w', encoding='utf-8').write(new)


main()
