#!/usr/bin/env python3
"""Brings the repository's own definitions to the spelling of today's Rattle: words in snake case.

    python3 tools/respell.py [FOLDER]

Run once, after port.py, at the top of the repository (or on FOLDER). Each lower-case name with a capital in it (`gateAt`) that a file of
specs/ or proofs/ declares is written in snake case (`gate_at`) wherever it stands: in .antt files, in clauses and comments of .rt files, in
must-fail edits, and in README and docs/. Functions and fields of src/, types and modules keep their names: none of these functions and
fields has a capital in its name. Fields of records of specs/ and proofs/ are spelled like definitions. Where a lemma already had the name that
a definition takes now, the lemma gets `_lem` after it.
"""
import collections, glob, os, re, sys

TOP = sys.argv[1] if len(sys.argv) > 1 else '.'
# lemmas that a definition's new name falls together with
LEMMAS = ['add_step', 'choose_word', 'each_step', 'each_word', 'join_step', 'pair_line', 'pair_row', 'pair_step', 'place_at', 'read_word',
          'row_step', 'write_step', 'asks_of']

# names that port.py has turned where they are declared: in edits and papers they still stand in the old spelling
TURNED = ['aboveOf', 'andAll', 'blockedOf', 'knownOf', 'madeBy', 'numberOf', 'roomFor', 'sextWord', 'slotAt', 'valueOf', 'rmU']

def files(*patterns):
    return sorted(f for p in patterns for f in glob.glob(os.path.join(TOP, p), recursive=True) if '/out/' not in f)

ANTT = files('crates/*/specs/**/*.antt', 'crates/*/proofs/**/*.antt')
TEXTS = files('crates/*/src/**/*.rt', 'crates/*/must-fail/*.edit', 'README.md', 'docs/*.md', 'docs/landings/*.md')
HEAD = re.compile(r"^\s*(?:(?:pub|abbrev|unfoldable|data|record)\s+)*([^\s:(){}=,;.]+)(\s*\{[^}]*\})?\s*(\([^)]*\)\s*)*:")

def snake(name):
    return re.sub(r'(?<=[a-z0-9])([A-Z])', lambda m: '_' + m.group(1).lower(), name)

def main():
    declared = set()
    for f in ANTT:
        for line in open(f):
            m = HEAD.match(line)
            if m:
                declared.add(m.group(1))
    names = {n: snake(n) for n in declared if re.match(r'[a-z]', n) and re.search(r'[a-z0-9][A-Z]', n) and '-' not in n}
    for n in TURNED:
        names[n] = snake(n)
    by_new = collections.Counter(names.values())
    assert all(k == 1 for k in by_new.values()), [n for n, k in by_new.items() if k > 1]
    changed = 0
    for f in ANTT + TEXTS:
        old = open(f).read()
        text = old
        if f.endswith('.antt'):
            # a lemma, and not a function's module: no dot beside it
            for lemma in LEMMAS:
                text = re.sub(r"(?<![\w.'-])" + lemma + r"(?![\w.'-])", lemma + '_lem', text)
        # an identifier whole: what stands beside a dash is a name of its own
        text = re.sub(r"(?<![\w'])[a-z][A-Za-z0-9]*[A-Z][A-Za-z0-9]*(?![\w'])", lambda m: names.get(m.group(0), m.group(0)), text)
        if text != old:
            open(f, 'w').write(text)
            changed += 1
    print(f'respell: {len(names)} names, {changed} files')

main()
