#!/usr/bin/env python3
"""respell: brings the repository's own definitions and lemmas to one spelling. Run once, at the repository's root.

A name of a value, a lemma, a field or a constructor goes into snake case: fourBitLength is four_bit_length. A dash is
kept between two names, as in length-padded, and is an underscore before a plain word, as in no_form. Types, and
definitions that are types, keep their capitals. Names of functions of src/ keep their spelling, and so do the names of
goals, of types' parts that the sources declare, of files and of folders. Names in backquotes in docs/ and README.md
follow. It says where two names fall together and then writes nothing.
"""
import glob
import os
import re
import sys

NAME = r"[A-Za-z_][A-Za-z0-9_'′]*(?:-[A-Za-z0-9_'′]+)*"
TOKEN = re.compile(NAME)
# plain words that are names of the library, between which a dash stays
LIBRARY = {'length', 'take', 'drop', 'append', 'cons', 'set', 'cond', 'some', 'none'}
# names that another name of the same file has already
CHOSEN = {'digitValue': 'value_of_digit'}
# goals of proofs, and what the toolchain names
GOAL = re.compile(r'^(returns|invariant|decreases|loop|overflow|bounds|slice|then|else|offset|nonzero)[-_]|-requires|-preserved|-init$|-smaller$')


def files(*patterns):
    return sorted(f for p in patterns for f in glob.glob(p, recursive=True))


def declared():
    """The names that specs/ and proofs/ declare: values and lemmas, and apart from them types."""
    values, types = {}, set()
    for f in files('crates/*/specs/**/*.antt', 'crates/*/proofs/**/*.antt'):
        answers = os.path.basename(f) in ('Answers.antt', 'Invariants.antt', 'Proof.antt')
        inside = False
        for line in open(f, encoding='utf-8'):
            line = line.rstrip('\n')
            if not line or line.startswith('--'):
                continue
            words = line.split()
            if line[0] != ' ':
                inside = False
                head = [w for w in words if w not in ('abbrev', 'unfoldable', 'pub')]
                if head[0] in ('use', 'mod', 'module'):
                    continue
                if head[0] in ('data', 'record'):
                    types.add(head[1])
                    inside = True
                    continue
                if words[0] in ('abbrev', 'unfoldable', 'pub') or (len(head) > 1 and ':' in head):
                    if answers and 'pub' in words[:2]:
                        continue
                    (types.add if head[0][0].isupper() else lambda n: values.setdefault(n, set()).add(f))(head[0])
            else:
                # a field, a constructor, or a name that a module inside the file declares
                m = re.match(r'\s+(?:(?:abbrev|unfoldable|pub) )*(' + NAME + r')(?: [({].*)? :', line)
                if m and (inside or '=' not in line) and m.group(1)[0].isupper():
                    types.add(m.group(1))
                elif m and (inside or '=' not in line):
                    values.setdefault(m.group(1), set()).add(f)
    return values, types


def snake(word):
    return re.sub(r'(?<=[a-z0-9])([A-Z])', lambda m: '_' + m.group(1).lower(), word)


def respelt(name, names):
    parts = [snake(p) for p in name.replace('′', "'").split('-')]
    out = parts[0]
    for before, part in zip(parts, parts[1:]):
        out += ('-' if before in names and part in names else '_') + part
    return out if out == name else respelt(out, names)


def main():
    values, types = declared()
    names = {snake(n) for n in values if '-' not in n} | {snake(t[0].lower() + t[1:]) for t in types} | LIBRARY
    mapped = {n: respelt(n, names) for n in values if not GOAL.search(n)}
    mapped = {n: m for n, m in mapped.items() if n != m}
    # names that only occur inside, of variables and of parameters
    antt = files('crates/*/specs/**/*.antt', 'crates/*/proofs/**/*.antt')
    for f in antt:
        for line in open(f, encoding='utf-8'):
            if line.lstrip().startswith('use '):
                continue
            for n in TOKEN.findall(line.split('--')[0]):
                if re.match(r"^[a-z][a-z0-9]*[A-Z]", n) and not GOAL.search(n) and '-' not in n:
                    mapped.setdefault(n, snake(n))
    mapped.update({n: m for n, m in CHOSEN.items() if n in mapped})
    clash = []
    for f in antt:
        text = open(f, encoding='utf-8').read()
        # the path of a use line names folders, which stay as they are
        tokens = set(TOKEN.findall(re.sub(r'(?m)^use Rattle[^{\n]*', '', text)))
        clash += [(f, n) for n in sorted(tokens & set(mapped)) if mapped[n] in tokens]
        clash += [(f, n, o) for n in sorted(tokens) for o in sorted(tokens) if n < o and n in mapped and mapped[n] == mapped.get(o)]
    for c in clash:
        print('falls together:', *c)
    if '--list' in sys.argv:
        for n, m in sorted(mapped.items()):
            print(n, m)
    if clash or '--write' not in sys.argv:
        return
    change = lambda text: TOKEN.sub(lambda m: mapped.get(m.group(0), m.group(0)), text)
    for f in antt + files('crates/*/src/**/*.rt', 'crates/*/must-fail/*.edit', 'docs/*.md', 'README.md'):
        text = open(f, encoding='utf-8').read()
        if f.endswith('.md'):
            new = re.sub(r'`[^`\n]+`', lambda m: change(m.group(0)), text)
        elif f.endswith('.rt'):
            # a name of the sources in snake case has no capital, so that only clauses and ghost items change
            new = re.sub(NAME, lambda m: mapped[m.group(0)] if m.group(0) in mapped and re.search('[A-Z]', m.group(0)) else m.group(0), text)
        else:
            new = change(text)
        if new != text:
            open(f, 'w', encoding='utf-8').write(new)


main()
