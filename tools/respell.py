#!/usr/bin/env python3
"""Spells the repository's own definitions and lemmas with underscores: run once, at the top, after the library's names were turned.

usage: tools/respell.py            (writes the files in place; prints each name that was changed)

A name that a file of specs/ or proofs/ declares with a dash (`log-room`) gets an underscore (`log_room`), wherever an .antt or an .rt
file names it, and in backquotes in comments and in the documents. OTHER has the names that get another one than the plain
spelling. Names that the prover makes for a function's goals (proofs/F/, behind `tie.`) stay.
"""
import os, re, sys

NAME = re.compile(r'[^\s(){}.;,@"«»`\[\]/:]+')
DECLARED = re.compile(r"^( *)((?:(?:abbrev|unfoldable|pub|record|data|ruleset|mutual) )*)([^\s(){}.;,@\"«»:]+)((?: [({][^{}()\n]*[)}])*) :( |$)")
OF_A_FUNCTION = ('Proof.antt', 'Answers.antt', 'Invariants.antt')
# Names that fall together with another: the name that each gets in place of the plain spelling.
OTHER = {
    'Fed-so-far': 'FedSoFar',
    'So-far': 'SoFar',
    'getD-pairs': 'get_or_pairs',
}

def files(*ends):
    for top in ('crates',):
        for folder, _, names in os.walk(top):
            for name in names:
                if name.endswith(ends):
                    yield os.path.join(folder, name)

def of_a_function(path):
    return '/proofs/' in path and os.path.basename(path) in OF_A_FUNCTION

def declared():
    names, goals = set(), set()
    for path in files('.antt'):
        for line in open(path):
            if line.lstrip().startswith('--'):
                continue
            m = DECLARED.match(line)
            if m and '-' in m[3]:
                if of_a_function(path) and (re.search(r': tie\.', line) or re.match(r'(returns|loop|overflow|if|in)-', m[3])):
                    goals.add(m[3])
                else:
                    names.add(m[3])
    return names, goals

def respelt(name):
    return OTHER.get(name) or name.replace('-', '_')

def turn_code(text, turned):
    out, at = [], 0
    for m in NAME.finditer(text):
        out.append(text[at:m.start()])
        word = m[0]
        before = text[:m.start()]
        if word in turned and not re.search(r'\b(tie|goal)\.$', before):
            word = turned[word]
        out.append(word)
        at = m.end()
    out.append(text[at:])
    return ''.join(out)

def in_backquotes(text, turned):
    return re.sub(r'`[^`\n]*`', lambda m: turn_code(m[0], turned), text)

def turn_line(line, turned, comment):
    m = re.search(comment, line)
    code, said = (line[:m.start()], line[m.start():]) if m else (line, '')
    parts = re.split(r'("(?:[^"\\]|\\.)*")', code)
    code = ''.join(p if i % 2 else turn_code(p, turned) for i, p in enumerate(parts))
    return code + in_backquotes(said, turned)

def main():
    names, goals = declared()
    turned = {n: respelt(n) for n in names}
    # what stands already
    for path in list(files('.antt', '.rt')):
        comment = r'(^|\s)--( |$)' if path.endswith('.antt') else r'//'
        mine = dict(turned)
        if of_a_function(path):
            for g in goals:
                mine.pop(g, None)
        old = open(path).read()
        new = ''.join(turn_line(l, mine, comment) for l in old.splitlines(keepends=True))
        if new != old:
            open(path, 'w').write(new)
    for top in ('README.md', 'docs', 'explained/README.md', 'reference/README.md'):
        for path in ([top] if os.path.isfile(top) else [os.path.join(d, f) for d, _, fs in os.walk(top) for f in fs if f.endswith('.md')]):
            old = open(path).read()
            new = in_backquotes(old, turned)
            if new != old:
                open(path, 'w').write(new)
    for n in sorted(turned):
        print(n, turned[n])

if __name__ == '__main__':
    if sys.argv[1:] == ['--clashes']:
        names, goals = declared()
        turned = {n: respelt(n) for n in names}
        back = {}
        for n, t in turned.items():
            back.setdefault(t, set()).add(n)
        for t, ns in back.items():
            if len(ns) > 1:
                print('two', t, ns)
        for path in files('.antt', '.rt'):
            text = open(path).read()
            comment = r'(?m)(^|\s)--( .*|$)' if path.endswith('.antt') else r'//.*'
            words = set(NAME.findall(re.sub(comment, ' ', text)))
            if path.endswith('.rt'):
                words |= set(re.findall(r'\w+', re.sub(r'//.*', '', text)))
            for n in words & names:
                if turned[n] in words:
                    print('meets', path, n)
            if path.endswith('.rt'):
                for w in re.findall(r'(?:const|static|struct|enum|type|mod) (\w+)', text) + re.findall(r'^\s*(?:pub )?(\w+): ', text, re.M):
                    if w in back:
                        print('item', path, w, back[w])
    else:
        main()
