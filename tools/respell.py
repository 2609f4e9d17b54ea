#!/usr/bin/env python3
"""Respells the repository's own definitions, lemmas, record fields and aliases: words in snake case.

    python3 tools/respell.py [--list]

Run at the top of the repository, once, after the kit's port.py. It goes file by file: a name is respelled where it is declared in that
file or taken there from a module of this repository, so names of the kit and names that the check generates keep their spelling. In
.rt files it turns ghost imports, clauses and comments, in pages the names between backquotes. It stops where two names would fall
together. --list prints the names and what becomes of them, and changes nothing.
"""
import collections
import glob
import os
import re
import sys

TOKEN = re.compile(r'''--[^\n]*|//[^\n]*|"(?:[^"\\]|\\.)*"|[^\s(){}\[\].,;"⌜⌝⟨⟩λ`]+|\s+|.''', re.S)
# a name that holds a name of the kit, which the kit renamed
SPECIAL = {'getD-table': 'get_or-table'}
# lemmas from which port.py took the dash, and that would fall together with the definition that they speak of
# variables
LOCALS = {'codeLength': 'code_length'}
DASHED = {('crates/mcode/proofs/Requests.antt', 'quiet_read'): 'quiet-read', ('crates/mcode/proofs/Right.antt', 'in_pair'): 'in-pair'}


def snake(name):
    """words in snake case; a dash joins two names, and a fact keeps its capital behind one"""
    if name in SPECIAL:
        return SPECIAL[name]
    return '-'.join(re.sub(r'(?<=[a-z0-9])([A-Z]+)', lambda m: '_' + m.group(1).lower(), p) if p[:1].islower() else p for p in name.split('-'))


def module_of(path):
    """crates/NAME/specs/A.antt is the module Rattle.NAME.specs.A"""
    return 'Rattle.' + '.'.join(path.split('/')[1:])[:-len('.antt')]


DECL = re.compile(r"^(\s*)((?:(?:unfoldable|abbrev|record|data|pub|private)\s+)*)([A-Za-z_][^\s(){}.,;:]*)((?:\s*[({][^)}]*[)}])*)\s*:(?:\s|$)")


def declared(text):
    """the names that a file declares: top level, in its modules, and the fields of its records"""
    names, fields = set(), set()
    record = False
    for line in text.split('\n'):
        m = DECL.match(line)
        if m and not line.lstrip().startswith('--'):
            indent, words, name = len(m.group(1)), m.group(2).split(), m.group(3)
            if indent == 0:
                record = 'record' in words
                names.add(name)
            elif record and 'pub' in words:
                fields.add(name)
            elif indent <= 4 and not record:
                names.add(name)
        elif line and not line[0].isspace():
            record = False
    return names, fields


USE = re.compile(r"\b(?:ghost )?use\s+(Rattle[\w.]*)\.\{([^}]*)\}")
ALIAS = re.compile(r"\b(?:ghost )?use\s+(Rattle[\w.]*)\s+as\s+([^\s;]+)")


def main():
    antt = sorted(f for d in ('specs', 'proofs') for f in glob.glob('crates/*/%s/**/*.antt' % d, recursive=True))
    rt = sorted(glob.glob('crates/*/src/**/*.rt', recursive=True))
    own = {module_of(f): f for f in antt}
    texts = {f: open(f, encoding='utf-8').read() for f in antt + rt}
    before = dict(texts)
    for f in antt:
        for a, b in LOCALS.items():
            texts[f] = re.sub(r'\b%s\b' % a, b, texts[f])
    for (f, a), b in DASHED.items():
        texts[f] = re.sub(r"(?<![\w'-])%s(?![\w'-])" % a, b, texts[f])
    names, fields = {}, set()
    for f in antt:
        n, k = declared(texts[f])
        names[f] = n
        fields |= k
    turned = collections.OrderedDict()
    clashes = []
    result = {}
    for f in antt + rt:
        text = texts[f]
        scope, aliases, foreign, kept_alias = set(names.get(f, ())), {}, set(), {}
        for m in USE.finditer(text):
            target = own.get(m.group(1))
            for item in m.group(2).split(','):
                w = item.split()
                if not w:
                    continue
                if target:
                    if len(w) == 3:
                        scope.add(w[2])
                    scope.add(w[0])
                else:
                    if len(w) == 3:
                        scope.add(w[2])
                        foreign.add(w[0])
                    else:
                        foreign.add(w[-1])
        for m in re.finditer(r'\buse\s+(?!Rattle)([\w.]+)\.\{([^}]*)\}', text):
            for item in m.group(2).split(','):
                w = item.split()
                if len(w) == 3:
                    scope.add(w[2])
                    foreign.add(w[0])
                elif w:
                    foreign.add(w[-1])
        for m in ALIAS.finditer(text):
            aliases[m.group(2)] = m.group(1) in own
            scope.add(m.group(2))
        scope -= {n for n in foreign if n not in names.get(f, ())}
        toks = TOKEN.findall(text)
        present = {t for t in toks}
        # within { } of a use line of an own module every name is turned; elsewhere by scope
        out, i = [], 0
        ghost = f.endswith('.antt')
        use_own = {}
        for m in list(USE.finditer(text)):
            use_own[m.start(2)] = (m.end(2), m.group(1) in own)
        spans = sorted((m.start(2), m.end(2), m.group(1) in own) for m in USE.finditer(text))
        foreign_spans = [(a, b) for a, b, o in spans if not o] + [(m.start(2), m.end(2)) for m in re.finditer(r'\buse\s+(?!Rattle)([\w.]+)\.\{([^}]*)\}', text)]
        own_spans = [(a, b) for a, b, o in spans if o]
        at = 0
        prev = ''
        last = ''
        for t in toks:
            new = t
            if t.startswith('--') or t.startswith('//'):
                new = re.sub(r"[a-z][A-Za-z0-9]*[A-Z][A-Za-z0-9]*|[a-z][a-z0-9]*(?:-[a-z0-9]+)+", lambda m: snake(m.group(0)) if '-' not in m.group(0) and snake(m.group(0)) in AFTER else m.group(0), t)
            elif t[0] not in '"' and not t.isspace():
                inside_foreign = any(a <= at < b for a, b in foreign_spans)
                inside_own = any(a <= at < b for a, b in own_spans)
                if prev == '.':
                    if t in fields and not in_path(text, at):
                        new = snake(t)
                    elif last in aliases and aliases[last]:
                        new = snake(t)
                elif inside_foreign:
                    # "old as own"
                    if t in scope and t not in foreign:
                        new = snake(t)
                elif inside_own:
                    new = snake(t)
                elif t in scope or t in fields:
                    new = snake(t)
                if new != t:
                    turned[t] = new
                    if new in present and not f.endswith('.rt'):
                        clashes.append((f, t, new))
                    elif new in present:
                        clashes.append((f, t, new))
            out.append(new)
            if not t.isspace():
                if t != '.':
                    last = t
                prev = t
            else:
                prev = ' '
            at += len(t)
        result[f] = ''.join(out)
    return before, result, turned, clashes, names, fields


def in_path(text, at):
    """whether the name at a place stands in a path after use or Rattle"""
    line = text[text.rfind('\n', 0, at) + 1:at]
    return bool(re.search(r'Rattle[\w.]*$', line))


PAGES = ['README.md'] + sorted(glob.glob('docs/**/*.md', recursive=True))
SKIP = ('docs/PORT.md',)


def plain(name):
    return re.sub(r"[-_'′]", '', name).lower()


def write(texts, result, names, fields):
    """the files, and then the pages: a name between backquotes that stands nowhere, and stands in another spelling, gets that"""
    for f in texts:
        if texts[f] != result[f]:
            with open(f, 'w', encoding='utf-8') as to:
                to.write(result[f])
    after = set()
    for f in names:
        n, k = declared(result[f])
        after |= n | k
    by = collections.defaultdict(set)
    for n in after:
        by[plain(n)].add(n)

    def named(m):
        t = m.group(0)
        close = by.get(plain(t), set())
        return t if t in after or len(close) != 1 else next(iter(close))

    def span(m):
        return re.sub(r"(?<![\w/.-])[A-Za-z][A-Za-z0-9]*(?:[-_'′]?[A-Za-z0-9]+)*(?![\w/-])", lambda w: named(w) if re.search(r'[a-z][A-Z]|-', w.group(0)) else w.group(0), m.group(0))

    changed = 0
    for f in PAGES:
        if f in SKIP or not os.path.exists(f):
            continue
        text = open(f, encoding='utf-8').read()
        new = re.sub(r'`[^`\n]+`', span, text)
        if new != text:
            changed += 1
            with open(f, 'w', encoding='utf-8') as to:
                to.write(new)
    print(changed, 'pages')


ALL = set()
for _f in sorted(f for d in ('specs', 'proofs') for f in glob.glob('crates/*/%s/**/*.antt' % d, recursive=True)):
    _n, _k = declared(open(_f, encoding='utf-8').read())
    ALL |= _n | _k
AFTER = {snake(n) for n in ALL}

if __name__ == '__main__':
    texts, result, turned, clashes, names, fields = main()
    if '--list' in sys.argv:
        for a, b in sorted(turned.items()):
            print(a, b)
        sys.exit()
    bad = [(f, a, b) for f, a, b in clashes if not f.endswith('.rt') and not a.endswith('_spec') and '/Proof.antt' not in f]
    for f, a, b in bad:
        print('clash', f, a, b)
    if bad:
        sys.exit(1)
    write(texts, result, names, fields)
    print(len(turned), 'names', sum(texts[f] != result[f] for f in texts), 'files')
