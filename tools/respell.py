#!/usr/bin/env python3
"""Brings the names that this repository defines itself to today's spelling: snake case, with a dash only between two names.

    tools/respell.py [FOLDER]

FOLDER is a checkout in which port.py of the kit has just run; without it, this one. Definitions, lemmas, fields and constructors of
specs/ and proofs/ whose name is in camel case or has dashes get underscores: rowEntry is row_entry, floor-of-negative is floor_of_negative,
and sum-ext, where ext is no definition, sum_ext. A dash stays between the names of two definitions, as in length-to_le_bytes. A lemma that
would get the name of a definition gets _lem behind it. A name turns where a file defines or imports it, in comments where it is in
camel case, and in the pages' code spans. A file specs/Contracts.antt, whose name Rattle takes for a module of its own, is
Required.antt. Functions of src/, names that Rattle makes, strings, inputs and outputs keep their spelling.
What it renamed is printed, a line for each name.
"""
import collections, glob, os, re, sys

if '--help' in sys.argv[1:]:
    print(__doc__, end='')
    sys.exit(0)
root = os.path.realpath(sys.argv[1] if len(sys.argv) > 1 else os.path.join(os.path.dirname(os.path.abspath(__file__)), '..'))
os.chdir(root)
WORD = r'[^\s(){}\[\];,."«»]+'
SYMBOL = re.compile(r'[^\w]|^[ℤℕ]')
STD = set('length drop take append replicate set get_or map sum get abs mag neg to_z of_z le_z lt_z quot_z leb ltb eqb nat_abs clean'
          .split())

for p in glob.glob('crates/*/specs/Contracts.antt'):
    os.rename(p, p.replace('Contracts', 'Required'))
for p in (glob.glob('crates/**/*.antt', recursive=True) + glob.glob('crates/**/*.rt', recursive=True)
          + glob.glob('docs/**/*.md', recursive=True)):
    t = open(p, encoding='utf-8').read()
    new = re.sub(r'specs([./])Contracts\b', r'specs\1Required', t)
    if p.endswith('/specs/Lib.antt'):
        new = re.sub(r'(?m)^pub mod Contracts$', 'pub mod Required', new)
    if new != t:
        open(p, 'w', encoding='utf-8').write(new)

files = {p: open(p, encoding='utf-8').read() for p in sorted(
    glob.glob('crates/*/specs/**/*.antt', recursive=True) + glob.glob('crates/*/proofs/**/*.antt', recursive=True)
    + glob.glob('crates/*/src/**/*.rt', recursive=True))}


def module(path):
    crate, part, *rest = path.removeprefix('crates/').removesuffix('.antt').split('/')
    return '.'.join(['Rattle', crate, part, *rest])


def uncommented(text, mark):
    return re.sub(rf'(^|(?<=\s)){mark}[^\n]*', '', text, flags=re.M)


def wanted(name):
    return bool(re.match(r'[^A-Z]', name) and re.search(r'[a-z0-9][A-Z]|[a-z][ℤℕ]', name)) or '-' in name[1:]


# ---- what each file defines
defined = collections.defaultdict(set)   # path -> names at the top of the file, fields and constructors
fields, lemmas, definitions = set(), set(), set(STD)
for p, t in files.items():
    if not p.endswith('.antt'):
        continue
    kind = None
    for line in uncommented(t, '--').split('\n'):
        m = re.match(rf'^(\s*)((?:abbrev |unfoldable |opaque |erased |pub )*)(record |data )?(?:pub )?'
                     rf'({WORD})(?:\s+(?:\(.*|\{{.*))?\s*:(\s|$)', line)
        if not m or line.lstrip().startswith('use '):
            if line and not line[0].isspace():
                kind = 'record' if 'record ' in line or 'data ' in line else None
            continue
        indent, words, rec, name, _ = m.groups()
        if name in ('let', 'in', 'where', 'module', '_') or name.startswith(('|', '↦', 'λ', '→')):
            continue
        made = re.search(r':\s*(?:tie|lts|goal)\.(?:Need|invariant|decreases)', line) or name.endswith('-spec')
        if made:
            continue
        if not indent:
            kind = 'record' if rec else None
            defined[p].add(name)
            if not rec:
                (definitions if '/specs/' in p or 'abbrev' in words or 'unfoldable' in words else lemmas).add(name)
        elif kind == 'record' or 'pub ' in words or len(indent) == 2:
            defined[p].add(name)
            if kind == 'record':
                fields.add(name)
            elif 'abbrev' in words or 'unfoldable' in words or '/specs/' in p:
                definitions.add(name)
            else:
                lemmas.add(name)


def snake(word):
    word = re.sub(r'(?<=[a-z0-9])(?=[A-Z])', '_', word) if not re.match(r'[A-Z]', word) else word
    word = re.sub(r'(?<=[a-z])(?=[ℤℕ])', '_', word)
    plain = re.match(r'[a-z]', word) and not re.search(r'[A-Z](?![a-z])', word[1:])
    return word.lower() if plain or re.match(r'[a-z]\w*_[A-Z]', word) else word


def is_name(part):
    return part in definitions or snake(part) in definitions or bool(re.fullmatch(r'[^\w]+ℤ?|[<>≤≥≡+*∙]+ℤ?', part))


def respelled(name):
    parts = [p for p in name.split('-')]
    if '' in parts:
        return snake(name)
    out = snake(parts[0])
    for before, after in zip(parts, parts[1:]):
        out += ('-' if is_name(before) and is_name(after) else '_') + snake(after)
    return out


table = {}
for p in defined:
    for n in defined[p]:
        if wanted(n):
            table[n] = respelled(n)
standing = {n for p in defined for n in defined[p]}
for n in sorted(table):
    new = table[n]
    if new == n:
        continue
    if new in standing and n in definitions and new not in definitions:
        table[new] = new + '_lem'  # a lemma stands under the definition's new name
    elif new in standing or any(o != n and table[o] == new and (o in definitions or o < n and n not in definitions) for o in table):
        if n in definitions and n not in lemmas:
            print(f'meets: {n} {new}')
        table[n] += '_lem'
table = {o: n for o, n in table.items() if o != n}
back = collections.defaultdict(set)
for o, n in table.items():
    back[n].add(o)
for n, os_ in back.items():
    if len(os_) > 1:
        print('falls together:', n, sorted(os_))


# ---- where they turn
USE = re.compile(r'\b(?:ghost )?(?:pub )?use (Rattle\.[^\s;{]+?)(?:\.?\{([^}]*)\})?(?: as ([^\s;]+))?;?$', re.M)
of_module = collections.defaultdict(set)
for p in defined:
    of_module[module(p)] |= defined[p]
for _ in range(3):  # `pub use` hands names on
    for p in defined:
        for m in re.finditer(r'^\s*pub use (Rattle\.[^\s{]+?)\.\{([^}]*)\}', files[p], re.M):
            of_module[module(p)] |= {w.split(' as ')[-1].strip() for w in m[2].split(',')}
clauses = re.compile(r'//[^\n]*|"(?:\\.|[^"\\\n])*"')


def turned(p, t):
    rt = p.endswith('.rt')
    own = set() if rt else set(defined[p])
    aliases = set()
    for m in USE.finditer(t):
        path, names, alias = m.groups()
        if names is not None:
            for it in names.split(','):
                own.add(it.split(' as ')[0].strip())
        else:
            aliases.add(alias or path.rsplit('.', 1)[-1])
    for m in re.finditer(r'use (?:mathlib|Prim|native|lib|mir|borrow|contract|Rattle\.std)[^{\n]*\{([^}]*)\}', t):  # of a library
        for it in m[1].split(','):
            own.discard(it.split(' as ')[-1].strip()) if it.split(' as ')[-1].strip() not in defined.get(p, ()) else None
    token = re.compile(r'(?P<c>(?:(?<=\s)|^)(?://|--)[^\n]*)|(?P<s>"(?:\\.|[^"\\\n])*")|(?P<w>' + WORD + r')', re.M)

    def one(m):
        if m['s']:
            return m[0]
        if m['c']:
            return re.sub(r'(?<![\w.-])[a-z][\w-]*[a-z0-9][A-Z]\w*(?![\w(])', lambda w: table.get(w[0], w[0]), m[0])
        w = m['w']
        if w not in table:
            return w
        before = t[max(0, m.start() - 60):m.start()]
        if before.endswith('.'):
            head = re.search(r'([^\s(){}\[\];,"«»]+)\.$', before)
            head = head[1] if head else ''
            if w in fields or head in aliases or head.startswith('Rattle.'):
                return table[w]
            return w
        return table[w] if w in own or w in fields else w

    return token.sub(one, t)


for p, t in files.items():
    new = turned(p, t)
    if new != t:
        code = lambda it: set(re.findall(WORD, re.sub(r'(?m)(?:(?<=\s)|^)(?://|--)[^\n]*|"(?:\\.|[^"\\\n])*"', '', it)))
        for w in sorted(code(t) - code(new)):
            if table.get(w) in code(t):
                print(f'falls together in {p}: {w} {table[w]}')
        open(p, 'w', encoding='utf-8').write(new)
for p in sorted(glob.glob('*.md') + glob.glob('docs/**/*.md', recursive=True)):
    t = open(p, encoding='utf-8').read()
    new = re.sub(r'`[^`\n]*`', lambda m: re.sub(r'(?<![\w.-])[a-z][\w-]*(?![\w(-])', lambda w: table.get(w[0], w[0]), m[0]), t)
    if new != t:
        open(p, 'w', encoding='utf-8').write(new)
for o, n in sorted(table.items()):
    print(o, n)
