#!/usr/bin/env python3
"""Counts the places that docs/DESIGN-PASS.md speaks of, in src/, specs/ and proofs/ of every crate, as they
stand or at a commit.

    tools/places.py [COMMIT]

A line for each count: the point, what is counted, and how many.
"""
import re, subprocess, sys

if sys.argv[1:] == ['--help']:
    print(__doc__, end='')
    sys.exit(0)
commit = sys.argv[1] if len(sys.argv) > 1 else None


def git(*command):
    return subprocess.run(['git', *command], capture_output=True, text=True, check=True).stdout


def files(suffix, folder):
    names = git('ls-tree', '-r', '--name-only', commit, 'crates') if commit else git('ls-files', 'crates')
    for name in names.split('\n'):
        if re.fullmatch(rf'crates/\w+/{folder}/.*\.{suffix}', name):
            yield name, git('show', f'{commit}:{name}') if commit else open(name).read()


source = dict(files('rt', 'src'))
specs = dict(files('antt', 'specs'))
proofs = dict(files('antt', 'proofs'))
code = '\n'.join(source.values())
plain = re.sub(r'//[^\n]*', '', code)
# a function's head: from `fn` to the brace that opens its body
heads = re.findall(r'^ *(?:pub )?(?:extern "C" )?fn \w+[^;{]*?\n?(?:.*?)(?=^ *\{$|\{$)', plain, re.M | re.S)


def enums():
    shape = r'\b(Passed|Refused|Outside|Ends|Done|Taken)\b'
    return [m for m in re.findall(r'pub enum (\w+) \{(.*?)\n\}', plain, re.S) if re.search(shape, m[1])]


def facts(text):
    return sum(text in re.sub(r'\s+', ' ', head) for head in heads)


# the lines of texts that are wider than the house's width
WIDTH = 140


def too_long(texts):
    return sum(len(line) > WIDTH for text in texts.values() for line in text.split('\n'))


def show(point, what, count):
    print(f'{point}  {count:5}  {what}')


show(1, 'own enums of the shape of Option or Result', len(enums()))
show(1, 'structs that hold a refusal beside a value', len(re.findall(r'pub checked: ', plain)))
show(1, 'functions that write a lent value and answer a bool', sum('&mut' in h and '-> bool' in h for h in heads))
show(1, 'functions that make the number of one answer', len(re.findall(r'fn (?:\w+_code|refusal_number)\(', plain)))
show(3, '`while` and `loop`', len(re.findall(r'^\s*(?:while|loop)\b', plain, re.M)))
chains = len(re.findall(r'\.(?:all|any|fill|copy_from_slice)\(', plain))
show(3, '`for` and chains of the library over slices', len(re.findall(r'^\s*for ', plain, re.M)) + chains)
show(4, 'enums and structs without the derives of plain data', len(re.findall(r'#\[derive\((?:Drop|Clone, Copy)\)\]', plain)))
show(5, 'contracts that ask that n is an order', facts('(n ≤ greatest_order)'))
show(5, 'contracts that ask for checked tables of order n', facts('CheckedTables n'))
show(5, 'functions that are lent low and high bounds', sum(bool(re.search(r'low: &', h)) and bool(re.search(r'high: &', h)) for h in heads))
sums = sum(bool(re.search(r'from: &', h)) and bool(re.search(r'\bto: &', h)) for h in heads)
show(5, 'functions that are lent the five sums, or four of them', sums)
counted = sum(bool(re.search(r'\b(?:n|count|k): usize', h)) and '&' in h and '[i64]' in h for h in heads)
show(6, 'functions that are lent slices with an order or a count beside', counted)
show(6, 'structs of parallel arrays', len(re.findall(r'\w+: \[usize; \w+\],\s*(?:pub )?\w+: \[usize; \w+\]', plain)))
show(7, 'functions that take a bool', sum(bool(re.search(r'\w+: bool[,)]', h)) for h in heads))
show(8, 'answers\' lines with rows of `.before`', sum(len(re.findall(r'^.*\.before\.before.*$', p, re.M)) for p in proofs.values()))
show(8, 'files of answers', sum(name.endswith('Answers.antt') and name.count('/') > 3 for name in proofs))
show(8, 'lines of proofs', sum(p.count('\n') for p in proofs.values()))
show('house', f'lines of src/ and specs/ over {WIDTH} characters', too_long({**source, **specs}))
