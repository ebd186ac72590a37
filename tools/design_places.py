#!/usr/bin/env python3
"""Lists the places of docs/DESIGN-PASS.md: where src/ may be written in an older form than today's Rattle allows.

usage: python3 tools/design_places.py [--places] [FOLDER]    counts by point; --places prints each place; FOLDER is a checkout (default: this one)

Each pattern finds candidates by text; what a person made of each stands in docs/DESIGN-PASS.md.
"""
import collections
import pathlib
import re
import sys

args = [a for a in sys.argv[1:] if a != '--places']
root = pathlib.Path(args[0] if args else pathlib.Path(__file__).resolve().parent.parent)
found = collections.OrderedDict()


def add(point, where, text):
    found.setdefault(point, []).append(f'{where}: {text.strip()[:140]}')


# point: patterns on single lines of src/
LINES = {
    '1a variants like Err, None (XRefused, Bad, NoDraft)': r'^\s{4}(\w*Refused|Bad|NoDraft)\b[^;=]*,?$',
    '1b numbers for errors (Result<_, u8>)': r'->\s*Result<.*, u8>',
    '1c flags answered or kept (bool)': r'->\s*bool\b|^\s+(pub )?[a-z_]+: bool,$',
    '1d numbers for kinds as parameters': r'\b(which|cipher|line|number): u8\b',
    '1e enums that derive no comparison': None,
    '3 loops over a range or with while': r'^\s*(while\b|for \w+ in [^{]*\.\.[^{]*\{)',
    '4a From written by hand': r'^impl(<.*>)? From<',
    '4b parsing, naming and showing by hand': r'\bfn (from_text|from_bytes|from_line|name_of|show\w*|same_bytes)\b',
    '4c numbers of refusals, one arm each': r'^\s+\w+::\w+(\(_\))? => \d+,$',
    '6a buffers of fixed size': r'= \[0(u8)?; \w+\]',
    '6b counts handed out beside a buffer': None,
    '7 choice of a call by a kind': r'^\s+(Some\()?(Name|Chosen|Topic|Order|Call|Stage|\w*Fault)::\w+.*=> .*\(',
}
sources = sorted(root.glob('crates/*/src/**/*.rt'))
functions = []  # (where, name, header with parameters and clauses)
consts = collections.defaultdict(list)
for path in sources:
    where = str(path.relative_to(root / 'crates'))
    lines = path.read_text().split('\n')
    for n, line in enumerate(lines, 1):
        if line.lstrip().startswith('//'):
            continue
        for point, pattern in LINES.items():
            if pattern and re.search(pattern, line):
                add(point, f'{where}:{n}', line)
        m = re.match(r'(?:pub(?:\(crate\))? )?const (\w+): \w+ = (.*);', line.strip())
        if m:
            consts[m.group(1)].append(f'{where}:{n}')
        if re.match(r'\s*pub(\(crate\))? enum|\s*enum', line) and 'PartialEq' not in lines[n - 2]:
            add('1e enums that derive no comparison', f'{where}:{n}', line)
    text = path.read_text()
    for m in re.finditer(r'\n *(?:#\[.*\]\n *)?(?:pub(?:\(crate\))? )?(?:extern "C" )?fn (\w+)(.*?)\n? *[{;]\n', text, re.S):
        functions.append((where, m.group(1), m.group(2)))

common = {'new', 'number', 'fmt', 'from', 'main', 'run', 'raise', 'restart', 'reading', 'image_of', 'key_len', 'set_key', 'with_zero_key', 'show', 'place', 'next', 'feed', 'len'}
names = collections.defaultdict(set)
for where, name, header in functions:
    if name not in common:
        names[name].add(where)
for name, places in sorted(names.items()):
    if len(places) > 1 and not all('exports' in p for p in places):
        add('2a functions of one name in several files', ', '.join(sorted(places)), name)
for name, places in sorted(consts.items()):
    if len({p.split('/')[0] for p in places}) > 1:
        add('2b constants named again in another crate', ', '.join(places), name)
for where, name, header in functions:
    hits = re.findall(r'(Practice|Aes|Speck)\b', header)
for path in sources:
    text = path.read_text()
    where = str(path.relative_to(root / 'crates'))
    for m in re.finditer(r'(?:Name|Chosen)::Practice\b', text):
        line = text[:m.start()].count('\n') + 1
        if '=>' in text[m.start():text.find('\n', m.start())]:
            add('2c one arm for each cipher', f'{where}:{line}', text[m.start():text.find('\n', m.start())])

clauses = collections.defaultdict(set)
pairs = collections.defaultdict(set)
for where, name, header in functions:
    for clause in re.findall(r'(?:requires|ensures)[^{]*\{(.*?)\}\n', header + '\n', re.S):
        clauses[' '.join(clause.split())].add(f'{where} {name}')
    head = header.split('requires')[0].split('ensures')[0]
    params = re.findall(r'(\w+): ([^,()]+)', head)
    for a, b in zip(params, params[1:]):
        pairs[(a, b)].add(f'{where} {name}')
    if re.search(r'out: &mut \[u8', header) and re.search(r'-> (Result<)?usize', header):
        add('6b counts handed out beside a buffer', where, name)
for clause, places in sorted(clauses.items()):
    if len(places) >= 3:
        add('5a a clause in three or more contracts', f'{len(places)} functions', clause)
for (a, b), places in sorted(pairs.items()):
    if len(places) >= 3:
        add('5b parameters side by side in three or more functions', f'{len(places)} functions', f'{a[0]}: {a[1]}, {b[0]}: {b[1]}')

for crate in sorted(root.glob('crates/*')):
    lines = sum(len(p.read_text().split('\n')) - 1 for p in crate.glob('proofs/**/*.antt'))
    if lines:
        add('8 proofs, in lines', crate.name, str(lines))

for point in sorted(found):
    places = found[point]
    total = sum(int(p.split(': ')[1]) for p in places) if point.startswith('8') else len(places)
    print(f'{total:5}  {point}')
    if '--places' in sys.argv:
        for place in places:
            print('         ' + place)
