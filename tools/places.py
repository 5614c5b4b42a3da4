#!/usr/bin/env python3
"""Counts the places of the eight points of docs/DESIGN-PASS.md in crates/*/src.

    tools/places.py            in the work tree
    tools/places.py COMMIT     at a commit
    tools/places.py -l POINT   with the places of one point, each on a line
"""
import collections, pathlib, re, subprocess, sys

args = sys.argv[1:]
listed = None
if args[:1] == ['-l']:
    listed, args = args[1], args[2:]
top = pathlib.Path(subprocess.run(['git', 'rev-parse', '--show-toplevel'], capture_output=True, text=True, check=True).stdout.strip())


def files(pattern):
    """Path and text of each file whose path fits."""
    if not args:
        for path in sorted(top.glob('crates/*/**/*')):
            name = str(path.relative_to(top))
            if path.is_file() and re.fullmatch(pattern, name):
                yield name, path.read_text()
        return
    names = subprocess.run(['git', '-C', top, 'ls-tree', '-r', '--name-only', args[0], 'crates'], capture_output=True, text=True, check=True).stdout.split()
    for name in sorted(n for n in names if re.fullmatch(pattern, n)):
        yield name, subprocess.run(['git', '-C', top, 'show', f'{args[0]}:{name}'], capture_output=True, text=True, check=True).stdout


sources = [(n, re.sub(r'//.*', '', t)) for n, t in files(r'crates/[^/]+/src/.*\.rt')]
places = collections.OrderedDict((str(i), []) for i in range(1, 9))


def line_of(text, at):
    return text.count('\n', 0, at) + 1


def functions(text):
    """Name, parameters, clauses and body of each function."""
    for m in re.finditer(r'^( *)(?:pub )?(?:extern "C" )?fn (\w+)', text, re.M):
        end = text.find('\n' + m[1] + '}\n', m.end())
        one = text[m.start():text.find('\n', m.start())]
        whole = text[m.start():end] if end > 0 else one
        head, _, body = whole.partition('\n' + m[1] + '{\n') if '\n' + m[1] + '{\n' in whole else whole.partition(' {\n')
        yield m[2], line_of(text, m.start()), head, body


requires = collections.Counter()
pairs = collections.Counter()
shapes = collections.defaultdict(list)
for name, text in sources:
    def found(point, at, what):
        places[point].append(f'{name}:{line_of(text, at)}: {what}')
    # 1: an enum of which some cases hold a value; a number for a kind; a struct with a bool or a number that says what the value beside it is
    for m in re.finditer(r'^(?:pub )?enum (\w+) \{\n(.*?)^\}', text, re.M | re.S):
        if re.search(r'^    \w+[({ ]+', m[2], re.M) and not re.search(r'= \d+,', m[2]):
            found('1', m.start(), f'enum {m[1]}')
    for m in re.finditer(r'^ *(?:pub )?const (\w+): u(?:8|64) = ', text, re.M):
        found('1', m.start(), f'const {m[1]}')
    for m in re.finditer(r'^ +(?:pub )?(answer|number|wrong|asked|found): ', text, re.M):
        if text.rfind('struct ', 0, m.start()) > text.rfind('}\n', 0, m.start()):
            found('1', m.start(), f'field {m[1]}')
    # 3: a while loop
    for m in re.finditer(r'^ *while .*', text, re.M):
        found('3', m.start(), m[0].strip())
    # 4: a struct that takes two fields or more of another as they are, a value that is copied out before it is used, and a number by match
    for m in re.finditer(r'(?:^ +(\w+): \w+\.\1,\n){2,}', text, re.M):
        found('4', m.start(), 'fields taken as they are')
    for m in re.finditer(r'^ +let (\w+) = (?:\w+\.)+\1;', text, re.M):
        found('4', m.start(), m[0].strip())
    for m in re.finditer(r'(?:^ +\w+::\w+ => \d+,\n){2,}', text, re.M):
        found('4', m.start(), 'numbers by match')
    # 6: an array with a count beside it
    for m in re.finditer(r'struct (\w+) \{\n(.*?)^\}', text, re.M | re.S):
        if re.search(r': \[\w+; ', m[2]) and re.search(r'\b(length|count|letters|held|end|levels|k): (usize|u64)', m[2]):
            found('6', m.start(), f'struct {m[1]}')
    # 7: a match on which operation to run
    for m in re.finditer(r'match (?:\w+\.)?operation\b.*', text):
        found('7', m.start(), m[0])
    for fn, at, head, body in functions(text):
        for m in re.finditer(r'requires (?:\w+ )?\{(.*?)\}\n', head + '\n', re.S):
            requires[name.split('/')[1], ' '.join(m[1].split())] += 1
        for pair in ('cos: &[f32], sin: &[f32]', 'k: usize, step: usize', 'dark: usize, light: usize'):
            if pair in ' '.join(head.split()):
                places['5'].append(f'{name}:{at}: {fn}: {pair}')
        short = re.sub(r'\b(?!let|mut|for|in|while|if|else|return|match|fn)\w+', '_', re.sub(r'\s+', ' ', body)).strip()
        if body.count('\n') >= 4:
            shapes[short].append(f'{name}:{at}: {fn}')
for (crate, clause), n in requires.items():
    if n >= 3:
        places['5'].append(f'crates/{crate}: {n} times: requires {{{clause}}}')
for group in shapes.values():
    if len(group) > 1:
        places['2'].append('; '.join(group))
proofs = [(n, t) for n, t in files(r'crates/[^/]+/proofs/.*\.antt')]
for name, text in proofs:
    if name.endswith('/Answers.antt'):
        places['8'].append(f'{name}: {text.count(chr(10))} lines')

if listed:
    print('\n'.join(places[listed]))
else:
    titles = ['enums that hold values, numbers for kinds, answers beside values', 'groups of functions of one shape', 'while loops', 'copies and conversions by hand',
              'parameters that travel together, facts asked by three functions or more', 'arrays with a count beside them', 'matches on an operation', 'files of answers']
    for (point, at), title in zip(places.items(), titles):
        print(f'{point}  {len(at):4}  {title}')
    print(f'lines of src {sum(t.count(chr(10)) for _, t in sources)}, of proofs {sum(t.count(chr(10)) for _, t in proofs)}')
