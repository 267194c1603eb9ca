#!/usr/bin/env python3
"""Counts, in the src/ of all crates, the places that docs/DESIGN-PASS.md speaks of: places.py [-v] [TOP]

A line for each kind with its count; with -v each place, as FILE:LINE or by name. TOP is the top of a checkout, `.` if none is given."""
import collections, glob, os, re, sys

args = sys.argv[1:]
verbose = '-v' in args
args = [a for a in args if a != '-v']
top = args[0] if args else '.'
files = sorted(f for f in glob.glob(top + '/crates/*/src/**/*.rt', recursive=True))
texts = {f: open(f).read() for f in files}


def name(f):
    return os.path.relpath(f, top + '/crates')


def report(point, kind, places):
    print(f'{point}  {len(places):4}  {kind}')
    if verbose:
        for p in places:
            print('           ', p)


def lines(pattern, skip=r'^\s*//|^ghost use|^\s*use '):
    out = []
    for f, t in texts.items():
        for i, l in enumerate(t.split('\n'), 1):
            if re.search(skip, l):
                continue
            out += [f'{name(f)}:{i}: {l.strip()[:90]}' for _ in re.finditer(pattern, l)]
    return out


def block(t, i):
    """the text from the first { at or after i to its }"""
    i = t.index('{', i)
    depth = 0
    for j in range(i, len(t)):
        depth += (t[j] == '{') - (t[j] == '}')
        if depth == 0:
            return t[i:j + 1]
    return t[i:]


def functions():
    """(file, line, name, head, body) of each function"""
    for f, t in texts.items():
        for m in re.finditer(r'^( *)(?:pub )?(?:unsafe )?(?:extern "C" )?fn (\w+)', t, re.M):
            e = re.search(r'^' + m.group(1) + r'(?:\{|.*[)\w>\]] \{)$', t[m.start():], re.M)
            if not e:
                continue
            k = m.start() + e.end() - 1
            yield f, t[:m.start()].count('\n') + 1, m.group(2), t[m.start():k], block(t, k)


FUNCTIONS = list(functions())

# 1: answers
enums = [(name(f), m.group(1), m.group(2)) for f, t in texts.items() for m in re.finditer(r'enum (\w+) \{\n((?:.*\n)*?)\}\n', t)]
report(1, 'enums with a refusal, or with nothing, beside one answer or two',
       [f'{f} {n}' for f, n, b in enums if re.search(r'Refusal', b) or re.search(r'^    (Failed|Absent\(usize\)),', b, re.M)])
report(1, 'answers that are made or taken apart by a refusal case of their own', lines(r'\b[A-Z]\w+::Refused\('))
report(1, 'refusals named by a number', lines(r'\brefus(?:e|al)\(\d+,|\bnumber: (?:\d+|u8)\b|(?<!\.)\.number\b(?!\()'))
report(1, 'functions that tell a kind by a number', [f'{name(f)}:{i} {n}' for f, i, n, h, b in FUNCTIONS if re.search(r'\b(number|kind): u8\b', h)])


# 2: functions of one shape
def shape(n, head, body):
    t = re.sub(r'(requires|ensures)\b[^{]*\{(?:[^{}]|\{[^{}]*\})*\}', '', head[head.index(n) + len(n):]) + body
    t = re.sub(r'//.*', '', t)
    t = re.sub(r'b?"(?:[^"\\]|\\.)*"', 'S', t)
    t = re.sub(r"b'(?:[^'\\]|\\.)'", 'N', t)
    t = re.sub(r'\b\d[\w.]*\b', 'N', t)
    t = re.sub(r'\b(u8|u16|u32|u64|usize)\b', 'T', t)
    t = re.sub(r'\b(?!fn\b|let\b|mut\b|if\b|else\b|while\b|for\b|in\b|match\b|return\b|T\b|N\b|S\b)[a-zA-Z_]\w*\b', 'x', t)
    return re.sub(r'\s+', '', t)


shapes = collections.defaultdict(list)
for f, i, n, h, b in FUNCTIONS:
    if b.count('\n') >= 2:
        shapes[shape(n, h, b)].append(f'{name(f)} {n}')
groups = [g for g in shapes.values() if len(g) > 1]
report(2, 'functions of a shape that another has too (in groups)', [' = '.join(g) for g in groups])
structs = collections.defaultdict(list)
for f, t in texts.items():
    for m in re.finditer(r'(?:struct|enum) (\w+) \{\n((?:.*\n)*?)\}\n', t):
        body = re.sub(r'//.*', '', m.group(2))
        body = re.sub(r'pub ', '', body)
        structs[re.sub(r'\s+', '', body)].append(f'{name(f)} {m.group(1)}')
report(2, 'types with the same fields or variants (in groups)', [' = '.join(g) for g in structs.values() if len(g) > 1])

# 3: loops
counted, other = [], []
for f, t in texts.items():
    for m in re.finditer(r'\bwhile (\w+) < ', t):
        b = block(t, m.start())
        place = f'{name(f)}:{t[:m.start()].count(chr(10)) + 1}: {t[m.start():t.index("{", m.start())].strip()[:80]}'
        (counted if re.search(r'\b' + m.group(1) + r' \+= 1;', b) else other).append(place)
    for m in re.finditer(r'\bwhile (?!\w+ < )', t):
        if t.rfind('//', t.rfind('\n', 0, m.start()), m.start()) < 0:
            other.append(f'{name(f)}:{t[:m.start()].count(chr(10)) + 1}: {t[m.start():t.index("{", m.start())].strip()[:80]}')
    for m in re.finditer(r'\bwhile 1 < (\w+)', t):
        counted.append(f'{name(f)}: {m.group(0)}')
report(3, 'loops that count an index by hand', counted)
report(3, 'other `while` loops', [o for o in other if 'while 1 <' not in o])

# 4: conversions and comparisons
report(4, 'conversions by functions of our own', lines(r'(?<!fn )\b(?:wide|wide16|narrow|narrow16)\('))
report(4, 'bits chosen by `if`', lines(r'\{ 1 \} else \{ 0 \}|\{ 0 \} else \{ 1 \}'))
plain = [f'{name(f)} {m.group(1)}' for f, t in texts.items()
         for m in re.finditer(r'#\[derive\(Clone, Copy\)\]\n(?:pub )?(?:struct|enum) (\w+)', t)]
report(4, 'plain types that compare and print nothing', plain)

# 5: parameters and facts
groups5 = collections.Counter()
where = collections.defaultdict(list)
for f, i, n, h, b in FUNCTIONS:
    m = re.search(r'\(([^)]*)\)', h)
    ps = [re.sub(r'\s+', ' ', p.strip()) for p in (m.group(1) if m else '').split(',') if ':' in p]
    names = [p.split(':')[0].strip() + ':' + p.split(':')[1].strip() for p in ps]
    for k in range(len(names) - 1):
        where[(names[k], names[k + 1])].append(f'{name(f)} {n}')
report(5, 'pairs of parameters that stand together in ten functions or more',
       [f'{len(v)}: {a}, {b}' for (a, b), v in sorted(where.items(), key=lambda x: -len(x[1])) if len(v) >= 10])
facts = collections.defaultdict(set)
for f, i, n, h, b in FUNCTIONS:
    for m in re.finditer(r'requires\b[^{]*\{((?:[^{}]|\{[^{}]*\})*)\}', h):
        for fact in re.split(r' × ', re.sub(r'\s+', ' ', m.group(1)).strip()):
            fact = fact.strip('() ')
            if re.match(r'[A-Z]', fact) and len(fact) > 6:
                facts[re.sub(r'\.(now|old)\b', '', fact)].add(f'{name(f)} {n}')
report(5, 'facts that three or more functions require', [f'{len(v)}: {k}' for k, v in sorted(facts.items(), key=lambda x: -len(x[1])) if len(v) >= 3])

# 6: buffers
report(6, 'local arrays of a fixed size', lines(r'let (?:mut )?\w+ = \[0(?:u8|u16|u64)?; '))
report(6, 'functions that write into a slice at a place', [f'{name(f)} {n}' for f, i, n, h, b in FUNCTIONS
                                                         if re.search(r'&mut \[u\d+\],?\s*at: usize', h)])
# 7: choices of a step
report(7, 'tables of functions, function pointers', lines(r'\bfn\((?!\))'))
report(7, 'functions that are told by an enum which step to run', [f'{name(f)} {n}' for f, i, n, h, b in FUNCTIONS
                                                                  if re.search(r': (?:Operation|Way|Form|Phase|Kind)\b', h)])
