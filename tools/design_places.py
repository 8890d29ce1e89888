#!/usr/bin/env python3
"""Places in crates/*/src that docs/DESIGN-PASS.md counts, by its eight points: design_places.py [-v] [ROOT].

Each rule reads the text of the code and knows no types, so a place that it finds is one to look at. With -v it lists them."""
import os, re, sys
from collections import defaultdict

args = [a for a in sys.argv[1:] if a != '-v']
verbose = '-v' in sys.argv[1:]
root = args[0] if args else '.'


def sources(folder, end):
    for base, dirs, files in sorted(os.walk(os.path.join(root, 'crates'))):
        dirs.sort()
        if 'out' in dirs:
            dirs.remove('out')
        parts = os.path.relpath(base, root).split(os.sep)
        if len(parts) >= 3 and parts[2] == folder:
            for f in sorted(files):
                if f.endswith(end):
                    yield os.path.join(base, f)


def bare(line):
    return re.sub(r'//.*', '', line)


def functions():
    """(file, line, name, head, body) of each function; the head without its clauses."""
    for path in sources('src', '.rt'):
        lines = open(path, encoding='utf-8').read().split('\n')
        i = 0
        while i < len(lines):
            m = re.match(r'( *)(?:pub(?:\(crate\))? )?(?:extern "C" )?fn (\w+)', lines[i])
            if m:
                indent, start, j = m.group(1), i, i
                while not re.match(indent + r'\{$', lines[j]) and (re.match(r' *(requires|ensures) ', lines[j]) or lines[j][-1:] not in ('{', '}', ';')):
                    j += 1
                k = j
                while not re.match(indent + r'\}', lines[k]) and not (k == start and lines[k].endswith('}')):
                    k += 1
                    if k >= len(lines):
                        break
                head = [bare(l) for l in lines[start:j + 1] if not re.match(r' *(requires|ensures) ', l)]
                yield (os.path.relpath(path, root), start + 1, m.group(2), ' '.join(head), '\n'.join(bare(l) for l in lines[j:k + 1]), [l.strip() for l in lines[start:j + 1] if re.match(r' *requires ', l)])
                i = j
            i += 1


def items(kind):
    for path in sources('src', '.rt'):
        text = open(path, encoding='utf-8').read()
        for m in re.finditer(r'^(?:pub(?:\(crate\))? )?' + kind + r' (\w+)[^\n]*\{\n(.*?)^\}', text, re.S | re.M):
            yield os.path.relpath(path, root), text[:m.start()].count('\n') + 1, m.group(1), re.sub(r'//.*', '', m.group(2))


def lines_with(*patterns):
    """The lines of the code that begin with one of the patterns."""
    found = []
    for path in sources('src', '.rt'):
        for n, l in enumerate(open(path, encoding='utf-8'), 1):
            if any(re.match(p, l) for p in patterns):
                found.append(f'{os.path.relpath(path, root)}:{n} {l.strip()}')
    return found


def show(title, found):
    print(f'{title}: {len(found)}')
    if verbose:
        for f in found:
            print('    ' + f)


fns = list(functions())
at = lambda f: f'{f[0]}:{f[1]} {f[2]}'

# 1
shaped = []
for path, line, name, body in items('enum'):
    variants = re.findall(r'^    (\w+)(\([^\n]*\))?,', body, re.M)
    empty = [v for v, data in variants if v in ('None', 'Nothing', 'Accepted', 'Fits', 'Keep', 'Outside', 'WellFormed', 'Unlisted', 'Unknown')]
    if empty:
        shaped.append(f'{path}:{line} {name}: {", ".join(v for v, _ in variants)}')
show('1a enums with a variant for none or for accepted', shaped)
flags = []
for path, line, name, body in items('struct'):
    for f in re.findall(r'^    (?:pub(?:\(crate\))? )?(\w+): bool,', body, re.M):
        if re.match(r'is_|well_|has_', f):
            flags.append(f'{path}:{line} {name}.{f}')
show('1b fields that say whether the others count', flags)
numbers = [at(f) for f in fns if re.search(r'\b(number|kind|group): (u64|u32|u8|usize)', f[3])]
show('1c functions that take a number for a kind or an answer', numbers)
show('1d numbers for refusals, and values that stand for none', lines_with(
    r'(pub(\(crate\))? )?const (WHOLE|CLOSED|NONE|NO_\w+)', r'.*(Malformed|Refused|Broken)\(\d+\)', r' +number: \d+,'))

# 2
groups = defaultdict(list)
for f in fns:
    text = f[3] + f[4]
    tokens = re.findall(r'b?"(?:[^"\\]|\\.)*"|b?\'(?:[^\'\\]|\\.)\'|0[xb][\w]+|\d[\w]*|\w+|[^\s\w]', text)
    seen, shape = {}, []
    for t in tokens:
        if re.match(r'b?["\']|\d', t):
            shape.append('#')
        elif re.match(r'\w', t) and t not in ('fn', 'pub', 'crate', 'let', 'mut', 'if', 'else', 'match', 'while', 'for', 'in', 'return', 'as', 'true', 'false', 'self'):
            shape.append(str(seen.setdefault(t, len(seen))))
        elif t not in ('pub', 'crate', ','):
            shape.append(t)
    if len(shape) >= 24:
        groups[' '.join(shape)].append(at(f))
twins = sorted((v for v in groups.values() if len(v) > 1), key=lambda v: (-len(v), v))
show('2 groups of functions of one shape', [' = '.join(v) for v in twins])
if not verbose:
    print(f'  functions in them: {sum(len(v) for v in twins)}')

# 3
show('3 loops over an index', lines_with(r' *while ', r' *for \w+ in [\w:]*0(u\d+)?\.\.', r' *for \w+ in \w+\.\.'))

# 4
tables = []
for f in fns:
    inner = re.sub(r'^.*?\{', '', f[4], 1, re.S)
    arms = re.findall(r'=> ([^,\n]+),', inner)
    if re.match(r'\s*match \w+ \{', inner) and arms and all(re.fullmatch(r'true|false|\d[\w]*|\w+::\w+|-?\d+', a.strip()) for a in arms):
        tables.append(at(f))
show('4a matches with a plain value in each arm', tables)
small = [at(f) for f in fns if re.match(r'\s*(widened|both|least|is_same\w*|flag|is_zero|below|add|at_most)$', f[2])]
show('4b comparisons and conversions that have a name of their own', small)

# 5
trios = defaultdict(list)
for f in fns:
    inside = re.search(r'\((.*)\)', f[3], re.S)
    if not inside:
        continue
    ps = [p.strip() for p in re.split(r',(?![^<\[(]*[>\])])', inside.group(1)) if ':' in p]
    ps = [re.sub(r'\s+', ' ', re.sub(r'&(mut )?', '&', p)) for p in ps]
    for i in range(len(ps) - 1):
        trios[(ps[i], ps[i + 1])].append(at(f))
pairs = sorted(((k, v) for k, v in trios.items() if len(v) >= 8), key=lambda kv: -len(kv[1]))
show('5a pairs of parameters that eight or more functions take one after the other', [f'{len(v)}: {k[0]}, {k[1]}' for k, v in pairs])
clauses = defaultdict(list)
for f in fns:
    for c in f[5]:
        clauses[re.sub(r'^requires \w* ?', '', c)].append(at(f))
often = sorted(((k, v) for k, v in clauses.items() if len(v) >= 3), key=lambda kv: -len(kv[1]))
show('5b facts that three or more functions ask for', [f'{len(v)}: {k}: ' + '; '.join(v) for k, v in often])

# 6
beside = [at(f) for f in fns if re.search(r'\[u\d+\], at: usize', f[3])]
show('6a functions that take a buffer and a place', beside)
parallel = [at(f) for f in fns if len(re.findall(r': &(?:mut )?\[u64; ENTRIES\]', f[3])) >= 2]
show('6b functions that take arrays which belong together', parallel)
counted = [at(f) for f in fns if re.search(r'Filled|-> \(usize|count: usize', f[3])]
show('6c functions of a buffer with a count beside it', counted)

# 7
switches = []
for f in fns:
    for m in re.finditer(r'match (kind|group|byte|k|x|i / 16) \{(.*?)\n    \}', f[4], re.S):
        arms = re.findall(r'=> ([a-z_:]+)\(', m.group(2))
        if len(arms) >= 2:
            switches.append(at(f))
show('7 matches on a number that choose what to call', switches)

# 8
for name in ('Proof', 'Answers', 'Invariants'):
    files = [p for p in sources('proofs', '.antt') if os.path.basename(p) == name + '.antt']
    print(f'8 files {name}.antt: {len(files)}, lines {sum(len(open(p, encoding="utf-8").read().splitlines()) for p in files)}')
rest = [p for p in sources('proofs', '.antt') if os.path.basename(p) not in ('Proof.antt', 'Answers.antt', 'Invariants.antt', 'Lib.antt')]
print(f'8 files of laws: {len(rest)}, lines {sum(len(open(p, encoding="utf-8").read().splitlines()) for p in rest)}')
