#!/usr/bin/env python3
"""Lists places in src/ where an older form of the language may stand, and counts them.

    python3 tools/places.py [FOLDER] [POINT]

FOLDER is a checkout (this one by default), POINT one of the names that the last lines print. A place that is listed is looked at by a
reader: not each is one, and docs/DESIGN-PASS.md says of each point which are. Comments are not read.
"""
import re, sys, pathlib, collections

ROOT = pathlib.Path(sys.argv[1]) if len(sys.argv) > 1 else pathlib.Path(__file__).resolve().parent.parent
ONLY = sys.argv[2] if len(sys.argv) > 2 else None

def code(path):
    """The lines of a file without their comments."""
    return [re.sub(r'//.*', '', line) for line in path.read_text().split('\n')]

FILES = {p.relative_to(ROOT / 'crates'): code(p) for p in sorted(ROOT.glob('crates/*/src/**/*.rt'))}

def grep(pattern, tests=True):
    found = []
    for path, lines in FILES.items():
        if not tests and (path.name == 'tests.rt'):
            continue
        for number, line in enumerate(lines, 1):
            if re.search(pattern, line):
                found.append(f'{path}:{number}: {line.strip()}')
    return found

def functions():
    """Each function: file, line, name, parameters, clauses, body."""
    for path, lines in FILES.items():
        text = '\n'.join(lines)
        for m in re.finditer(r'\bfn (\w+)', text):
            at = m.end()
            if at < len(text) and text[at] == '<':
                depth = 0
                while True:
                    if text[at] == '<': depth += 1
                    if text[at] == '>' and text[at - 1] != '-': depth -= 1
                    at += 1
                    if depth == 0: break
            if text[at] != '(': continue
            depth, start = 0, at
            while True:
                if text[at] == '(': depth += 1
                if text[at] == ')': depth -= 1
                at += 1
                if depth == 0: break
            params = text[start + 1:at - 1]
            # clauses stand in braces behind requires or ensures; the first other brace opens the body
            clauses = []
            while at < len(text):
                c = re.compile(r'\s*(requires|ensures)\s*(\w*)\s*\{').match(text, at)
                if c:
                    end, depth = c.end(), 1
                    while depth:
                        depth += {'{': 1, '}': -1}.get(text[end], 0)
                        end += 1
                    clauses.append((c.group(1), text[c.end():end - 1].strip()))
                    at = end
                    continue
                if text[at] in '{;': break
                at += 1
            body = ''
            if at < len(text) and text[at] == '{':
                end, depth = at + 1, 1
                while depth:
                    depth += {'{': 1, '}': -1}.get(text[end], 0)
                    end += 1
                body = text[at + 1:end - 1]
            yield path, text.count('\n', 0, m.start()) + 1, m.group(1), params, clauses, body

FUNCTIONS = list(functions())

def twins():
    """Functions whose bodies have the same words in the same order, but for names and numbers of their own."""
    shapes = collections.defaultdict(list)
    for path, line, name, params, clauses, body in FUNCTIONS:
        tokens = re.findall(r'[A-Za-z_]\w*|\d\w*|\S', body)
        if len(tokens) < 14: continue
        keep = {'if', 'else', 'for', 'in', 'match', 'let', 'mut', 'return', 'while', 'Some', 'None', 'Ok', 'Err', 'self'}
        shape = ' '.join(t if t in keep or not re.match(r'\w', t) else 'x' for t in tokens)
        shapes[shape].append(f'{path}:{line}: fn {name}')
    return [' | '.join(group) for group in shapes.values() if len(group) > 1]

def facts():
    """Facts that stand in the requires of three or more functions."""
    where = collections.defaultdict(set)
    for path, line, name, params, clauses, body in FUNCTIONS:
        if path.name == 'tests.rt': continue
        for kind, text in clauses:
            if kind != 'requires': continue
            for fact in re.split(r'×', text):
                fact = fact.strip()
                while fact.startswith('(') or fact.endswith(')'):
                    opens = fact.count('(') - fact.count(')')
                    if fact.startswith('(') and (opens > 0 or (opens == 0 and fact.endswith(')'))): fact = fact[1:]
                    elif fact.endswith(')') and opens < 0: fact = fact[:-1]
                    elif opens == 0 and not fact.startswith('('): break
                    else: fact = fact.strip('()')
                    fact = fact.strip()
                fact = re.sub(r'\b(bytes|block|file|entries)\.now\b', 'bytes.now', fact)
                fact = re.sub(r'\bstart\b', 'reference', fact)
                where[(path.parts[0], fact)].add(f'{path}:{line} {name}')
    return [f'{crate}: {fact}: ' + ', '.join(sorted(places)) for (crate, fact), places in where.items() if len(places) > 2]

def together():
    """Two parameters with the same names and types in four or more functions of a crate."""
    where = collections.defaultdict(set)
    for path, line, name, params, clauses, body in FUNCTIONS:
        if path.name == 'tests.rt': continue
        named = re.findall(r'(\w+): (&?(?:mut )?[\w:]+)', params)
        named = [p for p in named if p[1] not in ('&HostRuntime', 'Global') or p[0] == 'heap']
        for i in range(len(named)):
            for j in range(i + 1, len(named)):
                where[(path.parts[0], named[i], named[j])].add(f'{path.name}:{line} {name}')
    return [f'{crate}: {a[0]}, {b[0]}: ' + ', '.join(sorted(p)) for (crate, a, b), p in where.items() if len(p) > 3]

def answers():
    """The answers of proof files, by crate."""
    out = []
    for crate in sorted((ROOT / 'crates').iterdir()):
        count = lines = 0
        for p in crate.glob('proofs/**/*.antt'):
            text = p.read_text()
            lines += text.count('\n')
            if p.name == 'Answers.antt': count += len(re.findall(r'^pub ', text, re.M))
        out.append(f'{crate.name}: {count} answers, {lines} lines of proofs')
    return out

POINTS = {
    '1-own-enums': lambda: grep(r'^\s*(pub(\(\w+\))? )?enum \w'),
    '1-numbers-for-kinds': lambda: grep(r'\b(kind|cause): &?u(8|32)\b|reference(: u32)? < 3|reference( as usize)? - 3|match (reference|self\.kind|other\.kind)\b|\.kind (==|!=) |\bkind = ', False),
    '1-flags': lambda: grep(r'^\s*(pub(\(\w+\))? )?\w+: bool,'),
    '1-refusals-made-errors-by-hand': lambda: grep(r'anyhow!\('),
    '2-twins': twins,
    '3-ranges': lambda: grep(r'\bfor \w+ in .*\.\.'),
    '3-places-by-enumerate': lambda: grep(r'\bfor .* in .*enumerate\(\)'),
    '3-other-for': lambda: [l for l in grep(r'^\s*for .* in ') if '..' not in l.split(' in ')[-1] and 'enumerate()' not in l],
    '3-while': lambda: grep(r'^\s*(while|loop)\b'),
    '3-counters': lambda: grep(r'^\s*[\w.]+ \+= 1;'),
    '4-flags-to-numbers': lambda: grep(r'if .*\{ ?[01] ?\} else \{ ?[01] ?\}'),
    '4-casts': lambda: grep(r' as (u8|u16|u32|u64|usize)\b'),
    '4-printing': lambda: grep(r'\bfn (say|expected|told)\w*\b', False),
    '4-comparing': lambda: grep(r'\bfn same_\w+|self(\.\w+)*\.(level|low|high|output) == other', False),
    '5-facts-in-three-contracts': facts,
    '5-parameters-together': together,
    '6-arrays-in-structs': lambda: grep(r'^\s*(pub(\(\w+\))? )?\w+: \[[\w<>]+; \w+\],'),
    '6-ranges-of-bytes': lambda: grep(r'\[\w+\.\.\w+ \+ \w+\]|\[\w+( as usize)?\]\.copy_from_slice'),
    '6-indices-into-tables': lambda: grep(r'\[\(?\w+( - \d\))? as usize\]|\[\w+\]\.(node|level)|nodes\[', False),
    '7-switches-on-steps': lambda: grep(r'match (growth|laying|command|call)\b', False),
    '7-boxed-or-dyn': lambda: grep(r'\bdyn\b|Box<|: fn\('),
    '8-answers': answers,
}

for name, find in POINTS.items():
    if ONLY and name != ONLY: continue
    found = find()
    print(f'== {name}: {len(found)}')
    for line in found: print('   ' + line)
