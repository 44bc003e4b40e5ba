#!/usr/bin/env python3
"""Counts, in crates/*/src (and, where it says so, in proofs/), the places that docs/DESIGN-PASS.md speaks of.
Run it at the top of a checkout: `tools/places.py` prints a count a point, `tools/places.py -l` each place too."""
import collections, glob, re, sys

LIST = '-l' in sys.argv[1:]
files = {}
for path in sorted(glob.glob('crates/*/src/**/*.rt', recursive=True)):
    files[path] = open(path, encoding='utf8').read()

def code(text):
    return re.sub(r'(?m)//.*$', '', text)

def show(point, what, places):
    print(f'{point}  {len(places):4d}  {what}')
    if LIST:
        for p in places:
            print('            ' + p)

def grep(pattern):
    out = []
    for path, text in files.items():
        for n, line in enumerate(code(text).split('\n'), 1):
            if re.search(pattern, line):
                out.append(f'{path}:{n}: {line.strip()[:110]}')
    return out

def functions():
    for path, text in files.items():
        for m in re.finditer(r'(?m)^( *)(?:pub(?:\(crate\))? )?(?:const )?(?:extern "C" )?fn (\w+)(?:<[^(]*>)?\(((?:[^()]|\([^()]*\))*)\)(.*(?:\n(?!\1\}).*)*)', code(text)):
            yield path, m.group(2), m.group(3), m.group(4)

# 1. own enums of the shape of Option or Result; a flag with a value beside it; numbers for kinds or refusals
enums = []
for path, text in files.items():
    for m in re.finditer(r'(?m)^(?:pub )?enum (\w+) \{((?:.*\n)*?)^\}', code(text)):
        variants = re.findall(r'(?m)^    (\w+)', m.group(2))
        if 'Refused' in variants or ('Nothing' in variants and len(variants) < 4):
            enums.append(f'{path}: {m.group(1)} {{ {", ".join(variants)} }}')
show('1a', 'own enums with a variant for a refusal, or for nothing', enums)
show('1b', 'fields that say whether the value beside them counts (outcome, answer)', grep(r'^\s*pub (outcome|answer): '))
show('1c', 'functions from a refusal or a kind to its number, or back', [f'{p}: {f}' for p, f, a, r in functions()
     if re.match(r'\s*\w+: (?:\w+::)?(Refusal|Kind)\s*$', a) and re.match(r'\s*-> u\d+', r) or re.match(r'\s*-> Kind\b', r)])
show('1d', 'arms that hand a refusal on', grep(r'(?:::Refused|\bErr)\((\w+)\) => (?:return )?(?:\w+::Refused|Err)\(\1\)'))

# 2. twins: one name for functions, or constants, in several files
for what, pat in (('functions', r'(?m)^ *(?:pub(?:\(crate\))? )?(?:extern "C" )?fn (\w+)'), ('constants', r'(?m)^(?:pub(?:\(crate\))? )?const (\w+)')):
    names = collections.defaultdict(list)
    for path, text in files.items():
        for m in re.finditer(pat, code(text)):
            names[m.group(1)].append(path)
    show('2' + 'ab'[what == 'constants'], f'names of {what} that stand in two or more files', [f'{n}: {", ".join(v)}' for n, v in sorted(names.items()) if len(v) > 1])
bodies = collections.defaultdict(list)
for path, name, args, rest in functions():
    m = re.search(r'\n *\{\n((?:.*\n)*.*)', rest)
    if m:
        body = re.sub(r'\b[a-z_]\w*\b', 'x', re.sub(r'\s+', ' ', m.group(1)))
        if len(body) > 30:
            bodies[body].append(f'{path}: {name}')
show('2c', 'bodies that are the same but for names, in two or more functions', [' = '.join(v) for v in bodies.values() if len(v) > 1])

# 3. loops that count an index by hand
show('3a', 'while loops', grep(r'^\s*while '))
show('3b', 'indices counted up or down by hand', grep(r'^\s*(\w+) [+-]= 1;'))

# 4. equality, order, copying and conversion by hand
show('4a', 'fields copied to a variable of their name', grep(r'^\s*let (\w+) = \w+\.\1;'))
copies = []
for path, text in files.items():
    for m in re.finditer(r'(?m)^ *(?:\w+: )?(\w+) \{\n((?: +\w+(?:: [^\n]*)?,\n)+) *\}', code(text)):
        same = re.findall(r'(?m)^ +(\w+): (\w+)\.\1,', m.group(2))
        if len(same) >= 3:
            copies.append(f'{path}: {m.group(1)} with {len(same)} fields of another value')
show('4b', 'literals that copy three or more fields of another value', copies)
show('4c', 'lines that compare one field of two values', grep(r'\b(\w+)\.(\w+) [!=]= (?!\1\.)\w+\.\2\b'))
show('4d', 'arms that list a variant to say true or false', grep(r'^\s*\w+::\w+(?:\([^)]*\)| \{[^}]*\})? => (true|false),'))
show('4e', 'lines that set a field by a field or a number by a variable of its name', grep(r'^\s*(\w+): \1,'))

# 5. facts in three or more contracts; parameters that travel together
facts = collections.Counter()
for path, text in files.items():
    for m in re.finditer(r'(?m)^\s*requires (?:\w+ )?\{ (.*) \}$', code(text)):
        for fact in re.split(r' × ', m.group(1)):
            facts[re.sub(r'^\((.*)\)$', r'\1', fact.strip())] += 1
show('5a', 'facts in the requires of three or more functions', [f'{n}: {f}' for f, n in facts.most_common() if n >= 3])
show('5b', 'functions with seven or more parameters', [f'{p}: {f} ({len([x for x in a.split(",") if ":" in x])})' for p, f, a, r in functions() if len([x for x in a.split(',') if ':' in x]) >= 7])

# 6. buffers with a length beside them
show('6', 'a count of how much of a buffer is in use', grep(r'^\s*let (?:mut )?(many|m\d?|c) = (?:list_lost|lost|plan|push_bit|list\.len)|^struct (Part|Multiples)\b|&\w+\[\.\.many\]'))

# 7. a switch on which step to run
show('7a', 'enums whose variants only choose a function', grep(r'^(?:pub )?enum Question\b') + grep(r'Question::\w+ =>'))
show('7b', 'tests of a step number', grep(r'^\s*(?:\} else )?if i (?:==|<=) \d'))

# 8. proofs
n = alone = 0
for path in sorted(glob.glob('crates/*/proofs/**/*.antt', recursive=True)):
    text = open(path, encoding='utf8').read()
    n += text.count('\n')
    alone += len(re.findall(r'(?m)^[\w-]+ (?:g )?c = search rules$', text))
print(f'8a  {n} lines of proofs/, 8b  {alone} answers that only say `search rules`')
