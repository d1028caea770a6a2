#!/usr/bin/env python3
"""Count the forms of docs/DESIGN-PASS.md in crates/*/src: forms.py [COMMIT] [-v].

Of COMMIT, or of the working tree. With -v each place is named. What a count cannot tell (whether an enum is an Option
in disguise) is told by the page, place by place."""
import re
import subprocess
import sys
from collections import Counter, defaultdict


def sources(commit):
    if commit:
        names = subprocess.run(['git', 'ls-tree', '-r', '--name-only', commit, 'crates'],
                               capture_output=True, text=True, check=True).stdout.split()
    else:
        names = subprocess.run(['git', 'ls-files', 'crates'], capture_output=True, text=True, check=True).stdout.split()
    for name in sorted(n for n in names if re.search(r'/src/.*\.rt$', n)):
        if commit:
            text = subprocess.run(['git', 'show', f'{commit}:{name}'], capture_output=True, text=True, check=True).stdout
        else:
            text = open(name).read()
        yield name.replace('crates/', '').replace('/src', ''), re.sub(r'//.*', '', text)


def functions(text):
    """Each function: name, parameters, clauses, body."""
    for m in re.finditer(r'^( *)(?:pub )?(?:extern "C" )?fn (\w+)', text, re.M):
        end = re.compile(r'^' + m[1] + r'\}|\{\}\s*$', re.M).search(text, m.end())
        whole = text[m.start():end.end() if end else None]
        head = re.search(r'^ *\{\s*$|\{\s*$', whole, re.M)
        top = re.split(r'\n\s*(?:requires|ensures)\b', whole, maxsplit=1)[0]
        clauses = re.findall(r'(requires|ensures)\s*(\w*)\s*\{((?:[^{}]|\{[^{}]*\})*)\}', whole)
        at = max((c.end() for c in re.finditer(r'(?:requires|ensures)\s*\w*\s*\{(?:[^{}]|\{[^{}]*\})*\}', whole)),
                 default=head.start() if head else 0)
        yield m[2], top, clauses, whole[at:]


def conjuncts(text):
    depth, part, parts = 0, '', []
    for c in ' '.join(text.split()):
        depth += c in '({[' and 1 or c in ')}]' and -1 or 0
        if c == '×' and depth == 0:
            parts.append(part)
            part = ''
        else:
            part += c
    parts.append(part)
    return [re.sub(r'^\((.*)\)$', r'\1', p.strip()) for p in parts]


def normal(body):
    """A body with its names and numbers taken out."""
    keep = {'if', 'else', 'while', 'for', 'in', 'return', 'let', 'mut', 'match', 'as', 'loop', 'true', 'false'}
    body = re.sub(r'0x[0-9A-Fa-f_]+|\b\d[\d_]*(?:[ui]\w+)?\b', '0', body)
    return ' '.join(re.sub(r'\b[A-Za-z_]\w*(?:::\w+)*\b', lambda m: m[0] if m[0] in keep else 'x', body).split())


def main():
    words = [w for w in sys.argv[1:] if w != '-v']
    places = defaultdict(list)
    facts, groups, bodies = defaultdict(set), defaultdict(set), defaultdict(list)
    for name, text in sources(words[0] if words else None):
        for m in re.finditer(r'^(?:pub )?enum (\w+)', text, re.M):
            places['1 enums of its own'].append(f'{name} {m[1]}')
        for m in re.finditer(r'^ +(?:pub )?(\w+): bool,', text, re.M):
            places['1 flags in a struct'].append(f'{name} {m[1]}')
        for f, top, clauses, body in functions(text):
            at = f'{name} {f}'
            if re.search(r'-> (?:u8|u16|u32|u64|usize)\s*$', top) and re.search(r'\b1\b', body) and \
                    not re.search(r'[a-z_]\w*\(|[+*/-]', body.replace(f, '')):
                places['1 numbers for a yes, a no or a kind'].append(at)
            if len(normal(body).split()) > 12:
                bodies[normal(body)].append(at)
            for m in re.finditer(r'^ +(while|loop)\b[^{]*', body, re.M):
                places['3 while and loop'].append(f'{at}: {m[0].strip()}')
            for m in re.finditer(r'^ +for\b[^{]*', body, re.M):
                places['3 for'].append(f'{at}: {m[0].strip()}')
            for m in re.finditer(r'\.(?:all|any|position|fill|fold|map|iter|copy_within|copy_from_slice)\(', body):
                places['3 methods of iterators and slices'].append(f'{at}: {m[0]}')
            for m in re.finditer(r'\b(\w+): \1\b(?=\s*[,}])', body):
                places['4 fields said twice, as x: x'].append(f'{at}: {m[0]}')
            if re.search(r'return true;\s*\}\s*false\s*\}|return false;\s*\}\s*true\s*\}', body):
                places['4 a test that ends in its own answer'].append(at)
            for m in re.finditer(r'\bas (?:u8|u16|u32|u64|usize)\b', body):
                places['4 as'].append(f'{at}')
            if re.match(r'\s*\{?\s*(?:\w+ as \w+|if (\w+) <=? (\w+) \{ (?:\1|\2) \} else \{ (?:\1|\2) \})\s*\}', body):
                places['4 conversions, least and greatest in a function'].append(at)
            for _, _, clause in clauses:
                for c in conjuncts(clause):
                    c = re.sub(r'\b(?:table|b)\.', 't.', c)
                    c = re.sub(r'\b(?:work|places)\.(?:now|old)', 'row.now', c.replace('.old', '.now'))
                    if 'result' not in c and '.new' not in c:
                        facts[c].add(at)
            inside = re.search(r'\((.*)\)', ' '.join(top.split()))
            names = [p.split(':')[0].strip() for p in re.sub(r'<[^>]*>', '', inside[1] if inside else '').split(',')]
            names = ['t' if n == 'table' else 'row' if n == 'work' else n for n in names if n]
            for group in (('t', 'row', 'leg', 'k'),):
                if set(group) <= set(names):
                    groups[group].add(at)
            arrays = re.findall(r'(\w+)(?:: &(?:mut )?| *: )\[[^\];]*; ([^\]]+)\]', top + body)
            for size, n in Counter(s for _, s in arrays).items():
                if n > 1:
                    places['6 arrays of one length side by side'].append(f'{at}: {n} of {size}')
            for m in re.finditer(r'^( *)match\b[^{]*\{\n(.*?)^\1\}', body, re.M | re.S):
                arms = re.findall(r'=>\s*(?:\{\s*)?[\w:]*\w\(', m[2])
                if len(arms) > 2:
                    places['7 matches whose arms call steps'].append(at)
    for fs in bodies.values():
        if len(fs) > 1:
            places['2 functions alike but for names and numbers'].append(' = '.join(fs))
    for c, fs in sorted(facts.items(), key=lambda x: -len(x[1])):
        if len(fs) > 2:
            places['5 facts in three contracts or more'].append(f'{len(fs)}: {c}')
    for g, fs in groups.items():
        places['5 functions that take ' + ', '.join(g)] = sorted(fs)
    for point in sorted(places):
        print(f'{len(places[point]):4}  {point}')
        if '-v' in sys.argv:
            for p in places[point]:
                print('        ' + p)


main()
