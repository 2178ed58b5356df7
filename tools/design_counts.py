#!/usr/bin/env python3
"""Counts the places in src/ that docs/DESIGN-PASS.md speaks of, a heading for each of its points.

    tools/design_counts.py            of the files as they stand
    tools/design_counts.py COMMIT     of a commit
"""
import collections
import re
import subprocess
import sys


def sources(commit):
    names = subprocess.run(['git', 'ls-tree', '-r', '--name-only', commit, 'crates'] if commit else ['git', 'ls-files', 'crates'],
                           capture_output=True, text=True, check=True).stdout.split()
    for name in names:
        if '/src/' in name and name.endswith('.rt'):
            if commit:
                text = subprocess.run(['git', 'show', f'{commit}:{name}'], capture_output=True, text=True, check=True).stdout
            else:
                text = open(name, encoding='utf-8').read()
            yield name.removeprefix('crates/').replace('/src/lib.rt', '').replace('/src/main.rt', '').replace('/src/', '/').removesuffix('.rt'), text


def functions(text):
    """Each function's name, its parameters and its requires."""
    for found in re.finditer(r"\bfn (\w+)(?:<[^(]*>)?\(([^)]*)\)([^{]*(?:\{[^\n]*\}\n[^{]*)*)", text):
        parameters = [' '.join(p.split()) for p in re.split(r',(?![^\[]*\])', found[2]) if p.strip()]
        yield found[1], parameters, re.findall(r'requires\s*(?:\w+\s*)?\{ (.*) \}\n', found[3])


def lines(files, pattern):
    return [f'{name}: {line.strip()}' for name, text in files for line in text.split('\n') if re.search(pattern, line)]


def show(title, places):
    print(f'{title}: {len(places)}')
    for place in places:
        print('    ' + place)


files = list(sources(sys.argv[1] if len(sys.argv) > 1 else None))
show('1 enums', lines(files, r'^(pub )?enum '))
show('1 flags and numbers beside a value', lines(files, r'^    pub (found|right|answer|number|allowed): '))
show('1 numbers that stand for none', lines(files, r'^(pub )?const (MARK|FORBIDDEN|NO_\w+|NONE|NUMBER|OPTIONAL): (bool|u16|u32|u64)'))

loops = []
for name, text in files:
    current = ''
    for line in text.split('\n'):
        head = re.search(r'\bfn (\w+)', line)
        if head:
            current = head[1]
        if re.match(r' *(while|loop)\b', line):
            loops.append(f'{name}::{current}: {line.strip()}')
show('3 loops', loops)
show('4 conversions, order and equality', lines(files, r'^ *(pub )?fn (as_number|wide|byte_at|half_at|cost_at|number_at|bed_of|low_word|high_word|cost_of|word_of|digit|lesser|place_of|refusal_number|precedes|same_beds|\w+_values)\('))

facts = collections.defaultdict(list)
together = collections.defaultdict(list)
for name, text in files:
    for function, parameters, required in functions(text):
        for clause in required:
            for fact in clause.split(' × '):
                facts[re.sub(r'\b(first|second|before)\b', 'region', fact.strip('() '))].append(f'{name}::{function}')
        kinds = [p for p in parameters if ': ' in p]
        for i, one in enumerate(kinds):
            for other in kinds[i + 1:]:
                together[f'{one}, {other}'].append(f'{name}::{function}')
show('5 facts that three or more functions require', [f'{fact}  ({len(where)})' for fact, where in sorted(facts.items(), key=lambda f: -len(f[1])) if len(where) >= 3])
show('5 parameters that five or more functions take together', [f'{pair}  ({len(where)})' for pair, where in sorted(together.items(), key=lambda f: -len(f[1])) if len(where) >= 5])
show('6 arrays of fixed length in structs', lines(files, r'^    pub \w+: \[.*; \w+\],'))
show('7 parameters that are bools', [f'{name}::{function}: {p}' for name, text in files for function, ps, _ in functions(text) for p in ps if p.endswith(': bool')])
