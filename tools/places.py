#!/usr/bin/env python3
"""Counts the places of docs/DESIGN-PASS.md in the sources: what of the older language's forms stands in crates/*/src.

use: tools/places.py [-l] [POINT..]     at the top of the repository; -l prints each place, POINT is 1 to 8

1 enums that may be an Option or a Result, flags in a struct, numbers for kinds and refusals   5 clauses and parameters that come three times
2 functions with the same body but for names, types and constants                             6 arrays with a length beside them
3 loops that count by hand                                                                    7 a match that chooses which function is called
4 equality, order, conversion and copying by hand                                             8 proof files of single functions
"""
import glob, re, sys
from collections import defaultdict

SOURCES = sorted(glob.glob('crates/*/src/*.rt'))
WORD = re.compile(r'[A-Za-z_]\w*|\d[\w]*|"[^"]*"|\S')


def lines(pattern, text, path):
    """Each line in which the pattern stands, as PATH:LINE: TEXT."""
    return [f'{path}:{n}: {l.strip()}' for n, l in enumerate(text.split('\n'), 1) if re.search(pattern, l)]


def closing(text, at, opening, closed):
    """The place of the bracket that closes the one at a place."""
    depth = 0
    for i in range(at, len(text)):
        depth += (text[i] == opening) - (text[i] == closed)
        if depth == 0:
            return i
    return len(text) - 1


def functions(text):
    """Name, line, parameters, clauses and body of each function."""
    for m in re.finditer(r'(?m)^ *(?:pub )?(?:extern "C" )?fn (\w+)', text):
        start = text.index('(', m.end())
        end = closing(text, start, '(', ')')
        clauses, at = [], end + 1
        while True:
            brace = re.compile(r'\{|;(?![^\[\]\n]*\])').search(text, at).start()
            if text[brace] == ';':
                break
            stop = closing(text, brace, '{', '}')
            clause = re.search(r'\b(requires|ensures)(\s+\w+)?\s*$', text[at:brace])
            if not clause:
                yield m.group(1), text.count('\n', 0, m.start()) + 1, text[start + 1:end], clauses, text[brace:stop + 1]
                break
            clauses.append((clause.group(1), ' '.join(text[brace + 1:stop].split())))
            at = stop + 1


def shape(body):
    """A body without its names and constants: each by where it first stands, but for the language's own words and punctuation."""
    seen, out = {}, []
    for w in WORD.findall(re.sub(r'//.*', '', body)):
        if re.match(r'[A-Za-z_0-9"]', w) and w not in ('if', 'else', 'match', 'while', 'for', 'return', 'let', 'mut', 'true', 'false', 'self', 'as', 'in'):
            w = '#' + str(seen.setdefault(w, len(seen)))
        out.append(w)
    return ' '.join(out)


def point_1(files):
    found = []
    for path, text in files:
        found += lines(r'^(pub )?enum \w+', text, path)
        for m in re.finditer(r'(?m)^(?:pub )?struct \w+[^;{]*\{\n(.*?)^\}', text, re.S):
            for f in re.finditer(r'(?m)^ +(?:pub )?(\w+): bool,', m.group(1)):
                found.append(f'{path}:{text.count(chr(10), 0, m.start(1) + f.start()) + 1}: flag {f.group(1)}')
        for name, line, given, _, _ in functions(text):
            for p in re.findall(r'\b(refusal|status|task|kind|digit|code): u8\b', given):
                found.append(f'{path}:{line}: {name} takes {p} as a number')
    return found


def point_2(files):
    groups = defaultdict(list)
    for path, text in files:
        for name, line, _, _, body in functions(text):
            if len(WORD.findall(body)) >= 12:
                groups[shape(body)].append(f'{path}:{line}: {name}')
    return [p for group in groups.values() if len(group) > 1 for p in group]


def point_3(files):
    return [p for path, text in files for p in lines(r'^ +while |^ +for \w+ in \d+\.\.', text, path)]


def point_4(files):
    found = []
    for path, text in files:
        for name, line, given, _, body in functions(text):
            arms = re.findall(r'=> *([^,{]+),', body)
            if arms and all(re.fullmatch(r'true|false|\d[\w]*|\w+::\w+', a.strip()) for a in arms):
                found.append(f'{path}:{line}: {name} converts by a match')
            elif re.fullmatch(r'\{ *if \w+ <=? \w+ \{ \w+ \} else \{ \w+ \} *\}', ' '.join(body.split())):
                found.append(f'{path}:{line}: {name} is min or max')
        found += lines(r'std::num::wrapping_', text, path)
        found += lines(r'^ +let (\w+) = (self|\w+)\.\1;$|^ +(\w+): \3,$', text, path)
    return found


def point_5(files):
    clauses, together = defaultdict(list), defaultdict(list)
    for path, text in files:
        for name, line, given, said, _ in functions(text):
            where = f'{path}:{line}: {name}'
            for kind, clause in said:
                if kind == 'requires':
                    clauses[re.sub(r'\d+|longest_\w+|most_\w+|\w+_length|step_room', 'N', clause)].append(where)
            names = [p.strip() for p in given.split(',') if ':' in p]
            for pair in {', '.join(names[i:i + 2]) for i in range(len(names) - 1)}:
                together[pair].append(where)
    return [f'{k}: {p}' for d in (clauses, together) for k, ps in d.items() if len(ps) > 2 for p in ps]


def point_6(files):
    return [p for path, text in files for p in lines(r'\[0(u8)?; *\w+\]|\w+\[\.\.\w+\]', text, path)]


def point_7(files):
    return [p for path, text in files for p in lines(r'match (task|number|kind|asked|wanted)\b', text, path)]


def point_8(_):
    return sorted(glob.glob('crates/*/proofs/*/*.antt') + glob.glob('crates/*/proofs/*/*/*.antt'))


def main():
    listed = '-l' in sys.argv
    files = [(p, open(p).read()) for p in SOURCES]
    for n in [a for a in sys.argv[1:] if a != '-l'] or '12345678':
        found = globals()['point_' + n](files)
        print(f'point {n}: {len(found)}')
        if listed:
            print(*found, sep='\n')


main()
