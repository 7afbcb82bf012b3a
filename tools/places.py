#!/usr/bin/env python3
"""Where the code still reads like an older Rattle: the places of each point of docs/DESIGN-PASS.md.

    python3 tools/places.py            the counts, a line for each kind of place
    python3 tools/places.py KIND ..    the places of those kinds, as file:line: text

Read only src/ (kinds 1 to 7) and proofs/ (kind 8). What a pattern finds is a place to look at, and not
always one to change.
"""
import glob
import re
import subprocess
import sys
from collections import defaultdict

files = [f for f in subprocess.run(['git', 'ls-files', 'crates/*.rt'], capture_output=True, text=True).stdout.split() if '/src/' in f]
text = {f: open(f, encoding='utf-8').read() for f in files}


def crate_of(f):
    return f.split('/')[1]


def grep(*patterns):
    """Every match of one of the patterns, at the line where it begins."""
    found = {}
    for f in files:
        for p in patterns:
            for m in re.finditer(p, text[f], re.M):
                line = text[f].count('\n', 0, m.start() + len(m.group(0)) - len(m.group(0).lstrip())) + 1
                found[(f, line)] = ' '.join(m.group(0).split())
    return [(f, n, s) for (f, n), s in sorted(found.items())]


def functions():
    """Each function: file, line, name, parameters as written, clauses as written, body."""
    for f in files:
        for m in re.finditer(r'^[ ]*(?:pub(?:\(crate\))? )?(?:final )?fn (\w+)', text[f], re.M):
            line = text[f].count('\n', 0, m.start()) + 1
            rest = text[f][m.end():]
            depth, i = 0, 0
            while rest[i] not in '(':
                i += 1
            start = i
            while True:
                depth += {'(': 1, ')': -1}.get(rest[i], 0)
                i += 1
                if depth == 0:
                    break
            params = rest[start + 1:i - 1]
            # the head goes on up to the brace that opens the body, or a semicolon
            j, clauses = i, []
            while True:
                if rest[j] == ';':
                    body = ''
                    break
                c = re.match(r'(requires|ensures)\*?( \w+)? \{', rest[j:])
                if c and rest[j - 1] in ' \n':
                    k, d = j + c.end(), 1
                    while d:
                        d += {'{': 1, '}': -1}.get(rest[k], 0)
                        k += 1
                    clauses.append((c.group(1), ' '.join(rest[j + c.end():k - 1].split())))
                    j = k
                    continue
                if rest[j] == '{':
                    k, d = j + 1, 1
                    while d:
                        d += {'{': 1, '}': -1}.get(rest[k], 0)
                        k += 1
                    body = rest[j:k]
                    break
                j += 1
            split = [p.strip() for p in re.split(r',(?![^<(\[]*[>)\]])', params) if p.strip()]
            yield f, line, m.group(1), split, clauses, body


def repeated_facts():
    """A fact that three or more functions of a crate ask for or promise, without the names of states."""
    by = defaultdict(list)
    for f, line, name, _, clauses, _ in functions():
        for what, fact in clauses:
            if what == 'requires':
                by[(crate_of(f), re.sub(r'\.(old|now|new)\b', '', fact))].append((f, line, name))
    return [(v[0][0], v[0][1], f'{len(v)} functions: {k[1][:90]}') for k, v in sorted(by.items()) if len(v) > 2]


def travelling():
    """Three or more parameters that three or more functions of a crate take by the same names and types."""
    by = defaultdict(list)
    for f, line, name, params, _, _ in functions():
        ps = [re.sub(r"^mut |'\w+ ?", '', p) for p in params if 'self' not in p]
        by[crate_of(f)].append((f, line, name, ps))
    out = []
    for crate, fs in sorted(by.items()):
        groups = set()
        for i, a in enumerate(fs):
            for b in fs[i + 1:]:
                g = frozenset(a[3]) & frozenset(b[3])
                if len(g) > 2:
                    groups.add(g)
        for g in sorted(groups, key=lambda g: (-len(g), sorted(g))):
            users = [x for x in fs if g <= set(x[3])]
            if len(users) > 2:
                out.append((users[0][0], users[0][1], f'{len(users)} functions: {", ".join(sorted(g))}'))
    return out


def alike():
    """Pairs of functions whose bodies are the same but for names and numbers (of four tokens and more)."""
    shape = defaultdict(list)
    for f, line, name, params, _, body in functions():
        toks = re.findall(r'\w+|[^\w\s]', body)
        if len(toks) < 12 or '#[test]' in text[f].split('fn ' + name + '(')[0][-60:]:
            continue
        shape[tuple('x' if re.match(r'\w', t) and t not in KEY else t for t in toks)].append((f, line, name))
    return [(v[0][0], v[0][1], ' '.join(n for _, _, n in v)) for v in shape.values() if len(v) > 1]


KEY = {'for', 'in', 'if', 'else', 'match', 'let', 'return', 'while', 'Some', 'None', 'Ok', 'Err', 'as', 'mut', 'self'}


def proof_lines(pattern=None, name='*.antt'):
    out = []
    for f in sorted(glob.glob('crates/*/proofs/**/' + name, recursive=True)):
        if pattern is None:
            out.append((f, 1, f'{len(open(f, encoding="utf-8").read().splitlines())} lines'))
            continue
        for n, line in enumerate(open(f, encoding='utf-8'), 1):
            if re.search(pattern, line):
                out.append((f, n, line.strip()))
    return out


KINDS = {
    # 1
    '1-number-for-a-kind': lambda: grep(r'\b(player|owner|other|stage|who)\s*:\s*u\d+', r'fn (owner|player)\b.*-> u\d+', r'\bas u8;\s*$'),
    '1-own-enum': lambda: grep(r'^\s*(pub(\(crate\))? )?enum \w+'),
    '1-handed-on-by-hand': lambda: grep(r'else \{\s*return None;\s*\}', r'\bNone => None', r'Err\((\w+)\) => Err\(\1\)', r'if let Err\(\w+\) = [^{]*\{\s*return',
                                        r'if [^{};]* \{\s*Some\([^{}]*\)\s*\} else \{\s*None\s*\}', r'if [^{}]* \{\s*return None;\s*\}'),
    '1-default-by-hand': lambda: grep(r'Some\((\w+)\) => [^,]*,\s*None => ', r'\{ (\w+)\[(\w+)\] \} else \{ 0 \}', r'if (\w+) > (\w+) \{\s*\2 = '),
    '1-flag-beside-a-value': lambda: grep(r'-> \([^)]*\bbool\b[^)]*\)', r'-> \([^)]*Result<[^)]*\)'),
    # 2
    '2-alike-but-for-names': alike,
    # 3
    '3-index-loop': lambda: grep(r'\bfor \w+ in [^{]*\.\.[^{]*\{'),
    '3-while': lambda: grep(r'\bwhile \b', r'\bloop \{'),
    '3-loop-over-items': lambda: grep(r'\bfor [^{]* in [^.{]*(\.[a-z_]+\([^{]*)?\{'),
    # 4
    '4-by-hand': lambda: grep(r'fn (from_\w+|number|place|to_\w+|new|same|greater|word|equal\w*)\b', r'^impl\S* [\w:<>]*(Display|From|TryFrom|PartialEq|Default|Ord|FromStr)\S* for'),
    # 5
    '5-fact-in-three-contracts': repeated_facts,
    '5-travels-together': travelling,
    # 6
    '6-fixed-buffer': lambda: grep(r'\[[^\[\];]*; *\w+\]'),
    '6-length-beside': lambda: grep(r'\[(0)?\.\.(filled|used|size|count|length|end)\b', r'\b(filled|used|end|at) \+= ', r'\bend \+ 1\b'),
    '6-parallel-tables': lambda: grep(r'^\s*pub \w+: &\S+ \[u\d+\],'),
    # 7
    '7-switch': lambda: grep(r'\bmatch self\.family\b', r'\bmatch order\b', r'\bdown: bool\b', r'\bdyn \b', r': fn\('),
    # 8
    '8-answers': lambda: proof_lines(name='Answers.antt'),
    '8-absurd-by-numbers': lambda: proof_lines(r'absurd \(let z : ◌≡◌ \{A = ℕ\} 0 1'),
}

if __name__ == '__main__':
    if len(sys.argv) > 1:
        for kind in sys.argv[1:]:
            for f, n, s in KINDS[kind]():
                print(f'{f}:{n}: {s}')
    else:
        for kind, find in KINDS.items():
            print(f'{len(find()):4} {kind}')
