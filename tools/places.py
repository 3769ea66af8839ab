#!/usr/bin/env python3
"""Lists the places of crates/*/src that docs/DESIGN-PASS.md counts, a line each: point, file:line, what stands there.

    tools/places.py [POINT] [--counts] [--at COMMIT]

The rules go by text, so a place listed need not be one that can be written better: the page says of each what became of it.
 1  enums with a case that says no (No, None, End, ..); bool fields beside a value; functions whose number is 0 (or a NO_.. constant) where
    there is none; functions that answer a refusal's number; runs of constants that number kinds
 2  functions of the same shape but for names, types and numbers; functions of one name in several crates
 3  while and loop
 4  functions that are one match from case to case or number, one cast, or that compare, copy or print by hand
 5  a conjunct that stands in the contracts of three functions of a crate or more; three parameters (or buf and at) that go together through
    three functions or more
 6  arrays as locals, fields and parameters
 7  matches of which three arms or more call functions
 8  proofs: answer files with their lines; lines of answers that stand three times or more in a crate
"""
import re, subprocess, sys, collections

KEYWORDS = set('if else while for in match return let mut fn pub loop as true false impl struct enum const use mod break continue ref move'.split())


def sources(commit, part, ending):
    """(path, text) of each file of crates/*/part."""
    if commit:
        names = subprocess.run(['git', 'ls-tree', '-r', '--name-only', commit, 'crates'], capture_output=True, text=True, check=True).stdout.split()
        names = [n for n in names if re.match(rf'crates/\w+/{part}/.*{ending}$', n)]
        for n in sorted(names):
            yield n, subprocess.run(['git', 'show', f'{commit}:{n}'], capture_output=True, text=True, check=True).stdout
    else:
        import pathlib
        for p in sorted(pathlib.Path('crates').glob(f'*/{part}/**/*{ending}')):
            yield str(p), p.read_text()


def uncommented(text):
    return '\n'.join(re.sub(r'(^|\s)//.*$', '', line) for line in text.split('\n'))


def behind(text, at, opening='{', closing='}'):
    """The place behind the bracket that closes the one at `at`."""
    depth = 0
    while at < len(text):
        c = text[at]
        if c == "'" and re.match(r"'(\\.|[^\\'])'", text[at:at + 4]):
            at += text[at + 1:].index("'", 1 if text[at + 1] != '\\' else 2) + 2
            continue
        if c == '"':
            at = re.compile(r'"(?:\\.|[^"\\])*"').match(text, at).end()
            continue
        if c == opening:
            depth += 1
        if c == closing:
            depth -= 1
            if depth == 0:
                return at + 1
        at += 1
    return at


class Fn:
    def __init__(self, path, text, match):
        self.path, self.name = path, match.group('name')
        self.line = text.count('\n', 0, match.start('name')) + 1
        head = match.end() - 1
        after = behind(text, head, '(', ')')
        self.params = [p.strip() for p in re.split(r',(?![^<(\[]*[>)\]])', text[head + 1:after - 1]) if p.strip()]
        result = re.compile(r'\s*->\s*([^{;]*?)(?=\s*(requires|ensures|where|\{|;))').match(text, after)
        self.result = result.group(1).strip() if result else ''
        at = result.end() if result else after
        self.clauses = []
        clause = re.compile(r'\s*(requires|ensures)\s*(\w+\s*)?\{')
        while (m := clause.match(text, at)):
            at = behind(text, m.end() - 1)
            self.clauses.append((m.group(1), ' '.join(text[m.end():at - 1].split())))
        m = re.compile(r'\s*(?:where[^{;]*)?([{;])').match(text, at)
        if m and m.group(1) == '{':
            self.end = behind(text, m.end() - 1)
            self.body = text[m.end():self.end - 1]
        else:
            self.end, self.body = at, ''
        self.crate = path.split('/')[1]

    def place(self):
        return f'{self.path}:{self.line}'


HEAD = re.compile(r'\bfn\s+(?P<name>\w+)\s*(?:<[^({]*?>)?\s*\(')


def functions(files):
    for path, text in files:
        for m in HEAD.finditer(text):
            yield Fn(path, text, m)


def conjuncts(text):
    out, depth, start, i = [], 0, 0, 0
    while i < len(text):
        c = text[i]
        depth += c in '({['
        depth -= c in ')}]'
        if c == '×' and depth == 0:
            out.append(text[start:i])
            start = i + 1
        i += 1
    out.append(text[start:])
    found = []
    for one in out:
        one = one.strip()
        while one.startswith('(') and behind(one, 0, '(', ')') == len(one):
            inner = conjuncts(one[1:-1])
            if len(inner) > 1:
                found += inner
                one = ''
                break
            one = one[1:-1].strip()
        if one:
            found.append(one)
    return found


def shape(body):
    body = re.sub(r'b?"(?:\\.|[^"\\])*"', '"', body)
    body = re.sub(r"b?'(?:\\.|[^\\'])'", '0', body)
    tokens = re.findall(r'[A-Za-z_]\w*|\d[\w.]*|[^\s\w]', body)
    return ' '.join(t if t in KEYWORDS else 'N' if t[0].isdigit() else 'w' if t[0].isalpha() or t[0] == '_' else t for t in tokens)


def arms(body, start):
    """The arms of the match whose bracket opens at `start`."""
    text = body[start + 1:behind(body, start) - 1]
    found, depth, piece = [], 0, ''
    i = 0
    while i < len(text):
        c = text[i]
        depth += c in '({['
        depth -= c in ')}]'
        piece += c
        if depth == 0 and (c == ',' or (c == '}' and '=>' in piece)):
            if '=>' in piece:
                found.append(piece.strip().rstrip(','))
            piece = ''
        i += 1
    if '=>' in piece:
        found.append(piece.strip())
    return found


def list_places(commit):
    files = [(p, uncommented(t)) for p, t in sources(commit, 'src', '.rt')]
    fns = list(functions(files))
    out = collections.defaultdict(list)

    for path, text in files:
        for m in re.finditer(r'\benum\s+(\w+)[^{]*\{', text):
            inner = text[m.end():behind(text, m.end() - 1) - 1]
            flat = re.sub(r'\{[^}]*\}|\([^)]*\)', '', inner)
            cases = re.findall(r'\b[A-Z]\w*', flat)
            if set(cases) & {'No', 'Not', 'None', 'Unknown', 'End', 'Accepted', 'Whole', 'Ended', 'Refused', 'Nothing'}:
                out[1].append((f'{path}:{text.count(chr(10), 0, m.start()) + 1}', f'enum {m.group(1)} {{ {", ".join(cases)} }}'))
        for m in re.finditer(r'\b(struct|enum)\s+(\w+)[^{;(]*\{', text):
            inner = text[m.end():behind(text, m.end() - 1) - 1]
            for field in re.findall(r'(\w+): bool', inner):
                if field != 'negative':
                    out[1].append((f'{path}:{text.count(chr(10), 0, m.start()) + 1}', f'{m.group(2)}.{field}: bool'))
        run = []
        for m in re.finditer(r'\bconst (\w+): (u8|u32|u64|usize) = (0x[0-9A-Fa-f_]+|[\d_]+);', text):
            if re.search(rf'\b{m.group(1)}\b\s*(\|[^=>]*)?=>|\|\s*{m.group(1)}\b[^=;]*=>', ''.join(t for _, t in files if t.count(m.group(1)))):
                run.append((text.count('\n', 0, m.start()) + 1, m.group(1)))
        if run:
            out[1].append((f'{path}:{run[0][0]}', 'constants that number kinds: ' + ', '.join(n for _, n in run)))
    for f in fns:
        if re.fullmatch(r'u8|u32|u64|usize', f.result):
            if re.search(r'\breturn 0;', f.body) or re.search(r'\bNO_[A-Z]+\b', f.body) or re.search(r'(_ =>|else \{|\bNone =>|Fraction::None =>) 0\b', f.body):
                out[1].append((f.place(), f'fn {f.name}: 0 or a constant says that there is none'))
            elif re.search(r'refus|number_of|answered', f.body) and f.result == 'u8':
                out[1].append((f.place(), f'fn {f.name}: a refusal as a number'))
            elif any('placed' in c for _, c in f.clauses):
                out[1].append((f.place(), f'fn {f.name}: a count that is 0 where nothing was put'))

    groups = collections.defaultdict(list)
    for f in fns:
        s = shape(f.body)
        if f.body and s.count(' ') >= 12:
            groups[s].append(f)
    for s, same in groups.items():
        if len(same) > 1:
            out[2].append((same[0].place(), 'same shape: ' + ', '.join(f'{f.crate}::{f.name}' for f in same)))
    names = collections.defaultdict(set)
    for f in fns:
        if f.body and f.crate != 'goatminute_c' and f.name not in ('main', 'fmt', 'eq', 'from', 'try_from', 'write', 'encoded_size_of', 'drop'):
            names[f.name].add((f.crate, f.place()))
    for name, where in sorted(names.items()):
        if len({c for c, _ in where}) > 1:
            out[2].append((sorted(where)[0][1], f'one name in several crates: {name} in ' + ', '.join(sorted({c for c, _ in where}))))

    for f in fns:
        for m in re.finditer(r'\b(while|loop)\b', f.body):
            line = f.body[m.start():].split('\n')[0].strip()
            out[3].append((f.place(), f'fn {f.name}: {line}'))

    for f in fns:
        body = f.body.strip()
        m = re.match(r'match\s+[\w.%/ ]+\s*\{', body)
        if m and behind(body, m.end() - 1) == len(body):
            found = arms(body, m.end() - 1)
            if found and all(re.fullmatch(r'(\w+::\w+(\([\w, ]*\))?|[\w\'|_ ]+)\s*=>\s*(\w+::\w+(\([\w, ]*\))?|[\w_]+|-?\d[\w_]*)', a) for a in found):
                out[4].append((f.place(), f'fn {f.name}: a conversion by a match'))
        if re.fullmatch(r'\(?\w+(\.\w+)? as \w+\)?', body):
            out[4].append((f.place(), f'fn {f.name}: a conversion by a cast'))
        if re.match(r'(are_same|copy|wide|clear|keep)$', f.name):
            out[4].append((f.place(), f'fn {f.name}: copies, compares, clears or widens by hand'))
        if re.match(r'(print_|put_refusal|report)', f.name):
            out[4].append((f.place(), f'fn {f.name}: prints'))

    facts = collections.defaultdict(set)
    for f in fns:
        for kind, clause in f.clauses:
            if kind == 'requires':
                for one in conjuncts(clause):
                    facts[(f.crate, re.sub(r'\.old\b|\.now\b|\.new\b', '', one))].add(f.name)
            else:
                for one in conjuncts(clause):
                    if re.search(r'[<≤]', one) and '≡' not in one:
                        facts[(f.crate, re.sub(r'\.old\b|\.now\b|\.new\b', '', one))].add(f.name)
    for (crate, one), where in sorted(facts.items()):
        if len(where) >= 3:
            out[5].append((f'crates/{crate}', f'{one}: ' + ', '.join(sorted(where))))
    sets = collections.defaultdict(set)
    for f in fns:
        plain = [p.split(':')[0].strip() for p in f.params if ':' in p]
        for i in range(len(plain)):
            for j in range(i + 1, len(plain)):
                for k in range(j + 1, len(plain)):
                    sets[(f.crate, plain[i], plain[j], plain[k])].add(f.name)
        if 'buf' in plain and 'at' in plain:
            sets[(f.crate, 'buf', 'at')].add(f.name)
    best = {}
    for key, where in sets.items():
        if len(where) >= 3:
            best.setdefault((key[0], frozenset(where)), set()).update(key[1:])
    for (crate, where), params in sorted(best.items(), key=lambda x: (x[0][0], sorted(x[0][1]))):
        out[5].append((f'crates/{crate}', 'parameters ' + ', '.join(sorted(params)) + ': ' + ', '.join(sorted(where))))

    for path, text in files:
        for m in re.finditer(r'[^\n]*\[[^\[\]\n]*;\s*[^\[\]\n]*\][^\n]*', text):
            line = m.group(0).strip()
            if re.match(r'(ghost|ensures|requires|const|pub const)', line) or '≡' in line:
                continue
            out[6].append((f'{path}:{text.count(chr(10), 0, m.start()) + 1}', line))

    for f in fns:
        for m in re.finditer(r'\bmatch\b[^{;]*\{', f.body):
            found = arms(f.body, m.end() - 1)
            calls = [a for a in found if re.search(r'=>.*\b[a-z_]\w*(::\w+)*(!)?\(', a, re.S)]
            if len(calls) >= 3:
                out[7].append((f.place(), f'fn {f.name}: {len(calls)} arms of {len(found)} call functions'))

    repeated = collections.Counter()
    for path, text in sources(commit, 'proofs', 'Answers.antt'):
        n = text.count('\n')
        out[8].append((path, f'{n} lines'))
        for line in {l.strip() for l in text.split('\n')}:
            if re.match(r'(let|in let) ', line) and len(line) > 30:
                repeated[(path.split('/')[1], line)] += 1
    for (crate, line), n in sorted(repeated.items()):
        if n >= 3:
            out[8].append((f'crates/{crate}', f'{n} files: {line[:120]}'))
    return out


def main():
    args = sys.argv[1:]
    commit = None
    if '--at' in args:
        i = args.index('--at')
        commit = args[i + 1]
        del args[i:i + 2]
    counts = '--counts' in args
    args = [a for a in args if a != '--counts']
    found = list_places(commit)
    for point in ([int(args[0])] if args else range(1, 9)):
        if counts:
            print(point, len(found[point]))
        else:
            for where, what in found[point]:
                print(point, where, what)


main()
