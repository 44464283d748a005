#!/usr/bin/env python3
# Counts in crates/*/src the places that docs/DESIGN-PASS.md tells of, point by point. `tools/design_places.py [COMMIT] [-v]` counts those of a
# commit, or of the work tree; -v lists each place as FILE:LINE.
import re, subprocess, sys
from collections import defaultdict

ROOT = subprocess.run(['git', 'rev-parse', '--show-toplevel'], capture_output=True, text=True).stdout.strip()


def sources(commit):
    names = subprocess.run(['git', '-C', ROOT, 'ls-tree', '-r', '--name-only', commit] if commit else ['git', '-C', ROOT, 'ls-files'],
                           capture_output=True, text=True).stdout.split()
    for name in names:
        if re.match(r'crates/\w+/src/.*\.rt$', name):
            if commit:
                text = subprocess.run(['git', '-C', ROOT, 'show', f'{commit}:{name}'], capture_output=True, text=True).stdout
            else:
                text = open(f'{ROOT}/{name}').read()
            yield name, text


def answers(commit):
    args = ['git', '-C', ROOT, 'grep', '-hE', r'^pub [^ ]+ : goal\.'] + ([commit] if commit else []) + ['--', 'crates/*/proofs/*Answers.antt', 'crates/*/proofs/**/*Answers.antt']
    return len(subprocess.run(args, capture_output=True, text=True).stdout.splitlines())


def line_of(text, at):
    return text.count('\n', 0, at) + 1


def functions(text):
    # (name, parameters, clauses, body, line)
    for m in re.finditer(r'^( *)(?:pub(?:\(crate\))? )?(?:const )?(?:unsafe )?(?:extern "C" )?fn (\w+)', text, re.M):
        start = m.end()
        end = text.find('\n' + m.group(1) + '}', start)
        if end < 0:
            continue
        whole = text[start:end]
        brace = re.search(r'\n *\{\n|\{\n', whole)
        head = whole[:brace.start()] if brace else whole
        body = whole[brace.start():] if brace else ''
        inner = head[head.find('(') + 1:]
        depth, stop = 1, 0
        for k, c in enumerate(inner):
            depth += (c == '(') - (c == ')')
            if depth == 0:
                stop = k
                break
        parameters = [p.strip() for p in re.split(r',(?![^\[(<]*[\])>])', inner[:stop]) if p.strip()]
        yield m.group(2), parameters, head[head.find('(') + 1 + stop:], body, line_of(text, m.start())


def shape(code):
    code = re.sub(r'//.*', '', code)
    tokens = re.findall(r"b?'[^']*'|b?\"[^\"]*\"|\w+|[^\w\s]", code)
    out = []
    for t in tokens:
        if re.match(r"^(fn|let|mut|if|else|match|while|for|in|return|loop|as|requires|ensures|true|false|Self|self|usize|u8|u16|u32|u64|i64|bool|f32|f64)$", t):
            out.append(t)
        elif re.match(r"^(b?['\"]|\d)", t):
            out.append('N')
        elif re.match(r'^\w', t):
            out.append('I')
        else:
            out.append(t)
    return ' '.join(out), len(out)


def count(commit):
    found = defaultdict(list)
    by_shape, together, facts = defaultdict(list), defaultdict(list), defaultdict(list)
    for name, text in sources(commit):
        def add(point, at):
            found[point].append(f'{name}:{at}')

        crate = name.split('/')[1]
        # 1: own enums of the shape of Option or Result
        for m in re.finditer(r'((?:^#\[.*\]\n)*)^(?:pub )?enum \w+(?:<[^>]*>)? \{\n((?:.*\n)*?)\}', text, re.M):
            variants = re.findall(r'^    (\w+)(\(|,| \{)', m.group(2), re.M)
            plain = {v for v, s in variants}
            if len(variants) <= 4 and plain & {'Nothing', 'Nowhere', 'Refused', 'Unfit', 'Broken', 'TooMany', 'Accepted'} and any(s != ',' for v, s in variants):
                add('1 own enum', line_of(text, m.start()))
        # 1: a flag with a value beside it
        for m in re.finditer(r'((?:^#\[.*\]\n)*)^(?:pub(?:\(crate\))? )?struct \w+(?:<[^>]*>)? \{\n((?:.*\n)*?)\}', text, re.M):
            if 'repr(C)' in m.group(1):
                continue
            fields = re.findall(r'^    (?:pub(?:\(crate\))? )?(\w+): (.*),$', m.group(2), re.M)
            if len(fields) > 1 and any(f in ('answer', 'is_read', 'is_known', 'found', 'read', 'ok') or t in ('Answer', 'NumbersAnswer') for f, t in fields):
                add('1 flag beside a value', line_of(text, m.start()))
        # 1: numbers for refusals, sentinels, flags and numbers for kinds
        for m in re.finditer(r'\bRefused\([0-9]+\)|\brefused(?:_\w+)?\([0-9]+\)|\.line\(|\bLOST\b|\b(?:COPY|CAST|NOTHING)\b: u8', text):
            add('1 number for a refusal or a kind', line_of(text, m.start()))
        for fn, ps, clauses, body, at in functions(text):
            for p in ps:
                if re.match(r'^(double|target|s|t|signed|hex|whole|every|typed|counted|fixed|source): bool$', p):
                    add('1 flag for a kind, or 7 for a step', at)
            # 2: twins
            if not name.startswith('crates/nakvisk_c/'):
                s, n = shape('fn x(' + ','.join(ps) + clauses.split('requires')[0].split('ensures')[0] + body)
                if n >= 30:
                    by_shape[(crate, s)].append((name, at))
            # 3: loops that count by hand
            for m in re.finditer(r'\bwhile (\w+) (?:<|!=) [^{]*\{', body):
                if re.search(r'\b' + m.group(1) + r' \+= ', body):
                    add('3 loop that counts', at + body.count('\n', 0, m.start()))
            # 4: equality, copying, conversion and printing by hand
            if re.match(r'^(same|copy|put|clear|store|fill|is_equal|equals)(_\w+)?$', fn) or re.match(r'^\w*(_number|number_of|code_of|code)$', fn) or re.match(r'^(with_\w+)$', fn):
                add('4 by hand', at)
            # 5: parameters that travel together
            names = [p for p in ps if ':' in p and not p.startswith('rt:')]
            for i in range(len(names)):
                for j in range(i + 1, len(names)):
                    for k in range(j + 1, len(names)):
                        together[(crate, names[i], names[j], names[k])].append((name, at))
            for m in re.finditer(r'requires \{ (.*?) \}\n', clauses + '\n'):
                for fact in re.split(r' × ', m.group(1)):
                    facts[(crate, fact.strip('() '))].append((name, at))
            # 6: buffers with a length beside them
            for i, p in enumerate(ps):
                if re.search(r': (&mut |&)?\[\w+; \w+\]$', p) and i + 1 < len(ps) and re.match(r'^(k|n|count|len|\w*_len): (usize|u8|u32)$', ps[i + 1]):
                    add('6 buffer with a length', at)
        for m in re.finditer(r'^    (?:pub(?:\(crate\))? )?\w+: \[\w+; \w+\],\n    (?:pub(?:\(crate\))? )?(count|n|\w*_len): ', text, re.M):
            add('6 buffer with a length', line_of(text, m.start()))
    for group in by_shape.values():
        if len(group) > 1:
            for name, at in group:
                found['2 twin'].append(f'{name}:{at}')
    seen = set()
    for group in together.values():
        if len(set(group)) >= 3:
            seen |= set(group)
    found['5 parameters together'] = [f'{n}:{a}' for n, a in sorted(seen)]
    for (crate, fact), group in facts.items():
        if len(set(group)) >= 3:
            found['5 fact in three contracts'].append(f'{group[0][0]}:{group[0][1]}: {fact} ({len(set(group))})')
    return found


commit = next((a for a in sys.argv[1:] if a != '-v'), None)
found = count(commit)
for point in sorted(found):
    print(f'{point}: {len(found[point])}')
    if '-v' in sys.argv:
        for place in found[point]:
            print('   ', place)
print(f'8 answers: {answers(commit)}')
