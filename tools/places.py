#!/usr/bin/env python3
"""Counts the places of the design pass in src/, at the top of a checkout: python3 tools/places.py [WORD ..]
A word prints the places of that count: enums flags codes twins loops casts minmax groups pairs modes."""
import glob, re, sys

FILES = sorted(glob.glob('crates/*/src/*.rt'))
NAME = {f: f.split('/')[1] for f in FILES}
TEXT = {f: open(f).read() for f in FILES}


def lines(pattern):
    for f in FILES:
        for n, line in enumerate(TEXT[f].split('\n'), 1):
            if re.search(pattern, line):
                yield f'{f}:{n}: {line.strip()}'


def functions():
    """Each function: crate, name, the comment above it, its head, its body."""
    for f in FILES:
        text = TEXT[f]
        for m in re.finditer(r'((?:^[ ]*//.*\n)*)(?:^[ ]*#\[.*\n)*^([ ]*)(pub )?(?:extern "C" )?fn (\w+)(<[^(]*>)?\(', text, re.M):
            depth, i = 1, m.end()
            while depth:
                depth += {'(': 1, ')': -1}.get(text[i], 0)
                i += 1
            params = text[m.end():i - 1]
            end = text.find('\n' + m.group(2) + '}', i)
            rest = text[i:end]
            result = re.match(r'\s*->\s*([^\n{]+)', rest)
            yield dict(file=f, crate=NAME[f], name=m.group(4), comment=m.group(1), params=params,
                       result=result.group(1).strip() if result else '', rest=rest)


def count_params(p):
    return len([x for x in re.findall(r'(\w+)\s*:', p)]) + (1 if re.search(r'\bself\b', p) else 0)


def enums():
    """1a: own enums (those of the shape of Option, Result or Ordering are told apart by reading)"""
    return list(lines(r'^(pub )?enum '))


def flags():
    """1b: fields that say whether the fields beside them mean anything"""
    return list(lines(r'^\s+(pub )?(verdict|none|fine|refusal): (Verdict|Told|bool|usize),'))


def codes():
    """1c: functions that give a number, one of whose exits is a bare 0, 1, 2, a refusal's number or the end's place, for none, yes or a refusal"""
    say = re.compile(r'(?:return |^\s*|\{ )(?:0|1|2|9|1\d|2[0-3]|n|len|table\.len\(\)|(?:a\.|q\.)?k \+ 1|s\.gates \+ 1|SLOTS \+ 1)(?:;| \}|$)', re.M)
    out = []
    for g in functions():
        body = g['rest'].split('\n{\n')[-1]
        if re.match(r'(usize|u8|u64|u32|i64)\b', g['result']) and say.search(body) and not re.search(r'=> (0|1|2),', body) and g['crate'] not in ('kamfelu', 'kamfelu_c', 'limits'):
            out.append(f"{g['file']}: fn {g['name']} -> {g['result']}")
    return out


def twins():
    """2: functions and types of one shape, of 24 words or more, that differ in names, types, sizes and constants"""
    keep = {'if', 'else', 'while', 'for', 'in', 'let', 'mut', 'return', 'match', 'fn', 'as', 'struct'}
    shapes = {}
    def shape(text):
        text = re.sub(r'//.*', '', text)
        text = re.sub(r'^\s*(requires|ensures).*$', '', text, flags=re.M)
        words = re.findall(r'[A-Za-z_]\w*|\d\w*|[^\s\w]', text)
        return ' '.join(w if w in keep or not re.match(r'\w', w) else 'x' for w in words)
    for g in functions():
        key = shape('fn ' + g['params'] + ') ' + g['rest'])
        if len(key.split()) >= 24:
            shapes.setdefault(key, []).append(f"{g['crate']}: {g['name']}")
    for f in FILES:
        for m in re.finditer(r'^(pub )?struct (\w+)(<[^{]*>)? \{(.*?)^\}', TEXT[f], re.M | re.S):
            key = 'struct ' + shape(m.group(4))
            if len(m.group(4).split('\n')) > 3:
                shapes.setdefault(key, []).append(f'{NAME[f]}: {m.group(2)}')
    out = []
    for key, names in shapes.items():
        if len(names) > 1:
            out.append(', '.join(names))
    return out


def loops():
    """3: `while` loops whose variable goes up or down by one, and functions that call themselves at the next index"""
    out = []
    for f in FILES:
        ls = TEXT[f].split('\n')
        for n, line in enumerate(ls):
            m = re.match(r'(\s*)while (.*) \{', line)
            if not m:
                continue
            body = []
            for k in range(n + 1, len(ls)):
                if ls[k].startswith(m.group(1) + '}'):
                    break
                body.append(ls[k])
            names = set(re.findall(r'[a-z_]\w*', m.group(2)))
            if any(re.match(rf'\s*{v} [+-]= 1;', b) for v in names for b in body):
                out.append(f'{f}:{n + 1}: {line.strip()}')
    for g in functions():
        if re.search(rf"\b{g['name']}\([^;]*\b\w+ [+-] 1\b", g['rest'], re.S) and not re.search(r'while ', g['rest']):
            out.append(f"{g['file']}: fn {g['name']} calls itself")
    return out


def casts():
    """4a: functions that only convert a number"""
    out = []
    for g in functions():
        body = g['rest'][g['rest'].find('{\n') + 2:] if '{\n' in g['rest'] else ''
        body = g['rest'].split('\n{\n')[-1].strip()
        if re.fullmatch(r'\w+(\[\w+\])? as \w+', body):
            out.append(f"{g['file']}: fn {g['name']}: {body}")
    return out


def minmax():
    """4b: functions that compare or choose by hand: the greater, the smaller, equality, order, copying"""
    out = []
    for g in functions():
        body = g['rest'].split('\n{\n')[-1]
        body = ' '.join(body.split())
        if re.fullmatch(r'if (\w+) < (\w+) \{ (\w+) \} else \{ (\w+) \}', body):
            out.append(f"{g['file']}: fn {g['name']}: {body}")
        elif g['name'] in ('same', 'compare', 'comes_before', 'copy', 'is_copy', 'copy_in', 'fill', 'zero', 'store', 'put_word', 'clear_first', 'clear_counts', 'empty_heads') and re.search(r'\b(if|while|for)\b', body):
            out.append(f"{g['file']}: fn {g['name']}")
    return out


def groups():
    """5: functions with eight parameters or more"""
    return [f"{g['file']}: fn {g['name']} ({count_params(g['params'])})" for g in functions() if count_params(g['params']) >= 8]


def pairs():
    """6: parallel arrays lent or held side by side: nodes and backs, sources and counts, outs and delays"""
    out = []
    for g in functions():
        p = re.sub(r'\s+', ' ', g['params'])
        if re.search(r'\w*nodes: &[^,]*, \w*backs: &', p) or re.search(r'sources: &[^,]*, counts: &', p) or re.search(r'outs: &[^,]*, delays: &', p):
            out.append(f"{g['file']}: fn {g['name']}")
    return out + list(lines(r'^\s+(pub )?(backs|counts): \[\w+; \w+\],'))


def modes():
    """7: parameters that say which of two ways to go, and enums whose values choose a test"""
    out = []
    for g in functions():
        if re.search(r'\b\w+: bool\b', g['params']):
            out.append(f"{g['file']}: fn {g['name']}")
    return out + list(lines(r'^(pub )?enum \w*Field '))


ALL = [enums, flags, codes, twins, loops, casts, minmax, groups, pairs, modes]
asked = sys.argv[1:]
for count in ALL:
    places = count()
    if not asked or count.__name__ in asked:
        print(f'{len(places):4} {count.__name__}: {count.__doc__}')
    if count.__name__ in asked:
        for p in places:
            print('     ', p)
