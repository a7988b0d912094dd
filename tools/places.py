"""Counts, by shape, the places that docs/DESIGN-PASS.md is about: python3 tools/places.py [CRATE..] (all with none).
A line for each place of points 1 to 7 in crates/*/src, and of each crate the answers of its proofs (point 8); the last line has the counts."""
import re, sys, os, glob

def functions(text):
    """(line number, comment above, header, body) of each function."""
    for m in re.finditer(r'^( *)(pub )?(const )?fn (\w+)', text, re.M):
        end = re.compile(r'^' + m[1] + r'\}', re.M).search(text, m.start())
        whole = text[m.start():end.end() if end else len(text)]
        at = whole.find('\n' + m[1] + '{')
        brace = whole.find('{\n') if at < 0 else at
        head, body = whole[:brace], whole[brace:]
        above = []
        for l in reversed(text[:m.start()].split('\n')[:-1]):
            if not re.match(r'\s*(//|#\[)', l):
                break
            above.insert(0, l.strip().lstrip('/ '))
        yield text.count('\n', 0, m.start()) + 1, ' '.join(above), m[4], head, body

CODES = re.compile(r'number of the test|number that stops|its number|the number of a (release|trim)|effect|or the number of|more than the|more than there|'
                   r'past the arena|, 0 (if|for|where)|0 is|, 0 if|or 0 |none where|which no arena has|: 0\. Else|Else it is 8', re.I)

def one(text):
    out = []
    for m in re.finditer(r'^\s*(?:pub )?enum (\w+)', text, re.M):
        out.append((text.count('\n', 0, m.start() + 1) + 1, 'enum ' + m[1]))
    for m in re.finditer(r'^(?:pub )?struct (\w+)[^{;]*\{(.*?)^\}', text, re.M | re.S):
        if re.search(r':\s*bool,', m[2]):
            out.append((text.count('\n', 0, m.start()) + 1, 'flag beside a value: struct ' + m[1]))
    for at, above, name, head, body in functions(text):
        if re.search(r'-> (u32|u64|usize|u8|i32)\b', head) and CODES.search(above):
            out.append((at, 'number for a kind, a refusal or nothing: fn ' + name))
    return out

def three(text):
    out = []
    for at, above, name, head, body in functions(text):
        for m in re.finditer(r'\bwhile (.+) \{', body):
            cond = m[1]
            if any(re.search(r'\b' + v + r' (\+|-)= [\w*]+;', body) for v in set(re.findall(r'[a-z_]\w*', cond))):
                out.append((at, 'loop that counts: fn ' + name + ' while ' + cond))
            else:
                out.append((at, '(other loop: fn ' + name + ' while ' + cond + ')'))
    return out

def four(text):
    out = []
    for at, above, name, head, body in functions(text):
        if len(re.findall(r'(\w+)\.(\w+) == (?:\w+\.\2|0)\b', body)) >= 3:
            out.append((at, 'equality by hand: fn ' + name))
        copies = {}
        for m in re.finditer(r'\b(\w+): (\w+)\.\1\b', body):
            copies[m[2]] = copies.get(m[2], 0) + 1
        for v, n in copies.items():
            if n >= 2:
                out.append((at, f'copy by hand of {n} fields of {v}: fn {name}'))
        if re.match(r'(show|print|report|put_line|put_field)', name):
            out.append((at, 'printing by hand: fn ' + name))
    return out


def params(head):
    inside = re.search(r'\((.*?)\)\s*(?:->|$|\n|requires|ensures)', head, re.S)
    return re.findall(r'(\w+): ([^,()]+(?:\([^()]*\))?)', inside[1]) if inside else []

def clauses(head):
    for m in re.finditer(r'requires(?: \w+)? \{(.*?)\}\s*(?=requires|ensures|\Z)', head, re.S):
        for fact in re.split(r' × ', ' '.join(m[1].split())):
            yield fact.strip(' ()')

def five(texts):
    """facts that three or more functions of a crate require, and parameters that three or more take side by side"""
    facts, groups = {}, {}
    for f, text in texts:
        for at, above, name, head, body in functions(text):
            for fact in set(clauses(head)):
                facts.setdefault(fact, []).append(name)
            ps = [p for p in params(head) if p[0] not in ('self',)]
            for a, b in zip(ps, ps[1:]):
                groups.setdefault((a, b), []).append(name)
    out = [f'fact of {len(n)} functions: {fact}: ' + ', '.join(n) for fact, n in facts.items() if len(n) >= 3]
    out += [f'parameters of {len(n)} functions: {a[0]}: {a[1]}, {b[0]}: {b[1]}: ' + ', '.join(n) for (a, b), n in groups.items() if len(n) >= 3 and re.search(r'\[|Head|usize|u32', a[1] + b[1])]
    return out

def six(text):
    out = []
    for at, above, name, head, body in functions(text):
        ps = params(head)
        for a, b in zip(ps, ps[1:]):
            if re.search(r'&.*\[|List', a[1]) and b[1].strip() == 'usize' and b[0] in ('n', 't', 'm', 'at', 'kept', 'count', 'slots', 'from'):
                out.append((at, f'a buffer with a length or a place beside it: fn {name}, {a[0]} and {b[0]}'))
    return out

def seven(text):
    out = []
    for at, above, name, head, body in functions(text):
        if len(re.findall(r'\bis\(line, ', body)) >= 2 or re.search(r'match (round|kind|n|step|i|at) \{', body) or len(re.findall(r'if (?:draw\.)?kind [<=]', body)) >= 2:
            out.append((at, 'a switch on a number or a letter: fn ' + name))
    return out

TYPES = re.compile(r'\b(u8|u16|u32|u64|usize|i32|i64|bool)\b')
def shape(name, head, body):
    t = head + body
    t = re.sub(r'(requires|ensures)( \w+)? \{.*?\}\n', '', t, flags=re.S)
    t = re.sub(r'//.*', '', t)
    t = TYPES.sub('T', t)
    t = re.sub(r'\b\d+\b', 'N', t)
    words, out = {}, []
    for w in re.findall(r'\w+|[^\w\s]', t):
        if re.match(r'[a-z_]\w*$', w) and w not in ('let', 'mut', 'fn', 'pub', 'while', 'if', 'else', 'return', 'as', 'true', 'false', 'match', 'for', 'in'):
            w = words.setdefault(w, f'v{len(words)}')
        out.append(w)
    return ' '.join(out)

def main():
    crates = sys.argv[1:] or sorted(os.path.basename(d) for d in glob.glob('crates/*'))
    totals = dict.fromkeys(range(1, 9), 0)
    twins = {}
    for c in crates:
        texts = [(f, open(f).read()) for f in sorted(glob.glob(f'crates/{c}/src/*.rt'))]
        for what in five(texts):
            totals[5] += 1
            print(f'5 {c}: {what}')
        answers = sum(len(re.findall(r'^pub \S+ : goal\.', open(f).read(), re.M)) for f in glob.glob(f'crates/{c}/proofs/**/Answers.antt', recursive=True))
        totals[8] += answers
        if answers:
            print(f'8 {c}: {answers} answers')
        for f in sorted(glob.glob(f'crates/{c}/src/*.rt')):
            text = open(f).read()
            for k, find in ((1, one), (3, three), (4, four), (6, six), (7, seven)):
                for at, what in find(text):
                    if not what.startswith('('):
                        totals[k] += 1
                    print(f'{k} {f}:{at}: {what}')
            for at, above, name, head, body in functions(text):
                if body.count('\n') > 2:
                    twins.setdefault(shape(name, head, body), []).append(f'{f}:{at}: fn {name}')
    for group in twins.values():
        if len(group) > 1:
            totals[2] += len(group)
            print('2 twins: ' + '; '.join(group))
    print(', '.join(f'point {k}: {n}' for k, n in totals.items()))
main()
