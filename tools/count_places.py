# Counts over crates/*/src/*.rt and crates/*/proofs. Run at the top of the repository: python3 tools/count_places.py WORD [..] [-v]
import difflib, glob, re, subprocess, sys
from collections import defaultdict

def parted(s, mark, opens, closes):
    """s at each mark that stands in no bracket."""
    depth, parts, cur = 0, [], ''
    for ch in s:
        depth += (ch in opens) - (ch in closes)
        if ch == mark and depth == 0:
            parts.append(cur)
            cur = ''
        else:
            cur += ch
    return parts + [cur]

def functions():
    for path in sorted(glob.glob('crates/*/src/*.rt')):
        lines = open(path, encoding='utf8').read().split('\n')
        i = 0
        while i < len(lines):
            m = re.match(r'(\s*)(pub(?:\(crate\))? )?(extern "C" )?(?:const )?fn (\w+)', lines[i])
            if not m:
                i += 1
                continue
            ind, j, clause = m.group(1), i, False
            while lines[j] != ind + '{' and (clause or not lines[j].endswith(('{', '}'))):
                j += 1
                clause = clause or re.match(r'\s+(requires|ensures)\b', lines[j]) is not None
            k = j
            while lines[k] != ind + '}' and not (k == j and lines[k].endswith('}')):
                k += 1
            head = '\n'.join(lines[i:j + 1])
            cut = re.search(r'\n\s+(requires|ensures) ', head)
            sig = head[:cut.start()] if cut else head.rstrip('{ \n')
            par = sig[sig.index('(', sig.index('fn ')):]
            ret = re.search(r'\)\s*->\s*([^\n{]*)', sig)
            parts = parted(par[1:par.rindex(')')], ',', '<[(', '>])')
            yield dict(crate=path.split('/')[1], file='/'.join(path.split('/')[3:]), name=m.group(4), line=i + 1,
                       pub=bool(m.group(2)), export=bool(m.group(3)),
                       params=[tuple(x.strip() for x in p.split(':', 1)) for p in parts if ':' in p],
                       ret=ret.group(1).strip() if ret else '', clauses=head[cut.start():] if cut else '',
                       body='\n'.join(lines[j + 1:k]))
            i = k + 1

def where(f):
    return f"{f['crate']}/{f['file']}:{f['name']}"

def clauses(f, kind):
    t = f['clauses']
    for m in re.finditer(r'\b(requires|ensures)\s+(?:\w+\s+)?\{', t):
        d, k = 1, m.end()
        while d:
            d += (t[k] == '{') - (t[k] == '}')
            k += 1
        if m.group(1) == kind:
            yield re.sub(r'\s+', ' ', t[m.end():k - 1]).strip()

def atoms(s):
    s = s.strip()
    def closes(s):
        d = 0
        for i, ch in enumerate(s):
            d += (ch == '(') - (ch == ')')
            if d == 0:
                return i
    while s.startswith('(') and closes(s) == len(s) - 1:
        s = s[1:-1].strip()
    parts = parted(s, '×', '([{', ')]}')
    return [s] if len(parts) == 1 and s else [a for p in parts if len(parts) > 1 for a in atoms(p)]

def plain(a):
    a = re.sub(r'\b(k|r|w|ctl|from)\.(n|v|turn|rotation|outhead|outtail|free|kind|raw|mode|t)\b', r'\2', a)
    a = re.sub(r'\.(now|old)\b', '', a)
    a = re.sub(r'\bn ≤ 1024\b', 'n ≤ most_n', re.sub(r'\bv ≤ 1024\b', 'v ≤ most_v', a))
    a = a.replace('words_in v ≡ length words', 'length words ≡ words_in v')
    return re.sub(r'HasConnection \S+ words', 'HasConnection _ words', a)

def tokens(s):
    s = re.sub(r'//.*', '', s)
    out = []
    for t in re.findall(r'[A-Za-z_]\w*|\d\w*|[^\s\w]', s):
        out.append('N' if t[0].isdigit() else 'T' if t in ('u8', 'u16', 'u32', 'u64', 'usize') else t)
    return out

# ---- proofs
NAME = r"[^\s:=(){}λ.;]+"

def proof_files():
    ls = subprocess.check_output(['git', 'ls-files', 'crates/*/proofs/*.antt'], text=True).split()
    return sorted(p for p in ls if not p.endswith('/Lib.antt'))

def items(path):
    lines = [l.rstrip('\n') for l in open(path, encoding='utf8')]
    out, stack, i = [], [], 0
    ind = lambda l: len(l) - len(l.lstrip())
    start = r'(?:(?:pub|abbrev|unfoldable|opaque) )*(' + NAME + r') :(?:\s|$)'
    while i < len(lines):
        l = lines[i]
        s = l.strip()
        if not s or s.startswith('--') or re.match(r'(pub )?use ', s):
            i += 1
            continue
        while stack and ind(l) <= stack[-1][0]:
            stack.pop()
        m = re.match(r'(?:pub )?(module|record|data)\b.*', s)
        if m:
            stack.append((ind(l), m.group(1), s))
            i += 1
            continue
        if stack and stack[-1][1] != 'module':
            i += 1
            continue
        m = re.match(start, s)
        if m and not s.startswith('unfolding'):
            j, sig, body = i + 1, [s], []
            while j < len(lines) and lines[j].strip() and ind(lines[j]) > ind(l):
                sig.append(lines[j].strip())
                j += 1
            while j < len(lines) and lines[j].strip() and ind(lines[j]) >= ind(l):
                if ind(lines[j]) == ind(l) and re.match(start, lines[j].strip()) and not lines[j].strip().startswith('unfolding'):
                    break
                body.append(lines[j].strip())
                j += 1
            out.append(dict(name=m.group(1), path=path, mods=[x[2] for x in stack], sig=' '.join(sig), body='\n'.join(body)))
            i = j
            continue
        i += 1
    return out

def lemmas():
    return [x for p in proof_files() for x in items(p)]

def is_answer(x):
    return re.search(r': goal\.' + re.escape(x['name']) + r'$', x['sig']) is not None

def own():
    return [x for x in lemmas() if 'goal.' not in x['sig']]

def place(x):
    return f"{x['path'].split('/')[1]}/{x['path'].split('/proofs/')[1][:-5]}:{x['name']}"

# the statement, bound names by their order
def statement(x):
    t = ' '.join(re.sub(r'^(pub )?module \S+ ?', '', m).replace(' where', ' → ').strip() for m in x['mods'])
    t += ' ' + re.sub(r'^(?:(?:pub|abbrev|unfoldable) )*' + re.escape(x['name']) + ' :', '', x['sig'])
    t = re.sub(r'\s+', ' ', t).strip()
    vs = []
    for m in re.finditer(r'[({]([^(){}:]+?) : ', t):
        vs += [v for v in m.group(1).split() if v not in vs]
    def named(tok):
        b = tok.split('.')
        if b[0] in vs:
            b[0] = 'v%d' % vs.index(b[0])
        return '.'.join(b)
    t = ''.join(named(k) for k in re.findall(r"[^\s(){},]+|[(){},]|\s+", t))
    apart = lambda m: ' '.join(m.group(1) + k + ' : ' + m.group(3) + m.group(4) for k in m.group(2).split())
    for _ in range(2):
        t = re.sub(r'([({])((?:v\d+ )+v\d+) : ([^(){}]+)([)}])', apart, t)
    return re.sub(r'\s+', ' ', re.sub(r'\) → \(v', ') (v', t)).strip()

WORDS = set('List ℕ Bool Type length take drop set get_or ++ ∷ [] replicate + * - / % ^ ≤ < ≡ ≢ && || not true false sum map filter '
            '→ λ . × ⊎ ⊥ suc ltb eqb leb =? <? ≤? min max append reverse all any count_by when then else bit_or bit_and bit_xor '
            'Result Option OnOk OnErr is_ok is_err some none IsAscii IsUtf8 = : slice_index slice_set last head tail ones trailing_zeros'.split())

def of_library(t):
    for tok in re.findall(r"[^\s(){},]+", t):
        b = tok.split('.')[0]
        if not (re.match(r'^v\d+$', b) or tok in WORDS or b in WORDS or re.match(r'^[\d_]+$', tok)):
            return False
    return True

def speaks(t):
    return any(s in t for s in ('≡', '≤', '<', '≢', 'OnOk'))

def groups(xs, key):
    d = defaultdict(list)
    for x in xs:
        d[key(x)].append(x)
    return sorted((v for v in d.values() if len(v) > 1), key=lambda v: -len(v))

def main():
    verbose = '-v' in sys.argv
    a = [x for x in sys.argv[1:] if x != '-v']
    what, rest = a[0], a[1:]
    show = []
    if what in ('fns', 'ret', 'par', 'bools', 'pub'):
        fs = list(functions())
        if what == 'pub':
            fs = [f for f in fs if f['pub']]
        if what == 'bools':
            fs = [f for f in fs if any(p[1] == 'bool' for p in f['params'])]
        if what == 'ret':
            fs = [f for f in fs if f['ret'] in rest]
        if what == 'par':
            for w in rest:
                n, _, t = w.partition('=')
                fs = [f for f in fs if any(p[0] == n and (not t or p[1] == t) for p in f['params'])]
        print(len(fs))
        show = [where(f) for f in fs]
    elif what in ('facts', 'facts-ensures'):
        d = defaultdict(set)
        for f in functions():
            for c in clauses(f, 'requires' if what == 'facts' else 'ensures'):
                for x in atoms(c):
                    d[plain(x)].add(where(f))
        d = sorted(((k, v) for k, v in d.items() if len(v) >= 3), key=lambda p: -len(p[1]))
        print(len(d))
        show = [f"{len(v)} | {k} | {', '.join(sorted(v))}" for k, v in d]
    elif what == 'names':
        g = groups(functions(), lambda f: f['name'])
        print(len(g), sum(map(len, g)))
        show = [v[0]['name'] + ': ' + ', '.join(where(f) for f in v) for v in g]
    elif what == 'same':
        g = groups(functions(), lambda f: re.sub(r'\s+', ' ', re.sub(r'//.*', '', f['body'])).strip())
        print(len(g), sum(map(len, g)))
        show = [', '.join(where(f) for f in v) for v in g]
    elif what == 'twins':
        least = float(rest[0]) if rest else 0.8
        fs = [f for f in functions() if f['crate'] != 'clurimoon']
        ts = [tokens(f['body']) for f in fs]
        for i in range(len(fs)):
            for j in range(i + 1, len(fs)):
                x, y = ts[i], ts[j]
                if min(len(x), len(y)) < 8 or max(len(x), len(y)) > 1.6 * min(len(x), len(y)):
                    continue
                m = difflib.SequenceMatcher(None, x, y, autojunk=False)
                if m.quick_ratio() >= least and m.ratio() >= least:
                    show.append(f"{m.ratio():.2f} {where(fs[i])} ~ {where(fs[j])}")
        print(len(show))
        show.sort(reverse=True)
    elif what == 'lemmas':
        xs = lemmas()
        print(len(xs), 'items:', sum(map(is_answer, xs)), 'answers,', len(xs) - sum(map(is_answer, xs)), 'others')
    elif what == 'lemma-text':
        def key(x):
            t = ' | '.join(x['mods']) + ' || ' + x['sig'] + ' || ' + x['body']
            t = re.sub(r'(?<![^\s(){}])' + re.escape(x['name']) + r'(?![^\s(){}.,])', 'SELF', t)
            return re.sub(r'\s+', ' ', re.sub(r'\bpub ', '', t))
        g = groups(own(), key)
        print(len(g), 'texts,', sum(map(len, g)), 'places')
        show = [f"{len(v)} | {v[0]['sig']} | {', '.join(map(place, v))}" for v in g]
    elif what == 'lemma-same':
        g = [v for v in groups(own(), statement) if speaks(statement(v[0])) and not all('abbrev' in x['sig'].split()[:2] for x in v)]
        print(len(g), 'statements,', sum(map(len, g)), 'places')
        show = [f"{len(v)} | {statement(v[0])} | {', '.join(map(place, v))}" for v in g]
    elif what == 'lemma-lib':
        c = [x for x in own() if 'abbrev' not in x['sig'].split()[:2] and 'unfoldable' not in x['sig'].split()[:2]]
        c = [x for x in c if speaks(statement(x)) and of_library(statement(x))]
        print(len(c), 'places,', len(set(map(statement, c))), 'statements')
        show = sorted(f"{statement(x)} | {place(x)}" for x in c)
    elif what == 'helpers':
        h = [x for x in lemmas() if x['path'].endswith('/Answers.antt') and not is_answer(x)]
        n = [x for x in h if re.search(r'_\d+$', x['name'])]
        print(len(h), 'helpers in Answers.antt,', len(n), 'with a number behind the name')
        d = defaultdict(list)
        for x in h:
            d[x['path']].append(x['name'])
        show = [p.replace('crates/', '').replace('/proofs/', ':').replace('/Answers.antt', '') + ' | ' + ', '.join(v) for p, v in sorted(d.items())]
    elif what == 'answer-text':
        def key(x):
            t = re.sub(r'(?<![^\s(){}])' + re.escape(x['name']) + r'(?![^\s(){}.,])', 'SELF', x['body'])
            return re.sub(r'\s+', ' ', t)
        g = groups([x for x in lemmas() if is_answer(x) and x['path'].endswith('/Answers.antt')], key)
        print(len(g), 'texts,', sum(map(len, g)), 'answers')
        show = [f"{len(v)} | {v[0]['body'].splitlines()[-1][:110]} | {', '.join(sorted(set(x['path'].split('/')[1] + ':' + x['path'].split('/')[3] for x in v)))}" for v in g]
    if verbose:
        print('\n'.join(show))

if __name__ == '__main__':
    main()
