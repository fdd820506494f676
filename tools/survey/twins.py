# Groups of functions whose words are alike once names, numbers and types are left out. Run at the top: python3 twins.py [least words] [least likeness]
import difflib, glob, itertools, re, sys
least = int(sys.argv[1]) if len(sys.argv) > 1 else 28
like = float(sys.argv[2]) if len(sys.argv) > 2 else 0.9
kept = set('fn let mut while if else return match for in as loop pub'.split())
fns = []
for f in sorted(glob.glob('crates/*/src/*.rt')):
    lines = open(f).read().split('\n')
    for i, l in enumerate(lines):
        m = re.match(r'(\s*)(?:pub )?(?:extern "C" )?fn (\w+)', l)
        if not m: continue
        j = next(k for k in range(i, len(lines)) if lines[k].startswith(m.group(1) + '}'))
        body = ' '.join(x for x in lines[i:j + 1] if not re.match(r'\s*(requires|ensures|//|×)', x))
        t = [w if w in kept or not re.match(r'\w', w) else 'x' for w in re.findall(r'\w+|[^\w\s]', body)]
        fns.append((f'{f[7:]}:{i + 1} {m.group(2)}'.replace('/src', ''), t))
group = list(range(len(fns)))
def top(a):
    while group[a] != a: a = group[a]
    return a
for a, b in itertools.combinations(range(len(fns)), 2):
    x, y = fns[a][1], fns[b][1]
    if min(len(x), len(y)) < least or abs(len(x) - len(y)) > .25 * max(len(x), len(y)): continue
    s = difflib.SequenceMatcher(None, x, y, autojunk=False)
    if s.real_quick_ratio() >= like and s.quick_ratio() >= like and s.ratio() >= like: group[top(a)] = top(b)
found = {}
for i in range(len(fns)): found.setdefault(top(i), []).append(fns[i][0])
found = [v for v in found.values() if len(v) > 1]
for v in found: print('; '.join(v))
print(len(found), 'groups,', sum(map(len, found)), 'functions of', len(fns))
