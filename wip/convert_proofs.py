#!/usr/bin/env python3
"""Turns the hand walks proofs/F/Proof.antt of a crate, as port.py and tools/respell.py left them, into Invariants.antt and Answers.antt.

usage: convert_proofs.py CRATE_FOLDER NAMES [FUNCTION..]

NAMES is the names.json that `rt check --generated DIR --old-names` writes in that folder. It turned the crates of docs/PORT.md, and is kept for e1.patch.
It prints what it could not turn: joins of branches, names that the checker no longer gives, a binder that has the name of a loop's variable.
"""
import json, os, re, sys
crate, names = sys.argv[1], json.load(open(sys.argv[2]))
only = set(sys.argv[3:])
cname = os.path.basename(os.path.abspath(crate))
plain = lambda s: re.sub('-+', '-', s.replace('_', '-'))
VERB = re.compile(r'^(overflow|nonzero|offset-bounds|slice-bounds|bounds|shape-of|invariant-of)-')
def norm(s):
    s = plain(s)
    if s.endswith('-lem'): s = s[:-4]
    s = re.sub(r'^overflow-', '', s)
    return s

TOK = r"[^\s(){}\[\];,\"«»@λ∀]+"

CLAUSES = {}
ALLSRC = os.path.join(os.path.dirname(os.path.abspath(crate)))
for cr in os.listdir(ALLSRC):
    for a_, d_, f_ in os.walk(os.path.join(ALLSRC, cr, 'src')):
        for f in f_:
            if f.endswith('.rt'):
                tx = open(os.path.join(a_, f)).read()
                for m in re.finditer(r'\bfn (\w+)(.*?)\n\s*(?=(?:pub |unsafe |extern "C" |#\[|//[^\n]*\n\s*)*(?:fn|impl|mod|struct|enum|trait)\b|\Z)', tx, re.S):
                    rq = re.findall(r'\n\s*requires (\w+) \{', m[2].split('\n{')[0])
                    if rq: CLAUSES.setdefault((cr, m[1]), rq)

def by_clause(names_, digits):
    """.requires path digits -> (clause, rest) or None if partial"""
    i = 0
    D = list(digits)
    while i < len(names_) - 1:
        if not D: return None
        if D[0] == '0': return names_[i], D[1:]
        if D[0] == '1': i += 1; D = D[1:]
        else: return None
    return names_[-1], D

def split_tuple(x):
    x = x.strip()
    if not (x.startswith('(') and x.endswith(')')): return None
    d = 0
    parts, cur = [], ''
    for k, ch in enumerate(x):
        if ch in '([{':
            d += 1
            if d == 1: continue
        if ch in ')]}':
            d -= 1
            if d == 0:
                if k != len(x) - 1: return None
                continue
        if ch == ',' and d == 1: parts.append(cur); cur = ''
        else: cur += ch
    if cur.strip(): parts.append(cur)
    return parts if len(parts) > 1 else None

class Fn:
    def __init__(self, j):
        self.j = j
        self.needs = {}
        for (old, new), at in zip(j['needs'], j['asked_at']):
            self.needs.setdefault(norm(old), []).append((new, at))
        self.fields = {}      # old field -> list of (place_old, new field)
        self.places = {}      # old place -> (new place, parent)
        self.sub = {}
        for k, (pl, par, (of, nf), callee, subs) in enumerate(j['places']):
            newpl = j['places_by_name'][k]
            self.places[pl] = (newpl, par)
            if of:
                self.fields.setdefault(plain(of), [])
                if nf not in [x[1] for x in self.fields[plain(of)]]:
                    self.fields[plain(of)].append((pl, nf))
            for o, n in subs:
                self.sub[(nf, o)] = n
        self.arms = {}
        for a in j.get('arms', []):
            if a:
                arm, _, subs = a
                for nf, of, path in subs:
                    if path: self.arms[(plain(of), '.'.join(path))] = arm + '.' + nf
        self.args = {}
        for o, n in j.get('args', []):
            m = re.match(r'\.args \.(\S+)', o)
            if m: self.args[plain(m[1])] = re.match(r'\.args \.(\S+)', n)[1]
        self.loops = {}
        for (lp, vs), ch in zip(j['loops'], j['changed']):
            self.loops[lp[0]] = (lp[1], vs, ch)

    def ancestors(self, place):
        out = []
        while place:
            out.append(place)
            place = self.places[place][1] if place in self.places else None
        return out

report = []

def convert(path, fn, mod):
    text = open(path).read()
    rel = os.path.relpath(path, crate)
    # split into chunks at top-level (column 0) starts
    lines = text.split('\n')
    header, decls, cur = [], [], None
    i = 0
    uses = []
    buf = []      # pending comments
    def flush():
        nonlocal cur
        if cur: decls.append(cur); cur = None
    n = 0
    while n < len(lines):
        l = lines[n]
        if re.match(r'(pub )?use ', l):
            flush()
            u = l
            while u.count('{') > u.count('}'):
                n += 1
                u += '\n' + lines[n]
            uses.append(u)
        elif l and not l[0].isspace() and not l.startswith('--') and l[0] not in ')}]':
            m = re.match(r'(?:abbrev |pub |unfoldable )*(module _|record(?= )|' + TOK + ')', l)
            name = m[1]
            if cur and (cur['name'] == name and name not in ('module _', 'record') or l.startswith('unfolding')):
                cur['lines'].append(l)
            else:
                flush()
                cur = {'name': name, 'lines': buf + [l]}
                buf = []
        elif l.startswith('--') and (cur is None or not cur['lines'][-1].strip()):
            flush(); buf.append(l)
        elif cur is not None:
            cur['lines'].append(l)
        elif l.strip():
            buf.append(l)
        n += 1
    flush()
    # final spec block gives the order
    order = []
    keep = []
    for d in decls:
        t = '\n'.join(d['lines'])
        if 'tie.close' in t:
            m = re.search(r'tie\.spec\s+(.*?)\)\s*$', t.strip(), re.S)
            if m: order = m[1].split()
            continue
        keep.append(d)
    decls = keep
    invs = [d for d in decls if re.search(r':\s*tie\.(invariant|decreases)[-\w]*\s*$', '\n'.join(d['lines']), re.M) and 'abbrev' in '\n'.join(d['lines'])]
    inv_names = {d['name'] for d in invs}
    needs = {}
    for d in decls:
        t = '\n'.join(d['lines'])
        m = re.search(r'^' + re.escape(d['name']) + r'\s*:\s*tie\.Need-(\S+)', t, re.M)
        if m: needs[d['name']] = m[1]
    old_order = [fn.j['needs'][k] for k in range(len(fn.j['needs']))]
    need_args = [a for a in order if a in needs]
    same_count = len(need_args) == len(old_order)
    mapping = {}
    for d, need in needs.items():
        key = norm(need)
        got = fn.needs.get(key)
        if got and len(got) == 1:
            mapping[d] = got[0]
        elif got:
            mapping[d] = got[0]; report.append(f'{rel}: need {need} has several')
        elif same_count:
            k = need_args.index(d)
            mapping[d] = (old_order[k][1], fn.j['asked_at'][k])
            report.append(f'{rel}: need {need} by order -> {old_order[k][1]}')
        else:
            mapping[d] = None
            report.append(f'{rel}: need {need} not found (old {[x[0] for x in old_order]})')

    inv_tail = r'(?:\s+(?:' + '|'.join(map(re.escape, inv_names)) + r'))*' if inv_names else ''

    def types(t):
        # tie.Need-x inv mu -> goal.new ; tie.Start -> goal.Start
        def need(m):
            for d, nd in needs.items():
                if nd == m[1] and mapping[d]:
                    return 'goal.' + mapping[d][0]
            return 'goal.UNKNOWN-' + m[1]
        t = re.sub(r'tie\.Need-(' + TOK + r')' + inv_tail, need, t)
        def place(m):
            pl = m[1]
            for k, v in fn.places.items():
                if plain(k) == plain(pl): return 'goal.' + v[0]
            return 'goal.' + pl
        t = re.sub(r'tie\.((?:Start|After|In|At|Then|Else|Arm)' + r'[^\s(){}\[\];,]*)' + inv_tail, place, t)
        def lts(m):
            return place(re.match(r'lts\.(\S+)', m[0]))
        t = re.sub(r'lts\.((?:Start|After|In|At|Then|Else|Arm)[^\s(){}\[\];,]*)\s*(\([^()]*\)|\S+\.Asked|tt)?\s*reads\.Pre\s+reads\.Post' + inv_tail, place, t)
        return t

    def fields(t, place=None, alias=()):
        chain = fn.ancestors(place) if place else None
        heads = r'(?:c|' + '|'.join(map(re.escape, alias)) + ')' if alias else 'c'
        def one(m):
            head, befores, rest = m[1], m[2], m[3]
            segs = rest.split('.')[1:] if rest else []
            if segs:
                f = segs[0]
                key = plain(f)
                if key.endswith('-lem'): key = key[:-4]
                cand = fn.fields.get(key)
                arm = None
                for k in range(len(segs), 1, -1):
                    if (key, '.'.join(segs[1:k])) in fn.arms:
                        arm = fn.arms[(key, '.'.join(segs[1:k]))]; segs = [arm] + segs[k:]; break
                if arm: pass
                elif cand:
                    if len(cand) == 1: new = cand[0][1]
                    else:
                        # choose by ancestors
                        hit = [nf for pl, nf in cand if chain and pl in chain]
                        k = befores.count('.before')
                        new = hit[0] if hit else cand[0][1]
                        if len(hit) != 1: report.append(f'{rel}: field {f} ambiguous {cand} at {place}')
                    if len(segs) > 1:
                        segs[1] = fn.sub.get((new, segs[1]), segs[1])
                    segs[0] = new
                elif f in ('args', 'requires', 'ranges', 'pre'):
                    if f == 'pre': segs[0] = 'requires'
                    if f == 'args' and len(segs) > 1 and segs[1] not in ('self',):
                        if segs[1].endswith('_lem'): segs[1] = segs[1][:-4]
                        segs[1] = fn.args.get(plain(segs[1])) or argname(segs[1])
                elif f == 'well-formed': segs[0] = 'well_formed'
                else:
                    report.append(f'{rel}: field {f} unknown')
            return head + ''.join('.' + s for s in segs)
        return re.sub(r'(?<![\w.\'-])(' + heads + r')((?:\.before)*)((?:\.[A-Za-z_][\w\'-]*|\.\d+)*)', one, t)

    allvars = {}
    for vs in fn.j['loops']:
        for v in vs[1]: allvars[plain(v)] = v
    for v in src_names: allvars.setdefault(plain(v), v)
    def argname(a):
        return allvars.get(plain(a), a)

    fname = mod.split('.')[-1]
    own_cl = CLAUSES.get((cname, fname), [])

    def requires_paths(t):
        if len(own_cl) < 2: return t
        # aliases of the requires, whole or a tail of it
        pre = {}
        for m in re.finditer(r'let (\S+) = ((?:[\w\'-]+)(?:\.before)*)\.(?:requires|pre)((?:\.1)*) in', t):
            if m[3].count('1') < len(own_cl) - 1: pre[m[1]] = m[3].count('1')
        def one(m):
            segs = [x for x in m[2].split('.') if x]
            ds = []
            while segs and segs[0].isdigit(): ds.append(segs.pop(0))
            got = by_clause(own_cl, ds)
            if not got:
                if re.match(r'\s+in\b', t[m.end():]) and not segs: return m[0]
                report.append(f'{rel}: requires path partial: {m[0]}'); return m[0]
            return m[1] + '.requires.' + got[0] + ''.join('.' + x for x in got[1] + segs)
        t = re.sub(r'(?<![\w.\'-])([\w\'-]+(?:\.before)*)\.(?:requires|pre)(?![\w\'-])((?:\.[\w\'-]+)*)', one, t)
        for al, k in pre.items():
            def two(m):
                segs = [x for x in m[1].split('.') if x]
                ds = ['1'] * k
                while segs and segs[0].isdigit(): ds.append(segs.pop(0))
                got = by_clause(own_cl, ds)
                if not got: report.append(f'{rel}: requires alias partial: {m[0]}'); return m[0]
                return 'c.requires.' + got[0] + ''.join('.' + x for x in got[1] + segs)
            head = re.search(r'let ' + re.escape(al) + r' = ', t)
            t = re.sub(r'(?<![\w.\'-])(?<!let )' + re.escape(al) + r'((?:\.[\w\'-]+)+)', two, t)
            if not re.search(r'(?<![\w.\'-])(?<!let )' + re.escape(al) + r'(?![\w.\'-])', t):
                t = re.sub(r'let ' + re.escape(al) + r' = [\w\'-]+(?:\.before)*\.(?:requires|pre)(?:\.[\w]+)* in\s*', '', t)
        return t

    def callee_record(t, old_need, new):
        m = re.match(r'(.*?)-requires(?:-\d+)?$', norm(old_need))
        if not m: return t
        full = [x for x in fn.j['params'] if plain(x.split('::')[-1]) == m[1]]
        cn = [k for k in CLAUSES if plain(k[1]) == m[1] and (not full or k[0] == full[0].split('::')[0])]
        if not cn or len(CLAUSES[cn[0]]) < 2: return t
        cl = CLAUSES[cn[0]]
        k = re.search(r'^' + re.escape(new) + r'\s+c\s*=', t, re.M)
        if not k: return t
        head, ex = t[:k.end()], t[k.end():]
        # peel lets
        d = 0; cut = 0
        for mm in re.finditer(r'[(\[{]|[)\]}]|(?<![\w])in(?=\s)', ex):
            if mm[0] in '([{': d += 1
            elif mm[0] in ')]}': d -= 1
            elif d == 0: cut = mm.end()
        lets, ex = ex[:cut], ex[cut:]
        parts, x = [], ex
        for i in range(len(cl) - 1):
            sp = split_tuple(x)
            if not sp and re.match(r'\s*[a-z]\w*(?![\w-]*\s*=)', x) and not re.match(r'\s*(search|omega|grind|record|let|simp|rw)\b', x):
                e = 'asked' + ''.join('.1' for _ in ()) 
                acc = 'asked'
                for j in range(i, len(cl) - 1):
                    parts.append(acc + '.0'); acc += '.1'
                parts.append(acc)
                return head + lets + ' let asked = ' + x.strip() + ' in record { ' + '; '.join(f'{n} = {p}' for n, p in zip(cl, parts)) + ' }'
            if not sp:
                report.append(f'{rel}: {new}: requires of {cn[0]} has clauses {cl}, answer is no tuple'); return t
            parts.append(sp[0].strip())
            x = sp[1] if len(sp) == 2 else '(' + ', '.join(p.strip() for p in sp[1:]) + ')'
        parts.append(x.strip())
        return head + lets + ' record { ' + '; '.join(f'{n} = {p}' for n, p in zip(cl, parts)) + ' }'

    callee_of = {}
    for pl, par, (of, nf), callee, subs in fn.j['places']:
        if callee: callee_of[plain(of)] = callee

    def positions(t):
        al = {}
        for m in re.finditer(r'let (\S+) = [\w\']+(?:\.before)*\.([\w-]+) in', t):
            f = plain(m[2])
            if f.endswith('-lem'): f = f[:-4]
            if f in callee_of: al[m[1]] = callee_of[f]
        def one(m):
            head, step, word, ds = m[1], m[2], m[3], m[4]
            f = plain(step or head)
            if f.endswith('-lem'): f = f[:-4]
            cal = (callee_of.get(f) if step else None) or (al.get(head) if not step else None)
            if not cal: return m[0]
            ps = fn.j['params'].get(cal)
            k = ds.count('.1')
            if not ps or k >= len(ps): report.append(f'{rel}: position {m[0]} of {cal} {ps}'); return m[0]
            w = {'last': 'new', 'kept': 'auto'}.get(word, word)
            return head + m[5] + ('.' + step if step else '') + '.' + w + '.' + ps[k]
        t = re.sub(r'(?<![\w.\'-])([\w\'-]+)((?:))(?:(?:\.before)*)\.(new|last|auto|kept)((?:\.1)*\.0)()(?![\w])', one, t)
        t = re.sub(r'(?<![\w.\'-])([\w\']+)(?P<b>(?:\.before)*)\.([\w-]+)\.(new|last|auto|kept)((?:\.1)*\.0)(?![\w])', lambda m: one({0: m[0], 1: m[1], 2: m[3], 3: m[4], 4: m[5], 5: m[2]}), t)
        return t

    def body(t, place):
        # aliases: let NAME = c(.before)* in
        alias = set(re.findall(r'\((\w+) : tie\.', t))
        for _ in range(14):
            alias |= set(re.findall(r'let (\S+) = (?:' + '|'.join(map(re.escape, sorted(alias | {'c'}))) + r')(?:\.before)* in', t))
        alias -= {'c'}
        for m in list(re.finditer(r'let (\S+) = ([\w\']+(?:\.before)*)\.([\w-]+) in\s*', t)):
            f = plain(m[3])
            if any(k[0] == f for k in fn.arms):
                t = re.sub(r'(?<![\w.\'-])' + re.escape(m[1]) + r'(?=\.given)', lambda _: m[2] + '.' + m[3], t)
                if not re.search(r'(?<![\w.\'-])(?<!let )' + re.escape(m[1]) + r'(?![\w\'-])', t): t = t.replace(m[0], '')
        t = positions(t)
        t = requires_paths(t)
        t = fields(t, place, sorted(alias))
        # fields of record args behind an alias of args: out-vertices
        t = re.sub(r'\.([a-z][\w]*(?:-[\w]+)+)', lambda m: '.' + (allvars[m[1]] if m[1] in allvars else m[1]), t)
        al2 = re.findall(r'let (\S+) = [\w\']+\.if-not-\S+ in', t)
        t = re.sub(r'(?<![\w-])not-(?:true|false) _ \(((?:[\w\']+\.if-not-[^\s().]*' + ''.join('|' + re.escape(a) for a in al2) + r')\.(?:true|false))(?:-raw)?\)', r'\1', t)
        t = re.sub(r'(?<![\w-])not-(?:true|false) _ ((?:[\w\']+\.if-not-[^\s().]*' + ''.join('|' + re.escape(a) for a in al2) + r')\.(?:true|false))(?:-raw)?(?![\w])', r'\1', t)
        t = t.replace('.type-inv', '.type_inv').replace('.well-formed', '.well_formed')
        t = types(t)
        return t

    # helpers over a state: inlined as lets, since every earlier step is a field of c
    helpers = {}
    STATE = r'(?:tie\.(?:Start|After|In|At|Then|Else|Arm)[^\s(){}\[\];,]*|lts\.(?:Start|After|In|At|Then|Else|Arm)[^\s(){}\[\];,]*\s*(?:\([^()]*\)|\S+\.Asked|tt)?\s*reads\.Pre\s+reads\.Post)' + inv_tail
    def helper_of(lines3):
        txt = '\n'.join(lines3)
        sig, unf, defs, com = '', [], '', []
        lines4 = [l for l in lines3]
        while lines4 and (lines4[0].lstrip().startswith('--') or not lines4[0].strip()): com.append(lines4.pop(0))
        if not lines4: return None
        m = re.match(r'(?:abbrev |pub |unfoldable )*(\S+)\s*:', lines4[0].strip())
        if not m: return None
        name = m[1]
        k = next((i for i, l in enumerate(lines4) if i and re.match(r'\s*(' + re.escape(name) + r'(\s|$)|unfolding )', l)), None)
        if k is None: return None
        sig = '\n'.join(lines4[:k]).strip()
        sig = re.sub(r'^(?:abbrev |pub |unfoldable )*' + re.escape(name) + r'\s*:\s*', '', sig)
        rest = lines4[k:]
        while rest and rest[0].strip().startswith('unfolding '): unf.append(rest.pop(0).strip())
        if not rest: return None
        body = '\n'.join(rest)
        if len([l for l in rest if re.match(r'\s*' + re.escape(name) + r'(\s|$)', l)]) != 1 or re.search(r'^\s*where\s*$', body, re.M): return None
        m = re.match(r'\s*' + re.escape(name) + r'((?:\s+[^\s=]+)*)\s*=\s', body + ' ')
        if not m: return None
        return name, sig, unf, m[1].split(), body[m.end():]
    # names of a state
    for d in list(decls):
        tx = '\n'.join(l for l in d['lines'] if not l.startswith('--')).strip()
        m = re.fullmatch(r'(?:abbrev |pub )*(\S+)\s*:\s*Type 0\s+\1\s*=\s*(' + STATE + r')\s*', tx)
        if m:
            decls.remove(d)
            for e in decls:
                e['lines'] = re.sub(r'(?<![\w.\'-])' + re.escape(m[1]) + r'(?![\w\'-])', lambda _: re.sub(r'\s+', ' ', m[2]), '\n'.join(e['lines'])).split('\n')
    rest_decls = []
    for d in decls:
        lines3 = d['lines']
        if d['name'] in needs or d['name'] in inv_names: rest_decls.append(d); continue
        if d['name'] == 'module _':
            j = next(i for i, l in enumerate(lines3) if l.startswith('module _'))
            head = []
            k = j
            while True:
                head.append(lines3[k])
                if re.search(r'\bwhere\s*$', lines3[k]): break
                k += 1
                if k >= len(lines3): break
            hd = '\n'.join(head)
            m = re.match(r'module _ \((\w+) :\s*(' + STATE + r')\s*\)\s*where\s*$', hd, re.S)
            if m:
                if m[1] != 'c':
                    rx = r'(?<![\w.\'-])' + re.escape(m[1]) + r'(?![\w\'-])'
                    lines3 = [re.sub(rx, 'c', l) for l in lines3]
                inner, groups = lines3[k + 1:], []
                for l in inner:
                    if not l.strip(): continue
                    ind = len(l) - len(l.lstrip())
                    if ind == 2 and not l.lstrip().startswith('--') and not l.lstrip().startswith('unfolding') and re.match(r'\s*(?:abbrev |pub |unfoldable )*\S+\s*:', l): groups.append([l])
                    elif l.lstrip().startswith('--') and ind == 2: continue
                    elif groups: groups[-1].append(l)
                hs = [helper_of(g) for g in groups]
                if all(hs):
                    for h in hs:
                        helpers[h[0]] = (h[1], h[2], ['c'] + h[3], h[4])
                    continue
                report.append(f'{rel}: module over a state not inlined')
            rest_decls.append(d); continue
        h = helper_of(lines3)
        if h:
            m = re.match(r'\(([\w\']+)\s*:\s*' + STATE + r'\s*\)\s*→\s*', h[1]) or re.match(r'()' + STATE + r'\s*→\s*', h[1])
            if m and h[3]:
                sig, bd = h[1][m.end():], h[4]
                for v, w in ((m[1], 'sig'), (h[3][0], 'bd')):
                    if v and v != 'c':
                        rx = r'(?<![\w.\'-])' + re.escape(v) + r'(?![\w\'-])'
                        if w == 'sig': sig = re.sub(rx, 'c', sig)
                        else: bd = re.sub(rx, 'c', bd)
                helpers[h[0]] = (sig, h[2], ['c'] + h[3][1:], bd)
                continue
        rest_decls.append(d)
    decls = rest_decls

    def inline(t, new):
        def uses(x): return [h for h in helpers if re.search(r'(?<![\w.\'-])' + re.escape(h) + r'(?![\w\'-])', x)]
        used, todo = set(), uses(t)
        while todo:
            h = todo.pop()
            if h in used: continue
            used.add(h)
            todo += uses(helpers[h][0]) + uses(helpers[h][3])
        if not used: return t
        states = {h for h in used if re.fullmatch(r'\s*' + STATE + r'\s*', helpers[h][0])}
        lets, unfs = [], []
        def strip(x):
            al = {'c', 's', 'l'}
            for _ in range(14):
                al |= set(re.findall(r'let (\S+) = (?:' + '|'.join(map(re.escape, sorted(al))) + r')(?:\.before)* in', t + '\n' + x))
            al = '(?:' + '|'.join(map(re.escape, sorted(al))) + r')(?:\.before)*'
            for _ in range(6):
                y = x
                for h in states:
                    x = re.sub(r'(?<![\w.\'-])\(' + re.escape(h) + r'\s+(?:' + al + r'|\(' + al + r'\))\)', 'c', x)
                    x = re.sub(r'(?<![\w.\'-])' + re.escape(h) + r'\s+(?:' + al + r'|\(' + al + r'\))(?![\w.\'-])', 'c', x)
                if x == y: break
            for h in used:
                x = re.sub(r'(?<![\w.\'-])\(' + re.escape(h) + r'\s+(?:' + al + r'|\(' + al + r'\))\)', h, x)
                x = re.sub(r'(?<![\w.\'-])' + re.escape(h) + r'\s+(?:' + al + r'|\(' + al + r'\))(?![\w.\'-])', h, x)
            for h in states:
                x = re.sub(r'(?<![\w.\'-])' + re.escape(h) + r'(?![\w\'-])', 'c', x)
            return x
        for h in helpers:
            if h in used and h not in states:
                sig, unf, ps, bd = helpers[h]
                unfs += unf
                bd = strip(bd).strip()
                if len(ps) > 1: bd = 'λ ' + ' '.join(ps[1:]) + '. ' + bd
                lets.append(f'    let {h} : {strip(sig).strip()} = {bd} in')
        lines5 = t.split('\n')
        k = next(i for i, l in enumerate(lines5) if re.match(re.escape(new) + r'(\s+\S+)*\s*=', l) and not re.match(r'pub ', l))
        m = re.match(re.escape(new) + r'(?:\s+[^\s=]+)*\s*=', lines5[k])
        headl, tail = lines5[k][:m.end()], lines5[k][m.end():]
        rest = '\n'.join(([tail.strip()] if tail.strip() else []) + lines5[k + 1:])
        pre = lines5[:k]
        old_unf = [l for l in pre if l.startswith('unfolding ')]
        if unfs:
            words = []
            for u in old_unf + unfs:
                for w in u.split()[1:]:
                    if w not in words: words.append(w)
            pre = [l for l in pre if not l.startswith('unfolding ')] + ['unfolding ' + ' '.join(words)]
        return '\n'.join(pre + [headl] + lets + ['    ' + strip(rest).strip()])

    inv_out, ans_out = [], []
    for d in decls:
        t = '\n'.join(d['lines']).rstrip('\n')
        if d['name'] in inv_names:
            m = re.search(r'tie\.(invariant|decreases)-?(\S*)', t)
            kind, lp = m[1], m[2]
            key = [k for k in fn.loops if norm(k) == norm(lp)] or [k for k in fn.loops if norm(k).replace('loop','') == norm(lp).replace('loop','')]
            if not key:
                report.append(f'{rel}: loop {lp} not found {list(fn.loops)}'); inv_out.append(t); continue
            newlp, vs, ch = fn.loops[key[0]]
            lines2 = t.split('\n')
            k = [i for i, l in enumerate(lines2) if re.match(r'(abbrev |pub )*' + re.escape(d['name']) + r'\s*:', l)][0]
            pre = lines2[:k]
            rest = lines2[k + 1:]
            unf = [l for l in rest if l.startswith('unfolding')]
            rest = [l for l in rest if not l.startswith('unfolding')]
            b = '\n'.join(rest)
            m = re.match(re.escape(d['name']) + r'\s+(.*?)\s=\s', b + ' ', re.S)
            params = m[1].split() if m else []
            expr = b[m.end():] if m else b
            want = ['l.' + v if not c else 'l.initial.' + v for v, c in zip(vs, ch)] + ['l.' + v for v, c in zip(vs, ch) if c]
            if len(params) != len(want):
                report.append(f'{rel}: {d["name"]} has params {params}, want {want}')
            env = dict(zip(params, want))
            def sub(m):
                s = m[0]; head, dot, tl = s.partition('.')
                if head in env and not (m.start() and expr[m.start() - 1] == '.'):
                    return env[head] + dot + tl
                return s
            expr = re.sub(TOK, sub, expr)
            expr = re.sub(r'\.([a-z][\w]*(?:-[\w]+)+)', lambda m: '.' + (allvars[m[1]] if m[1] in allvars else m[1]), expr)
            new = kind + '-' + newlp if not newlp.startswith(kind) else newlp
            inv_out.append('\n'.join(pre + [f'abbrev pub {new} : goal.{new}'] + unf + [f'{new} l =' + ('' if expr.startswith('\n') else ' ') + expr]))
            d['new'] = new
        elif d['name'] in needs and mapping[d['name']]:
            new, at = mapping[d['name']]
            t = re.sub(r'^' + re.escape(d['name']) + r'(?=[\s:])', new, t, flags=re.M)
            t = re.sub(r'^' + re.escape(new) + r'(\s*:)', 'pub ' + new + r'\1', t, flags=re.M)
            if re.search(r'=\s*search rules\s*$', t): ans_out.append(''); continue
            t = re.sub(r'^(' + re.escape(new) + r' c) κs\b', r'\1', t, flags=re.M)
            t = callee_record(t, needs[d['name']], new)
            t = inline(t, new)
            ans_out.append(body(t, at[0]))
        else:
            ans_out.append(body(t, None))
    ans = '\n\n'.join(ans_out)
    # helpers used by invariants go to Invariants
    inv = '\n\n'.join(inv_out)
    moved = []
    if inv:
        changed = True
        while changed:
            changed = False
            for d, a in list(zip(decls_nonninv(decls, inv_names), ans_out)):
                if a in moved or d['name'] in needs or d['name'] in ('module _',): continue
                if re.search(r'(?<![\w.\'-])' + re.escape(d['name']) + r'(?![\w\'-])', inv) and 'goal.' not in a and a in ans_out:
                    p = re.sub(r'^(abbrev |unfoldable )?(?=' + re.escape(d['name']) + r'\s*:)', lambda m: (m[1] or '') + 'pub ', a, count=1, flags=re.M)
                    inv = p + '\n\n' + inv
                    moved.append(a); changed = True
        ans_out = [a for a in ans_out if a not in moved]
    ans = '\n\n'.join(a for a in ans_out if a)
    top = f'Rattle.{cname}.proofs.{mod}'
    drop = re.compile(r'use ' + re.escape(top) + r'\.(Statement|Tie|Lts\S*|Reads|Kinds|Met)\b')
    us = [u for u in uses if not drop.search(u)]
    us = [u for u in us if not re.search(r'\.Reads as ', u)]
    folder = os.path.dirname(path)
    hdr = '\n'.join(header)
    def write(name, uselist, bodytext, goalmod):
        txt = bodytext
        def used(u):
            m = re.search(r'\{(.*)\}', u, re.S)
            ns = [x.strip() for x in m[1].split(',') if x.strip()] if m else [u.split()[-1].split('.')[-1]]
            return u
        open(os.path.join(folder, name), 'w').write('\n'.join(uselist) + f'\nuse {top}.{goalmod} as goal\n\n' + txt.strip('\n') + '\n')
    if inv:
        write('Invariants.antt', us, inv, 'Given')
    if moved and ans:
        mv = [re.search(r'^(?:abbrev |pub |unfoldable )*(\S+)\s*:', p, re.M)[1] for p in moved]
        us = us + [f'use {top}.Invariants.{{{", ".join(mv)}}}']
    if ans.strip():
        write('Answers.antt', us, ans, 'Goals')
    os.remove(path)

def decls_nonninv(decls, inv_names):
    return [d for d in decls if d['name'] not in inv_names]

src_names = set()
for a, ds, fs in os.walk(os.path.join(crate, 'src')):
    for f in fs:
        if f.endswith('.rt'):
            src_names |= set(re.findall(r'\b([a-z][a-z0-9]*(?:_[a-z0-9]+)+)\b', open(os.path.join(a, f)).read()))

for a, ds, fs in sorted(os.walk(os.path.join(crate, 'proofs'))):
    if 'Proof.antt' in fs:
        mod = os.path.relpath(a, os.path.join(crate, 'proofs')).replace('/', '.')
        key = f'Rattle-{cname}-proofs.{mod}.Lts'
        if only and mod not in only: continue
        if key not in names:
            report.append(f'{mod}: no names ({key})'); continue
        try:
            convert(os.path.join(a, 'Proof.antt'), Fn(names[key]), mod)
        except Exception as e:
            import traceback; report.append(f'{mod}: {e!r} ' + traceback.format_exc().splitlines()[-3])
print('\n'.join(report))
