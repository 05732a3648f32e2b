#!/usr/bin/env python3
"""Proof.antt of a function -> Invariants.antt and Answers.antt. usage: conv.py CRATE_DIR names.json [--only PATH]"""
import json, os, re, sys

crate_dir, names_path = sys.argv[1], sys.argv[2]
only = sys.argv[4] if len(sys.argv) > 4 else None
root = os.path.dirname(os.path.dirname(os.path.abspath(crate_dir)))
crate = os.path.basename(os.path.abspath(crate_dir))
J = json.load(open(names_path))
TOK = re.compile(r'[^\s(){}.;,@"«»`\[\]]+')
norm = lambda s: s.replace('_', '-').replace('«', '').replace('»', '').lower() if not s[:1].isupper() else s.replace('_', '-')

# clauses of every function of the repository
CL = {}
SRC = {}
def read_src():
    for c in os.listdir(os.path.join(root, 'crates')):
        src = os.path.join(root, 'crates', c, 'src')
        for f in (os.listdir(src) if os.path.isdir(src) else []):
            if not f.endswith('.rt'): continue
            t = open(os.path.join(src, f)).read()
            mod = [c] + ([] if f in ('lib.rt', 'main.rt') else [f[:-3]])
            imp = None
            lines = t.split('\n')
            for i, l in enumerate(lines):
                m = re.match(r'impl (\w+)', l)
                if m: imp = m[1]
                if l == '}': imp = None
                m = re.match(r'\s*(?:pub(?:\(\w+\))? )?(?:unsafe )?(?:extern "C" )?fn (\w+)', l)
                if not m: continue
                j = i; sig = ''
                while True:
                    sig += ' ' + lines[j].strip()
                    if re.search(r'\)( ->.*)?( \{)?\s*$', lines[j]) and sig.count('(') == sig.count(')'): break
                    j += 1
                params = re.findall(r'[(,]\s*(?:mut )?(&?\s*(?:mut )?self|\w+)\s*(?=[:,)])', sig[sig.index('fn'):])
                req, ens = [], []
                k = j + 1
                while k < len(lines) and re.match(r'\s*(requires|ensures)\b', lines[k]):
                    m2 = re.match(r'\s*(requires|ensures)\*? ?(\w+)? ?\{', lines[k])
                    (req if m2[1] == 'requires' else ens).append(m2[2])
                    k += 1
                name = '::'.join(mod + ([imp] if imp and l.startswith(' ') else []) + [m[1]])
                CL[name] = (params, req, ens)
                ind = len(l) - len(l.lstrip()); e_ = k
                while e_ < len(lines) and lines[e_] != ' ' * ind + '}': e_ += 1
                SRC[name] = '\n'.join(lines[k:e_])
read_src()

def clause_path(segs, clauses):
    n = len(clauses)
    if n < 2: return segs
    d, i = 0, 0
    while i < len(segs):
        if segs[i] == '0': return [clauses[d] or '?'] + segs[i+1:]
        if segs[i] == '1':
            if d == n - 2: return [clauses[n-1] or '?'] + segs[i+1:]
            d += 1; i += 1; continue
        return segs[i:] if i < len(segs) and not segs[i].isdigit() else ['??'] + segs
    return segs if not segs else ['??'] + segs

def param_path(segs, params):
    d, i = 0, 0
    while i < len(segs):
        if segs[i] == '0':
            return [params[d] if d < len(params) else '?'] + segs[i+1:]
        if segs[i] == '1': d += 1; i += 1; continue
        return segs
    return segs

class Fn:
    def __init__(self, path, key, fname):
        self.j = J[key]; self.fname = fname
        self.places = {norm(p[0]): p for p in self.j['places']}
        self.loops = {norm(l[0][0]): l for l in self.j['loops']}
        self.needs = {}
        self.at = {}
        self.newplace = {}
        for p, n in zip(self.j['places'], self.j['places_by_name']): self.newplace[norm(p[0])] = n
        for (o, n), (po, pn) in zip(self.j['needs'], self.j['asked_at']):
            self.needs.setdefault(norm(o), n); self.at.setdefault(norm(o), po); self.newplace.setdefault(norm(po), pn)
        for (po, pn) in self.j['asked_at']: self.newplace.setdefault(norm(po), pn)
    def place_of(self, name):
        return norm(name)
    def step(self, p, seg):
        """place p (normed), seg -> (place where found, newstep) or None"""
        while p:
            e = self.places.get(p)
            if not e: return None
            if norm(e[2][0]) == norm(seg) or norm(e[2][1]) == norm(seg): return e
            p = norm(e[1]) if e[1] else None
        return None
    def pattern_names(self, arm):
        variant = arm.split('-')[1] if '-' in arm else ''
        for m in re.finditer(r'\b%s\b(?:\s*\{([^{}]*)\}|\(([^()]*)\))\s*(?:=>|=)' % re.escape(variant), SRC.get(self.fname, '')):
            ns = [x.split(':')[-1].strip() for x in (m[1] or m[2] or '').split(',') if x.strip()]
            if ns: return ns
        return None
    def parent(self, p):
        e = self.places.get(p)
        return norm(e[1]) if e and e[1] else None
    def convert(self, place, segs):
        """segs after the variable; returns new segs"""
        p = place; n = 0; i = 0
        if p not in self.places:
            # an unread place: same as its parent with a step already there
            q = re.sub(r'-unread$', '', p)
            p = q if q in self.places else p
        while i < len(segs) and segs[i] == 'before':
            p = self.parent(p) if p else None; n += 1; i += 1
        rest = segs[i:]
        if not rest: return ['before'] * n
        s = rest[0]
        s = {'pre': 'requires', 'type_size': 'size_of', 'type-size': 'size_of', 'entry': 'initial', 'good': 'well_formed', 'fits': 'ranges'}.get(s, s)
        if s in ('args', 'well-formed', 'well_formed', 'ranges', 'requires', 'type-inv', 'type_inv'):
            r = rest[1:]
            if s == 'args' and r: r = [r[0].replace('-', '_')] + r[1:]
            if s == 'requires' and self.fname in CL:
                if not r and len(CL[self.fname][1]) > 1: return ['!', s] + CL[self.fname][1]
                r = clause_path(r, CL[self.fname][1])
            return [s.replace('-', '_')] + r
        e = self.step(p, s) if p else None
        if not e: e = self.step(place, s)
        if not e: return ['before'] * n + rest
        new = e[2][1]; r = rest[1:]
        if r and norm(e[2][0]).startswith('loop') and 'test' not in e[2][0]: r = [{'inv': 'invariant'}.get(r[0], r[0])] + r[1:]
        elif r: r = [{'inv': 'invariant', 'taken': 'true', 'left': 'false', 'kept': 'auto', 'last': 'new', 'came': 'branch', 'typed': 'type_inv', 'type-inv': 'type_inv'}.get(r[0], r[0])] + r[1:]
        if len(r) >= 2 and r[0] == 'given' and r[1] == '0':
            q = norm(e[0])
            while q and not self.places[q][2][1].startswith(('in-', 'in_')): q = self.parent(q)
            names = self.pattern_names(self.places[q][2][1]) if q else None
            if q and names:
                return [self.places[q][2][1]] + param_path(r[2:], names)
        if len(r) >= 2 and r[0] == 'given' and r[1] == '1':
            q = norm(e[0])
            while q and not self.places[q][2][1].startswith(('in-', 'in_')): q = self.parent(q)
            if q: return [self.places[q][2][1], 'is'] + r[2:]
        if r:
            for o, nn in e[4]:
                if r[0] == o: r = [nn] + r[1:]; break
        callee = e[3]
        if r and callee and callee in CL:
            if r[0] == 'ensures' and len(r) == 1 and len(CL[callee][2]) > 1: return ['!', new + '.ensures'] + CL[callee][2]
            if r[0] == 'ensures': r = ['ensures'] + clause_path(r[1:], CL[callee][2])
            elif r[0] == 'requires': r = ['requires'] + clause_path(r[1:], CL[callee][1])
            elif r[0] == 'new': r = ['new'] + param_path(r[1:], CL[callee][0])
        return [new] + r

def is_path_let(line):
    return re.match(r"(\s*)(.*?)let (\S+) = (\w+)((?:\.[^\s().]+)*) in\s*$", line)

def convert_body(fn, text, env):
    """env: var -> (place, prefix segs). Replaces paths; inlines pure path lets."""
    out = []
    lines = text.split('\n')
    for line in lines:
        m = re.match(r"^(.*?)let ([^\s:]+) = ([^\s().]+)((?:\.[^\s().]+)*) in(.*)$", line)
        if m and m[3] in env and 'let ' not in m[1]:
            place, pre = env[m[3]]
            segs = [s for s in m[4].split('.') if s]
            env[m[2]] = (place, pre + segs)
            line = m[1].rstrip() + (' ' if m[1].strip() else '') + m[5].strip()
            if line.strip():
                indent = re.match(r'\s*', m[1])[0]
                line = indent + line.strip()
                lines2 = line
            else: continue
        out.append(line)
    text = '\n'.join(out)
    def repl(m):
        var = m[1]
        if var not in env: return m[0]
        place, pre = env[var]
        segs = pre + [s for s in m[2].split('.') if s]
        if not segs: return m[0]
        base = env[var][2] if len(env[var]) > 2 else 'c'
        got = fn.convert(place, segs)
        if got[:1] == ['!']:
            ps = ['%s.%s.%s' % (ROOT, got[1], n) for n in got[2:]]
            o = ps[-1]
            for q in reversed(ps[:-1]): o = '(%s, %s)' % (q, o)
            return o
        return '.'.join([ROOT] + got)
    return re.sub(r"(?<![^\s(){};,«»\[\]])([A-Za-z_][^\s(){}.;,«»\[\]]*)((?:\.[^\s(){}.;,«»\[\]]+)*)(?! =\s)", repl, text)

ROOT = 'c'

def ties(fn, text):
    def one(m):
        n = norm(m[1])
        new = fn.newplace.get(n)
        return 'goal.' + (new if new else m[1])
    return re.sub(r'tie\.([^\s()]+)((?: (?:invariant|decreases)-[^\s()]+)*)', one, text)

def split_top(s):
    """parts of a parenthesised tuple text '(a, b)' or None"""
    if not (s.startswith('(') and s.endswith(')')): return None
    depth, parts, cur = 0, [], ''
    for i, ch in enumerate(s):
        if ch in '([{': depth += 1
        if ch in ')]}':
            depth -= 1
            if depth == 0 and i != len(s) - 1: return None
        if ch == ',' and depth == 1:
            parts.append(cur); cur = ''
            continue
        if i == 0 or i == len(s) - 1 and depth == 0: continue
        cur += ch
    parts.append(cur)
    parts = [x.strip() for x in parts if x.strip()]
    return parts if len(parts) > 1 else None

def flat_parts(s, n):
    parts = split_top(s.strip())
    if not parts: return None
    while len(parts) < n:
        more = split_top(parts[-1])
        if not more: return None
        parts[-1:] = more
    return parts if len(parts) == n else None

def whole(rest, names):
    """a record of the parts of what is proved whole"""
    s = rest.strip()
    cut = s.rfind(' in\n')
    if 'let ' in s and cut > 0 and 'let ' not in s[cut:] and not s[cut + 4:].strip().startswith(('record', 'rw ', 'search', 'omega', 'λ')):
        tail = re.sub(r'\s*\n\s*', ' ', s[cut + 4:].strip())
        n = len(names)
        proj = ['.1' * k + ('.0' if k < n - 1 else '') for k in range(n)]
        return '\n    ' + s[:cut + 4] + '    record { ' + '; '.join('%s = (%s)%s' % (nm, tail, p) for nm, p in zip(names, proj)) + ' }'
    if 'let ' in s or s.startswith('record') or s in ('tt',) or s.startswith('search') or s.startswith('omega') or s.startswith('λ') or s.startswith('rw '): return rest
    n = len(names)
    proj = ['.1' * k + ('.0' if k < n - 1 else '') for k in range(n)]
    return ' record { ' + '; '.join('%s = (%s)%s' % (nm, s, p) for nm, p in zip(names, proj)) + ' }'

def record_of(fn, goal, rest):
    """rest: body text; turns its last tuple into a record by the clauses' names"""
    base = goal
    if base.startswith('returns'): names = CL.get(fn.fname, ([], [], []))[2]
    else:
        m = re.match(r'(\w+)(?:-.*)?-requires', base) or re.match(r'(\w+)-requires', base)
        if not m: return rest
        names = None
        for k in [x for x in CL if x.split('::')[-1] == m[1]]:
            if k in fn.j['params'] or any(p[3] == k for p in fn.j['places']) or len([x for x in CL if x.split('::')[-1] == m[1]]) == 1: names = CL[k][1]
        if names is None: return rest
    if not names or len(names) < 2 or None in names: return rest
    # the tuple that ends the body
    s = rest.rstrip()
    if not s.endswith(')'): return whole(rest, names)
    depth = 0
    for i in range(len(s) - 1, -1, -1):
        if s[i] in ')]}': depth += 1
        if s[i] in '([{':
            depth -= 1
            if depth == 0: break
    parts = flat_parts(s[i:], len(names))
    if not parts or s[:i].strip() and not re.search(r'(\bin|=)\s*$', s[:i]): return whole(rest, names)
    return s[:i] + 'record { ' + '; '.join('%s = %s' % z for z in zip(names, parts)) + ' }'

def used_imports(uses, text, own):
    toks = set(TOK.findall(text))
    out = []
    for u in uses:
        m = re.match(r'use (\S+?)\.\{(.*)\}$', u)
        if m:
            items = [x.strip() for x in m[2].split(',')]
            keep = []
            for x in items:
                nm = x.split(' as ')[-1].strip('«»')
                if '◌' in nm:
                    ops = [q for q in nm.split('◌') if q]
                    if all(o in toks for o in ops) or nm in toks: keep.append(x)
                elif nm in toks or (nm == '[]' and '[]' in text): keep.append(x)
            if keep: out.append('use %s.{%s}' % (m[1], ', '.join(keep)))
            continue
        m = re.match(r'use (\S+)(?: as (\S+))?$', u)
        nm = m[2] or m[1].split('.')[-1]
        if nm in ('tie', 'Tie', 'statement'): continue
        if nm in toks: out.append(u)
    return out

def do(path):
    global ROOT
    rel = os.path.relpath(os.path.dirname(path), os.path.join(crate_dir, 'proofs'))
    key = 'Rattle-%s-proofs.%s.Lts' % (crate, rel.replace('/', '.'))
    if key not in J:
        print('no names for', rel); return
    fname = '::'.join([crate] + rel.split('/'))
    fn = Fn(path, key, fname)
    text = re.sub(r'(?<=\.)«([^»]*)»', r'\1', open(path).read().rstrip('\n'))
    chunks, cur = [], []
    for l in text.split('\n'):
        if l == '' : 
            cur.append(l); continue
        if cur and cur[-1] == '' and not l.startswith(' '):
            while cur and cur[-1] == '': cur.pop()
            chunks.append('\n'.join(cur)); cur = []
        cur.append(l)
    while cur and cur[-1] == '': cur.pop()
    chunks.append('\n'.join(cur))
    head = chunks[0].split('\n')
    uses = [l for l in head if l.startswith('use ')]
    invs, ans, warn, helpers, aliases, implicit = [], [], [], {}, set(), {}
    al = {}
    for ch in chunks[1:]:
        m = re.search(r'(?m)^abbrev (\S+) : tie\.\S+(?: (?:invariant|decreases)\S*)* → tie\.\S+(?: (?:invariant|decreases)\S*)*\n\1 (\S+) = \2((?:\.before)*)$', ch)
        m = m or re.search(r'(?m)^abbrev (\S+) : \((\S+) : tie\.[^)]*\) → tie\.\S+(?: (?:invariant|decreases)\S*)*\n\1 \2 = \2((?:\.before)*)$', ch)
        if m: al[m[1]] = m[3]
    def unal(x):
        while True:
            y = x
            for a_, hops in al.items():
                y = re.sub(r"\(%s ([^\s().]+(?:\.before)*)\)" % re.escape(a_), lambda m: m[1] + hops, y)
                y = re.sub(r"(?<![^\s(){};,])%s ([^\s().:=]+(?:\.before)*)(?![^\s(){};,])(?! =)" % re.escape(a_), lambda m: m[1] + hops, y)
            if y == x: return x
            x = y
    chunks = [chunks[0]] + [ch if re.search(r'(?m)^(abbrev )?\S+ : tie\.(invariant|decreases)-', ch) or any(re.search(r'(?m)^abbrev %s :' % re.escape(a_), ch) for a_ in al) else unal(ch) for ch in chunks[1:]]
    for ch in chunks[1:]:
        lines = ch.split('\n')
        com = []
        while lines and lines[0].startswith('--'): com.append(lines.pop(0))
        if not lines: continue
        if lines[0].startswith('use '): uses += [l for l in lines if l.startswith('use ')]; continue
        m = re.match(r'((?:pub |abbrev )*)(\S+)((?: \{[^{}]*\})*) :(.*)$', lines[0])
        if not m:
            ans.append(('raw', '\n'.join(com + lines))); warn.append('raw chunk: ' + lines[0]); continue
        name = m[2]
        # signature
        sig = [lines[0]]; k = 1
        while k < len(lines) and lines[k].startswith('    ') and not re.match(r'%s ' % re.escape(name), lines[k]): sig.append(lines[k]); k += 1
        body = lines[k:]
        ty = (m[4] + ' ' + ' '.join(s.strip() for s in sig[1:])).strip()
        if name.endswith('spec') and ('statement' in ty or 'tie.close' in ch): continue
        mi = re.match(r'tie\.(invariant|decreases)-(\S+)$', ty)
        if mi:
            loop = fn.loops.get(norm(mi[2]))
            if not loop: warn.append('loop? ' + ty); continue
            vs = loop[1]; idx = [l[0][0] for l in fn.j['loops']].index(loop[0][0])
            ch_ = fn.j['changed'][idx]
            names = []
            for v, c_ in zip(vs, ch_): names.append(('l.initial.' if c_ else 'l.') + v)
            for v, c_ in zip(vs, ch_):
                if c_: names.append('l.' + v)
            b = '\n'.join(body)
            mm = re.match(r'%s((?: [^\s=]+)*) =' % re.escape(name), b)
            args = mm[1].split()
            if len(args) != len(names):
                warn.append('args of %s: %s vs %s' % (name, args, names))
            sub = dict(zip(args, names))
            sub.pop('_', None)
            b = b[mm.end():]
            b = re.sub(r"(?<![^\s(){};,«»\[\]])([^\s(){}.;,«»\[\]]+)", lambda q: sub.get(q[1], q[1]), b)
            new = '%s-%s' % (mi[1], loop[0][1])
            invs.append('\n'.join(com + ['abbrev pub %s : goal.%s' % (new, new), '%s l =%s' % (new, b)]))
            continue
        mn = re.match(r'tie\.Need-(\S+)((?: (?:invariant|decreases)-\S+)*)$', ty)
        if mn:
            old = norm(mn[1])
            for a, z in (('^overflow-', ''), ('^slice-bounds-', 'part-'), ('^nonzero-', '')):
                old = old if old in fn.needs else re.sub(a, z, old)
            if old not in fn.needs:
                warn.append('need? ' + mn[1] + ' of ' + ' '.join(fn.needs)); continue
            new = fn.needs[old]; place = norm(fn.at[old])
            if any(new == x for k_, x in ans if k_ == 'name'): pass
            b = '\n'.join(body)
            b = re.sub(r'(?m)^(%s \S+) κs' % re.escape(name), r'\1', b)
            mm = re.match(r'(unfolding [^\n]*\n)?%s((?: [^\s=]+)*) =' % re.escape(name), b)
            if not mm:
                warn.append('clauses of ' + name); continue
            unf = mm[1] or ''
            args = mm[2].split()
            rest = b[mm.end():]
            if rest.strip() in ('search rules',) and not unf: continue
            ROOT = args[0] if args else 'c'
            env = {ROOT: (place, [])}
            rest = convert_body(fn, rest, env)
            rest = re.sub(r'\n\s*\n', '\n', rest)
            if rest.strip() in ('search rules',) and not unf: continue
            if rest.startswith('\n') and '\n' not in rest.strip() and len(new) + len(' '.join(args)) + len(rest.strip()) < 110: rest = ' ' + rest.strip()
            rest = record_of(fn, new, rest)
            # the helpers that it cites, as lets
            need, body_ = [], rest
            def strip(nm, x, root): return re.sub(r"(?<![^\s(){};,])%s (?:\(%s(?:\.before)*\)|%s(?:\.before)*)(?![^\s(){};,])" % ((re.escape(nm),) + (re.escape(root),) * 2), nm + ' _' * implicit.get(nm, 0), x)
            def unalias(x, root):
                while True:
                    y = x
                    for al in aliases:
                        y = re.sub(r"\(%s %s(?:\.before)*\)" % (re.escape(al), re.escape(root)), root, y)
                        y = re.sub(r"(?<![^\s(){};,])%s %s(?:\.before)*(?![^\s(){};,])" % (re.escape(al), re.escape(root)), root, y)
                    if y == x: return x
                    x = y
            body_ = unalias(body_, ROOT)
            rest = body_
            todo = True
            seen = {}
            while todo:
                todo = False
                for nm in list(helpers):
                    if nm in seen: continue
                    hay = body_ + ' '.join(seen.values())
                    if nm in set(TOK.findall(hay)):
                        hv, ht = helpers[nm]
                        ht = unalias(ht, hv)
                        for h2 in helpers:
                            if h2 != nm: ht = strip(h2, ht, hv)
                        ht = re.sub(r"(?<![^\s(){};,])%s(?=\.)" % re.escape(hv), ROOT, ht)
                        seen[nm] = ht; todo = True
            if seen:
                for nm in seen: body_ = strip(nm, body_, ROOT)
                order = [nm for nm in helpers if nm in seen]
                rest = '\n    ' + '\n    '.join(seen[nm] for nm in order) + '\n    ' + body_.strip()
            ans.append(('ans', '\n'.join(com + ['pub %s : goal.%s' % (new, new)]) + '\n' + unf + '%s %s =%s' % (new, ' '.join(args), rest)))
            continue
        # a helper
        envs = {}
        sigtext = '\n'.join(sig)
        mp = re.search(r'\((\S+) : tie\.(\S+?)(?: [^)]*)?\)', ty)
        mf = re.match(r'tie\.(\S+)', ty)
        b = '\n'.join(body)
        if mp: var, pl = mp[1], norm(mp[2])
        elif mf:
            pl = norm(mf[1]); mm = re.search(r'(?m)^%s (\S+)' % re.escape(name), b); var = mm[1] if mm else None
        else: var = None
        if var:
            ROOT = var
            envs = {var: (pl, [])}
            b = convert_body(fn, b, dict(envs))
            sigtext = convert_body(fn, sigtext, dict(envs))
        mm = re.match(r'%s (\S+)((?: [^\s=]+)*) =' % re.escape(name), b) if var else None
        if mm and len(re.findall(r'(?m)^%s ' % re.escape(name), b)) == 1 and '\n  where' not in b and not re.search(r'(?m)^unfolding', b):
            st = re.sub(r'\s+', ' ', sigtext)
            st = re.sub(r'^(?:pub |abbrev )*\S+ : ', '', st)
            st = re.sub(r'^\((\S+) : tie\.[^)]*\) ?(→ )?', '', st) if mp else re.sub(r'^tie\.[^→]*→ ', '', st)
            bb = b[mm.end():].strip()
            lam = ('λ ' + mm[2].strip() + '. ') if mm[2].strip() else ''
            if re.fullmatch(re.escape(mm[1]) + r'(\.before)*', bb) and not lam:
                aliases.add(name); continue
            imp = re.findall(r'\{([^{}:]+) : [^{}]*\} → ', st) + re.findall(r'\{([^{}:]+) : [^{}]*\} (?=[({])', st)
            imps = [v for g in imp for v in g.split()]
            if imps:
                st = re.sub(r'\{([^{}:]+ : [^{}]*)\}', r'(\1)', st)
                lam = 'λ ' + ' '.join(imps + mm[2].split()) + '. '
                implicit[name] = len(imps)
            helpers[name] = (mm[1], 'let %s : %s = %s%s in' % (name, st, lam, bb))
            continue
        sigtext = ties(fn, sigtext); b = ties(fn, b)
        ans.append(('helper', '\n'.join(com + [sigtext, b])))
    mod = 'Rattle.%s.proofs.%s' % (crate, rel.replace('/', '.'))
    d = os.path.dirname(path)
    if invs:
        t = '\n\n'.join(invs)
        u = used_imports(uses, t, mod)
        open(os.path.join(d, 'Invariants.antt'), 'w').write('\n'.join(u + ['use %s.Given as goal' % mod]) + '\n\n' + t + '\n')
    # helpers that no answer cites go
    while True:
        drop = None
        for i, (k_, t) in enumerate(ans):
            if k_ != 'helper': continue
            nm = re.search(r'(?m)^(?:pub |abbrev )*(\S+)(?: \{[^}]*\})* :', t)[1]
            others = '\n'.join(x for q, (kk, x) in enumerate(ans) if q != i)
            if nm not in set(TOK.findall(others)): drop = i; break
        if drop is None: break
        ans.pop(drop)
    if ans:
        t = '\n\n'.join(x for _, x in ans)
        t = ties(fn, t)
        u = used_imports(uses, t, mod)
        open(os.path.join(d, 'Answers.antt'), 'w').write('\n'.join(u + ['use %s.Goals as goal' % mod]) + '\n\n' + t + '\n')
    os.remove(path)
    for w in warn: print(rel, ':', w)

for f, ds, fs in os.walk(os.path.join(crate_dir, 'proofs')):
    if 'Proof.antt' in fs:
        p = os.path.join(f, 'Proof.antt')
        if only and os.path.relpath(f, os.path.join(crate_dir, 'proofs')) != only: continue
        do(p)
