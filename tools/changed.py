#!/usr/bin/env python3
# Prints, as a page of Markdown, what changed between two commits in crates/: public functions (signature and clauses), types, definitions of
# specs/ and public laws of proofs/, old and new below one another; and the names that are gone or new.
#   tools/changed.py OLD [NEW]
import re, subprocess, sys

old, new = sys.argv[1], sys.argv[2] if len(sys.argv) > 2 else 'HEAD'

def git(*a):
    return subprocess.run(['git', *a], capture_output=True, text=True, check=True).stdout

def files(c, pat):
    return [f for f in git('ls-tree', '-r', '--name-only', c, 'crates').split('\n') if re.search(pat, f)]

def text(c, f):
    return git('show', f'{c}:{f}')

def flat(s):
    s = re.sub(r'(?m)^\s*(//|--).*$', '', s)
    s = re.sub(r'\s+', ' ', s).strip()
    return re.sub(r'\(\s+', '(', re.sub(r',?\s+\)', ')', s))

# functions that several files of a crate have: those are told with their file
def shared(c):
    seen = {}
    for f in files(c, r'/src/.*\.rt$'):
        for name in re.findall(r'(?m)^(?:pub )?fn (\w+)', text(c, f)):
            seen.setdefault((f.split('/')[1], name), set()).add(f)
    return {k for k, fs in seen.items() if len(fs) > 1}

several = shared(old) | shared(new)

# functions and types of src/: crate::item -> text
def code(c):
    out = {}
    for f in files(c, r'/src/.*\.rt$'):
        crate = f.split('/')[1]
        t = text(c, f)
        own = None
        lines = t.split('\n')
        i = 0
        while i < len(lines):
            l = lines[i]
            m = re.match(r'impl(<[^>]*>)? (.*) \{$', l)
            if m:
                own = m.group(2)
            elif l == '}':
                own = None
            m = re.match(r'\s*(pub )?(extern "C" )?fn (\w+)', l)
            k = re.match(r'(pub )?(struct|enum|type|const) (\w+)', l)
            if m:
                head = [l]
                while not lines[i].rstrip().endswith('{') and not lines[i].strip() == '{' and i + 1 < len(lines):
                    i += 1
                    head.append(lines[i])
                public = m.group(1) or m.group(2) or (own and ' for ' in own)
                stem = f.split('/')[-1][:-3]
                within = own or (stem if (crate, m.group(3)) in several else None)
                name = f'{crate} {within + "::" if within else ""}{m.group(3)}'
                out[name] = (flat('\n'.join(head)).rstrip('{ ').strip(), bool(public), f)
            elif k:
                head = [l]
                if l.rstrip().endswith('{'):
                    while lines[i] != '}' and i + 1 < len(lines):
                        i += 1
                        head.append(lines[i])
                out[f'{crate} {k.group(2)} {k.group(3)}'] = (flat('\n'.join(head)), bool(k.group(1)), f)
            i += 1
    return out

# items of specs/ and proofs/: crate item -> statement (of a definition with its body, of a law its type)
def terms(c, pat, body):
    out = {}
    for f in files(c, pat):
        crate = f.split('/')[1]
        t = re.sub(r'(?m)^\s*--.*\n', '', text(c, f))
        items = re.split(r'(?m)^(?=\s*(?:abbrev |unfoldable )?pub |module _)', t)
        where = []
        # the fields of a record stand with it
        joined, record = [], None
        for it in items:
            ind = len(it) - len(it.lstrip(' '))
            if record is not None and ind > record:
                joined[-1] += it
                continue
            joined.append(it)
            record = ind if re.match(r'\s*pub record ', it) else None
        for it in joined:
            ind = len(it) - len(it.lstrip(' '))
            m = re.match(r'\s*(?:abbrev |unfoldable )?pub (?:record |data )?(\S+)', it)
            if it.startswith('module _'):
                where = [it.split(' where')[0]]
                continue
            if not m or it.lstrip().startswith('pub use') or it.lstrip().startswith('pub mod'):
                continue
            name = m.group(1)
            if body:
                s = it
            else:
                # the type ends where the definition's own line begins
                s = re.split(r'(?m)^\s*(?:unfolding .*|%s\b(?!\s*:).*)$' % re.escape(name), it)[0]
            if body or ind == 0:
                key = f'{crate} {f.split("/")[-1][:-5]}.{name}'
                out[key] = (flat(s), True, f)
            else:
                key = f'{crate} {f.split("/")[-1][:-5]}.{name}'
                out[key] = (flat((where[0] + ' ' if where else '') + s), True, f)
    return out

def last(n):
    return re.split(r'[ .]|::', n)[-1]

def page(title, a, b, only_public):
    shown = lambda t, n: not only_public or t[n][1]
    ch = [(n, n) for n in sorted(a) if n in b and a[n][0] != b[n][0] and (shown(a, n) or shown(b, n))]
    gone = [n for n in sorted(a) if n not in b and shown(a, n)]
    fresh = [n for n in sorted(b) if n not in a and shown(b, n)]
    # what has its name still, in the same crate, stands beside what it was: a method now, or in another file
    for n in list(gone):
        now = [m for m in fresh if m.split()[0] == n.split()[0] and last(m) == last(n)]
        if len(now) == 1:
            ch.append((n, now[0]))
            gone.remove(n)
            fresh.remove(now[0])
    print(f'\n### {title}\n')
    print(f'{len(ch)} changed, {len(gone)} gone or under another name, {len(fresh)} new.\n')
    for n, m in sorted(ch):
        print(f'- `{n}`' + ('' if n == m else f', now `{m}`') + f'\n  - old: `{a[n][0]}`\n  - new: `{b[m][0]}`')
    for head, names, of in (('Gone, or under another name', gone, a), ('New', fresh, b)):
        if names:
            print(f'\n{head}:\n')
            for n in names:
                print(f'- `{n}`: `{of[n][0]}`')

page('Public functions', {k: v for k, v in code(old).items() if ' struct ' not in k and ' enum ' not in k and ' type ' not in k and ' const ' not in k},
     {k: v for k, v in code(new).items() if ' struct ' not in k and ' enum ' not in k and ' type ' not in k and ' const ' not in k}, True)
kinds = (' struct ', ' enum ', ' type ', ' const ')
page('Types and constants', {k: v for k, v in code(old).items() if any(w in k for w in kinds)}, {k: v for k, v in code(new).items() if any(w in k for w in kinds)}, False)
page('Definitions', terms(old, r'/specs/.*\.antt$', True), terms(new, r'/specs/.*\.antt$', True), False)
page('Public laws', terms(old, r'/proofs/(Laws/.*|Contrasts)\.antt$', False), terms(new, r'/proofs/(Laws/.*|Contrasts)\.antt$', False), False)
