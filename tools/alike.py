#!/usr/bin/env python3
"""Functions of src/ whose bodies differ only in names, numbers and types: groups of two and more, of three lines and more."""
import re, glob, sys, collections
root = sys.argv[1] if len(sys.argv) > 1 else '.'
g = collections.defaultdict(list)
for f in sorted(glob.glob(root + '/crates/*/src/**/*.rt', recursive=True)):
    t = open(f).read()
    for m in re.finditer(r'^( *)(?:pub )?(?:final )?fn (\w+)(.*?)^\1\{\n(.*?)^\1\}', t, re.S | re.M):
        body = re.sub(r'//.*', '', m.group(4))
        if len([l for l in body.split('\n') if l.strip()]) < 3: continue
        names = {}
        def name(k):
            w = k.group(0)
            if w in ('if','else','while','for','in','return','let','mut','match','true','false','as','loop','break'): return w
            return names.setdefault(w, 'n%d' % len(names))
        s = re.sub(r'0x[0-9a-fA-F]+|\d[\d_]*', 'N', body)
        s = re.sub(r'b?"[^"]*"', 'S', s)
        s = re.sub(r'[A-Za-z_]\w*', name, s)
        g[re.sub(r'\s+', '', s)].append(f.split('crates/')[1] + ' ' + m.group(2))
rows = [v for v in g.values() if len(v) > 1]
for v in sorted(rows, key=len, reverse=True): print(len(v), '; '.join(v))
print(sum(len(v) for v in rows), 'functions in', len(rows), 'groups')
