#!/usr/bin/env python3
"""Two trees of this repository side by side: public signatures with their clauses, public types and constants, definitions of specs/, and the laws that README or docs/ of the
old one name (docs/PORT.md apart), where they changed. usage: tools/changed.py OLD NEW, two folders; the list is written as docs/DESIGN-PASS.md has it.
"""
import re
import sys
from pathlib import Path

OLD, NEW = sys.argv[1], sys.argv[2]


def norm(t): return re.sub(r'\s+',' ',t).strip().replace('( ','(').replace(', )',')').replace(' )',')').replace(',)',')')
def rust(root):
    d={}
    for f in sorted(Path(root).glob('crates/*/src/*.rt')):
        c=f.parts[-3]; L=f.read_text().split('\n'); i=0; ctx=''
        while i<len(L):
            l=L[i]
            m=re.match(r'^(impl|pub trait|trait)\b(.*)\{?$',l)
            if m and l.startswith('impl'): ctx=norm(l.rstrip('{'))
            if l.startswith('}'): ctx=''
            m=re.match(r'^\s*pub (?:extern "C" )?fn (\w+)',l)
            if m:
                j=i; t=[]
                while j<len(L):
                    if L[j].strip()=='{' or (L[j].rstrip().endswith('{') and not L[j].strip().startswith(('ensures','requires')) and '=>' not in L[j]):
                        t.append(L[j].rstrip('{').rstrip()); break
                    t.append(L[j]); j+=1
                d[f'{c}::{(ctx+": ") if ctx else ""}{m.group(1)}']=norm(' '.join(t)); i=j+1; continue
            m=re.match(r'^pub (struct|enum|trait) (\w+)',l)
            if m:
                j=i; t=[]
                while j<len(L):
                    t.append(re.sub(r'^\s*//.*$','',L[j]))
                    if L[j].startswith('}') or L[j].rstrip().endswith(';') and j==i: break
                    j+=1
                d[f'{c}::{m.group(2)} (type)']=norm(' '.join(t)); i=j+1; continue
            m=re.match(r'^pub const (\w+)',l)
            if m: d[f'{c}::{m.group(1)} (constant)']=norm(l)
            i+=1
    return d
def specs(root):
    d={}
    for f in sorted(Path(root).glob('crates/*/specs/*.antt')):
        c=f.parts[-3]
        body=[l for l in f.read_text().split('\n')]
        block=[]
        def flush():
            if not block: return
            t='\n'.join(block)
            m=re.match(r'\s*(?:(?:abbrev|unfoldable|pub|data|record)\s+)*([^\s:(){}]+)\s',t+' ')
            if m and m.group(1) not in ('use','mod','module','infixl','infixr','infix','--'):
                d.setdefault(f'{c}/{f.stem}: {m.group(1)}',norm(t))
        for l in body:
            if l.strip().startswith('--') or l.startswith('use ') or re.match(r'^(unfoldable )?pub use|^pub mod|^mod ',l):
                continue
            if not l.strip():
                flush(); block=[]
            else: block.append(l)
        flush()
    return d
def table(title,o,n):
    out=[f'### {title}','']
    same=0; rows=[]
    for k in sorted(set(o)|set(n)):
        if o.get(k)==n.get(k): same+=1; continue
        rows.append(k)
    out.append(f'{same} are as they were.'); out.append('')
    for k in rows:
        a,b=o.get(k),n.get(k)
        out.append(f'- **{k}**')
        out.append(f'  - old: {"`"+a+"`" if a else "–"}')
        out.append(f'  - new: {"`"+b+"`" if b else "–"}')
    out.append('')
    return out,len(rows)
o,n=rust(OLD),rust(NEW)
a,x=table('Public functions, types and constants',o,n)
o,n=specs(OLD),specs(NEW)
b,y=table('Definitions of specs/',o,n)
print('\n'.join(a + b))


def laws(root):
    d={}
    for f in sorted(list(Path(root).glob('crates/*/proofs/*.antt'))):
        c=f.parts[-3]; L=f.read_text().split('\n')
        for i,l in enumerate(L):
            m=re.match(r'^\s*pub (?:abbrev |unfoldable )?([^\s:(){}]+) :',l) or re.match(r'^\s*(?:abbrev |unfoldable )?pub ([^\s:(){}]+) :',l)
            if m:
                t=[l]; j=i+1
                while j<len(L) and not re.match(r'^\s*'+re.escape(m.group(1))+r'\b',L[j]) and not re.match(r'^\s*unfolding',L[j]) and L[j].strip():
                    t.append(L[j]); j+=1
                d.setdefault(m.group(1),{})[f'{c}/{f.stem}']=re.sub(r'\s+',' ',' '.join(t)).strip()
    return d
o,n=laws(OLD),laws(NEW)
names=set()
for f in [Path(OLD)/'README.md']+[p for p in (Path(OLD)/'docs').glob('*.md') if p.name!='PORT.md']:
    for m in re.finditer(r'`([^`]+)`',f.read_text()):
        for w in re.split(r'[\s,()]+',m.group(1)):
            if w in o: names.add(w)
rows=[];same=0
for k in sorted(names):
    a=sorted(set(o[k].values())); b=sorted(set(n.get(k,{}).values()))
    if a==b: same+=1
    else: rows.append((k,[x for x in o[k].items() if x[1] not in b],[x for x in n.get(k,{}).items() if x[1] not in a]))
print('### Laws and theorems that README or docs/ name\n'); print(f'{same} are as they were, word for word.\n')
for k,a,b in rows:
    if not a and not b: continue
    print(f'- **{k}**')
    for p,t in a: print(f'  - old, {p}: `{t}`')
    for p,t in b: print(f'  - new, {p}: `{t}`')
