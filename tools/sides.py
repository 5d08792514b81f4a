#!/usr/bin/env python3
# Prints, crate by crate, each public function, type, definition and theorem whose text is another than at a commit: old lines with -, new with +,
# as docs/DESIGN-PASS.md has them. tools/sides.py COMMIT, at the top of the checkout.
import re,subprocess,sys,os
base=sys.argv[1]
def sh(*a): return subprocess.check_output(a,text=True)
crates=[l.split(':')[0].split()[0] for l in open('crates.txt') if ':' in l and not l.startswith('#')]
def files(rev,crate,sub,ext):
    if rev: return [f for f in sh('git','ls-tree','-r','--name-only',rev,f'crates/{crate}/{sub}').split('\n') if f.endswith(ext)]
    return [f for f in sh('git','ls-files',f'crates/{crate}/{sub}').split('\n') if f.endswith(ext)]
def text(rev,f): return sh('git','show',f'{rev}:{f}') if rev else open(f).read()
def norm(s): return ' '.join(s.split()).replace('( ','(').replace(', )',')').replace(',)',')')
def rust(t):
    out={}
    L=t.split('\n'); i=0; owner=''
    while i<len(L):
        l=L[i]
        m=re.match(r'^impl(?:<[^>]*>)? (?:\w+ for )?(\w+)',l)
        if m: owner=m.group(1)+'::'
        elif l.startswith('}'): owner=''
        m=re.match(r'^(\s*)(pub |)((?:extern "C" |const )*)fn (\w+)',l)
        if m:
            sig=[];cl=[];cur=sig
            j=i
            while True:
                x=L[j]
                if j>i and re.match(r'^\s*\{\}?$',x): break
                if re.match(r'^\s*(requires|ensures|ghost)\b',x) and j>i:
                    cl.append(x.strip()); cur=cl
                elif cur is cl: cl[-1]+=' '+x.strip()
                else: sig.append(x.strip())
                if cur is sig and x.rstrip().endswith('{') and not re.match(r'^\s*\{$',x):
                    sig[-1]=sig[-1].rstrip('{').rstrip(); break
                j+=1
            o=owner if m.group(1) else ''
            out[('fn',o+m.group(4))]=(bool(m.group(2)),[norm(' '.join(sig))]+[norm(c) for c in cl])
            i=j
        m=re.match(r'^pub (struct|enum|type|const) (\w+)',l)
        if m:
            b=[l]
            if l.rstrip().endswith('{'):
                j=i+1
                while L[j]!='}':
                    if not L[j].strip().startswith('//'): b.append(L[j].strip())
                    j+=1
                b.append('}')
            out[(m.group(1),m.group(2))]=(True,[norm(' '.join(b))])
        m=re.match(r'^    pub const (\w+)',l)
        i+=1
    return out
def antt(t):
    out={}
    L=t.split('\n'); i=0
    while i<len(L):
        l=L[i]
        m=re.match(r'^(\s*)(?:(abbrev|unfoldable)\s+)?(pub\s+)(?:(data|record)\s+)?([^\s:()\[\]{}]+)\s*((?:[({].*?[)}]\s*)*):\s(.*)$',l)
        if m and not l.strip().startswith('--') and not l.strip().startswith('use '):
            ind=len(m.group(1)); name=m.group(5)
            kind='definition' if (m.group(2) or m.group(4)) else 'theorem'
            b=[l.strip()]; j=i+1
            while j<len(L) and L[j].strip():
                x=L[j]; xi=len(x)-len(x.lstrip())
                if kind=='theorem' and (xi<=ind): break
                if kind=='definition' and xi<=ind and re.match(r'^\s*(abbrev |unfoldable |pub |module |--)',x): break
                if not x.strip().startswith('--'): b.append(x.strip())
                j+=1
            out[(kind,name)]=(True,[norm(' '.join(b))] if kind=='theorem' else [norm(x) for x in b])
        i+=1
    return out
total=0
for c in crates:
    o={};n={}
    for f in files(base,c,'src','.rt'): o.update(rust(text(base,f)))
    for f in files('',c,'src','.rt'): n.update(rust(text('',f)))
    for sub in ('specs','proofs'):
        for f in files(base,c,sub,'.antt'):
            if sub=='proofs' and f.count('/')>3: continue
            for k,v in antt(text(base,f)).items(): o.setdefault(k,v)
        for f in files('',c,sub,'.antt'):
            if sub=='proofs' and f.count('/')>3: continue
            for k,v in antt(text('',f)).items(): n.setdefault(k,v)
    lines=[]
    for k in list(o)+[k for k in n if k not in o]:
        a=o.get(k); b=n.get(k)
        if a and b and a[1]==b[1]: continue
        if a and not a[0] and not (b and b[0]): 
            continue   # private
        if not a and b and not b[0]: continue
        if not a and k[0] in ('theorem',): continue   # new theorems are not listed
        total+=1
        A=a[1] if a else []; B=b[1] if b else []
        rep=[x for x in A if x not in B]; ad=[x for x in B if x not in A]
        head=A[0] if A and A[0] in B else None
        if head: lines.append('  '+head)
        lines+=['- '+x for x in rep]+['+ '+x for x in ad]
        lines.append('')
    if lines:
        print(f'### {c}\n\n```diff'); print('\n'.join(lines).rstrip()); print('```\n')
print('<!-- %d entries -->'%total)
