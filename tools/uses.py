#!/usr/bin/env python3
"""uses.py FILE..: write the `use` lines of antt files anew: one line for each module, names sorted as declared, unused names left out.
With ADD=1 in the environment, also names that are used and not imported.
Names are looked up in specs/ and proofs/ of FILE's crate and of the crates that it stands on by crates.txt (for a file of definitions in
specs/ alone), in the repository that FILE stands in: its root is what stands before the last /crates/ of FILE's path. Names of the kit keep the module they came from. Where two crates declare one name, look at the result.
`rt tidy` leaves out unused names of a whole proved crate; this works on one file, proved or not, and moves names to where they are declared."""
import re, sys, os, glob
def decls(path):
    out=[]
    indata=False
    for line in open(path):
        m=re.match(r'\s*(?:unfoldable |abbrev )*pub (?:record|data) (\S+)',line)
        if m:
            out.append(m.group(1)); indata = 'data' in line.split()[:2] or ' data ' in line[:12]
            continue
        m=re.match(r'\s*(?:unfoldable |abbrev )*pub (\S+)(?: \{[^}]*\})? :',line)
        if m and not line.startswith('  pub') :
            out.append(m.group(1)); indata=False; continue
        if m:
            out.append(m.group(1)); continue
        if indata:
            m=re.match(r'  (.+) : ',line)
            if m: out+= [x for x in m.group(1).split()]
            elif line.strip() and not line.startswith(' '): indata=False
    return out
index={}
places={}
def put(n,path):
    index.setdefault(n,path); places.setdefault(n,set()).add(path)
EXT={'lib.Dec':'eqb ltb leb','borrow.Author.Tests':'lt-ltb le-ltb ltb-true ltb-false eqb-true eqb-false ne_eqb eq-eqb le-leb lt-leb leb-true leb-false not-true not-false',
'mathlib.Core.Path':'◌≡◌ refl sym ap ap₂ ◌∙◌ subst','mathlib.Core.Bool':'Bool true false cond ◌&&◌ ◌||◌ not false≢true','Prim.Native.Nat':'ℕ zero suc ◌+◌ ◌-◌ ◌*◌ ◌/◌ ◌%◌ ◌^◌ ◌<◌ ◌≤◌ min',
'lib.ListN':'length get_or take drop','native.Mathlib.Omega':'arith','lib.IntN':'ℤ pos negsuc nat_abs ◌+ℤ◌ ◌*ℤ◌ +ℤ_idl +ℤ_idr','mathlib.Core.List':'List [] ◌∷◌ ◌++◌ map','lib.Count':'ones'}
def stands_on(root,crate):
    for line in open(f'{root}/crates.txt'):
        name,colon,rest=line.split('#')[0].partition(':')
        if colon and name.split()[0]==crate: return {crate,*rest.split()}
    return {crate}
def build(root,crate,kinds):
    below=stands_on(root,crate)
    if os.environ.get('ADD') == '1':
        for m,ns in EXT.items():
            for n in ns.split(): index.setdefault(n,m)
    for kind in kinds:
        for p in glob.glob(f'{root}/crates/*/{kind}/*.antt'):
            c=p.split('/')[-3]; mod=os.path.basename(p)[:-5]
            if mod=='Lib' or c not in below: continue
            path = f'Rattle.{c}.{kind}.{mod}'
            # record fields are indented `  pub x :` inside records: drop them
            inrec=False
            for line in open(p):
                if re.match(r'(pub )?record ',line): inrec=True
                elif line.strip() and not line.startswith(' '): inrec=False
                m=re.match(r'\s*(?:pub )(?:record|data) (\S+)',line)
                if m: put(m.group(1),path); continue
                m=re.match(r'(\s*)(?:unfoldable |abbrev )*pub (\S+)(?: \{[^}]*\})? :',line)
                if m and not (inrec and m.group(1)): put(m.group(2),path)
            s=open(p).read()
            for m in re.finditer(r'pub data \S+.*?where\n((?:  .*\n)+)',s):
                for l in m.group(1).splitlines():
                    for x in l.split(' : ')[0].split(): put(x,path)
names_re=lambda n: re.compile(r'(?<![^\s(){};,«»←])'+re.escape(n)+r'(?![^\s(){}.;,«»])')
def used(n,body):
    if '◌' in n:
        parts=[x for x in n.split('◌') if x]
        return bool(names_re(n).search(body)) or all(names_re(x).search(body) for x in parts)
    if n=='[]': return '[]' in body
    for m in names_re(n).finditer(body):
        before=body[max(0,body.rfind('\n',0,m.start())+1):m.start()]
        after=body[m.end():m.end()+3]
        if after in (' = ',' : ') and re.fullmatch(r'(.*[{;])?\s*(pub )?',before): continue
        return True
    return False
def fix(path, extra=()):
    root,_,inside=path.rpartition('/crates/')
    crate=inside.split('/')[0]
    index.clear(); places.clear(); build(root,crate,('specs',) if '/specs/' in path else ('specs','proofs'))
    lines=open(path).read().split('\n')
    head=[];uses=[];aliases=[];body=[];i=0
    for l in lines:
        m=re.match(r'use (\S+)\.\{(.*)\}\s*$',l)
        if m: uses.append((m.group(1),[x.strip() for x in m.group(2).split(',')])); continue
        if re.match(r'use ',l): aliases.append(l); continue
        body.append(l)
    while body and body[0].startswith('--'): head.append(body.pop(0))
    text='\n'.join(body)
    full=text
    text=re.sub(r'--.*','',text)
    me=f'.{os.path.basename(path)[:-5]}'
    got={};order=[]
    pairs=[(n,mod) for mod,ns in uses for n in ns]
    have={n for n,_ in pairs}
    for n,p in index.items():
        if os.environ.get('ADD') == '1' and n not in have: pairs.append((n,p))
    for n,mod in pairs:
        base=n.split(' as ')[-1]
        if not used(base,text): continue
        if n not in have and re.search(r'(?m)^\s*(?:unfoldable |abbrev )*(?:pub )?'+re.escape(n)+r'(?: \{[^}]*\})? :',text): continue
        own=re.fullmatch(r'Rattle\.(\w+)\.(specs|proofs)\.\w+',mod) # a file; what lies deeper is made by rattle
        own=own and own[1] in stands_on(root,crate)
        if n in index and ' as ' not in n and own and mod not in places.get(n,()): mod=index[n]
        if mod.endswith(me) and mod.startswith(f'Rattle.{crate}.') and ('specs' in mod)==('/specs/' in path): continue
        got.setdefault(mod,[])
        if n not in got[mod]: got[mod].append(n)
        if mod not in order: order.append(mod)
    def key(m):
        r=['Rattle.std','mathlib','Prim','native','lib','mir','borrow','Rattle.laws']
        for k,x in enumerate(r):
            if m.startswith(x): return (k,0)
        return (len(r),0 if 'specs' in m else 1)
    order.sort(key=key)
    out=head+[f'use {m}.{{{", ".join(got[m])}}}' for m in order]+aliases
    open(path,'w').write('\n'.join(out)+'\n\n'+full.strip('\n')+'\n')
if __name__=='__main__':
    if not sys.argv[1:]: sys.exit('usage: uses.py FILE..')
    for p in sys.argv[1:]:
        if '/crates/' not in os.path.abspath(p): sys.exit(f'uses.py: {p} does not stand in a folder crates/')
        if not os.path.isfile(p): sys.exit(f'uses.py: there is no file {p}')
    for p in sys.argv[1:]: fix(os.path.abspath(p))
