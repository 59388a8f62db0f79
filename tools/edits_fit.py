#!/usr/bin/env python3
"""Says which must-fail edits and wrong programs do not fit the text of their crate: tools/edits_fit.py [TOP] [CRATE..]"""
import glob,os,sys
top=sys.argv[1] if len(sys.argv)>1 else '.'
only=set(sys.argv[2:])
def pairs(lines):
    f=None;out=[];old=None
    for l in lines:
        if l.startswith('file: '): f=l[6:]
        elif l.startswith('old: '): old=l[5:]
        elif l.startswith('new: '): out.append((f,old,l[5:])); old=None
        elif l.startswith('new:'): out.append((f,old,l[4:])); old=None
        elif l.strip() and not l.startswith('#'): out.append((f,'??'+l,''))
    return out
def check(label,crate,lines):
    files={}
    ok=True
    for f,o,n in pairs(lines):
        p=os.path.join(top,'crates',crate,f)
        if not os.path.exists(p): print(label,'NO FILE',f); ok=False; continue
        t=files.setdefault(p,open(p,encoding='utf-8').read())
        k=t.count(o) if o else 0
        if k!=1: print(label,'STANDS',k,f,'|',o); ok=False; continue
        if o==n: print(label,'SAME'); ok=False
        files[p]=t.replace(o,n)
    return ok
tot=bad=0
for e in sorted(glob.glob(top+'/crates/*/must-fail/*.edit')):
    c=e.split('/')[-3]
    if only and c not in only: continue
    tot+=1
    bad+=not check('edit '+c+'/'+os.path.basename(e)[:-5],c,open(e,encoding='utf-8').read().split('\n'))
print('edits',tot,'unfit',bad)
tot=bad=0
for w in sorted(glob.glob(top+'/tests/wrong_answers/*.txt')):
    c=os.path.basename(w)[:-4]
    if only and c not in only: continue
    block=None;label=None
    blocks=[]
    for l in open(w,encoding='utf-8').read().split('\n'):
        if l.startswith('@ '): blocks.append((l[2:].split()[0],[]))
        elif blocks: blocks[-1][1].append(l)
    for lab,ls in blocks:
        tot+=1; bad+=not check('wrong '+c+'/'+lab,c,ls)
print('wrong',tot,'unfit',bad)
