#!/usr/bin/env python3
"""crates3.py BASE OURS THEIRS: merge crates.txt by lines and names; writes crates.txt (levels lowest first kept by a stable sort)."""
import subprocess,sys
def read(rev):
    t=subprocess.run(["git","show",f"{rev}:crates.txt"],capture_output=True,text=True).stdout
    d={};head=[]
    for l in t.split("\n"):
        if ":" in l and not l.startswith("#"):
            n,x=l.split(":",1); d[n]=x.split()
        elif l.startswith("#"): head.append(l)
    return head,d
b,o,t=(read(r) for r in sys.argv[1:4])
names=[n for n in o[1] if not (n in b[1] and n not in t[1])]+[n for n in t[1] if n not in o[1] and n not in b[1]]
res={}
for n in names:
    B,O,Tt=b[1].get(n,[]),o[1].get(n),t[1].get(n)
    if O is None: res[n]=Tt; continue
    if Tt is None: res[n]=O; continue
    out=[x for x in O if not (x in B and x not in Tt)]
    for i,x in enumerate(Tt):
        if x not in out and x not in B: out.append(x)
    res[n]=out
level={}
def lv(n):
    if n not in level: level[n]=1+max([lv(x) for x in res[n] if x in res],default=-1)
    return level[n]
order=sorted(res,key=lv)
open("crates.txt","w").write("\n".join(o[0]+[f"{n}: {' '.join(res[n])}".rstrip() for n in order])+"\n")
