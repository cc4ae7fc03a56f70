#!/usr/bin/env python3
"""Static look over a merged tree: each `use Rattle·crate.part.File.{names}` names a file that is there and names in it; crates.txt has the crates used."""
import re
from pathlib import Path
T=Path.cwd()/"crates"
deps={}
for l in Path("crates.txt").read_text().split("\n"):
    if ":" in l and not l.startswith("#"):
        n,d=l.split(":",1); deps[n]=set(d.split())
for c in T.iterdir():
    if c.name not in deps: print("not in crates.txt:",c.name)
for n in deps:
    if not (T/n).exists(): print("no such crate:",n)
cache={}
def text(p):
    if p not in cache: cache[p]=p.read_text() if p.exists() else None
    return cache[p]
for f in sorted(list(T.glob("*/src/*.rt"))+list(T.glob("*/specs/**/*.antt"))+list(T.glob("*/proofs/**/*.antt"))):
    crate=f.relative_to(T).parts[0]; t=f.read_text()
    for m in re.finditer(r"^(?:ghost )?use Rattle·(\w+?)(·specs|·proofs)?\.((?:specs|proofs)[\w.·]*?)(?:\.\{([^}]*)\}| as (\w+))",t,re.M):
        c,path,names=m[1],m[3],m[4]
        if c!=crate and c not in deps.get(crate,()): print(f"{f.relative_to(T)}: {c} not among {crate}'s crates")
        parts=path.split(".")
        if len(parts)<2 or "declared" in parts or "mir" in parts: continue
        p=T/c/Path(*parts).with_suffix(".antt")
        x=text(p)
        if x is None:
            if parts[0]=="specs": print(f"{f.relative_to(T)}: no file {c}/{'/'.join(parts)}")
            continue
        for n in [n.strip() for n in (names or "").split(",") if n.strip()]:
            if n.replace("_","")==""or "_" in n: continue
            if not re.search(rf"(?<![\w-]){re.escape(n)}(?![\w-])",x): print(f"{f.relative_to(T)}: {c}/{'/'.join(parts)} has no {n}")
    if f.suffix==".rt":
        for m in re.finditer(r"\b([a-z_0-9]+)::",re.sub(r"//.*","",t)):
            c=m[1]
            if c in deps and c!=crate and c not in deps[crate]: print(f"{f.relative_to(T)}: {c}:: not among {crate}'s crates")
