#!/usr/bin/env python3
"""A model of the programs, written from the documents alone and sharing nothing with the proved code.
Usage: model.py assemble|replay|drive < input"""
import sys
LET={'H':'nnn','T':'nnn','N':'nnn','E':'unn','G':'nnu','J':'unn','M':'unn','R':'nc','D':'nnn','P':'ouu','X':'nnn'}
class Fault(Exception):
    def __init__(s,num,layer,place): s.v=(num,layer,place)
import re
def fieldre(k):
    return {'n':5,'u':5,'o':5,'c':10}[k]
def okfield(k,b):
    s=b.decode('latin1')
    if k=='u': return s=='     '
    if k=='n': return re.fullmatch(r' *(0|[1-9][0-9]*)',s) is not None
    if k=='o': return s=='     ' or okfield('n',b)
    if k=='c': return re.fullmatch(r' *(0|-?[1-9][0-9]*)',s) is not None
def canbegin(k,b):
    """can b (len<=width) be the beginning of a field in form?"""
    w=fieldre(k)
    s=b.decode('latin1'); r=w-len(s)
    if r==0: return okfield(k,b)
    if k=='u': return s==' '*len(s)
    if k in 'no': return re.fullmatch(r' *([1-9][0-9]*)?',s) is not None
    if k=='c': return re.fullmatch(r' *(-?[1-9][0-9]*|-)?',s) is not None
def begins(b):
    """b is a beginning of some line in form"""
    if not b: return True
    c=chr(b[0])
    if c not in LET: return False
    pos=1
    for k in LET[c]:
        w=fieldre(k); part=b[pos:pos+w]
        if len(part)<w:
            return canbegin(k,part)
        if not okfield(k,part): return False
        pos+=w
    return b[pos:pos+1] in (b'',b'\n')
def line(text,at):
    b=text[at:at+17]
    for i in range(1,len(b)+1):
        if not begins(b[:i]): raise Fault(15,1,at+i-1)
    if len(b)<17: raise Fault(15,1,len(text))
    c=chr(b[0]); pos=1; out=[]
    for k in LET[c]:
        w=fieldre(k); p=b[pos:pos+w].decode(); pos+=w
        if k!='u': out.append(int(p) if p.strip() else None)
    return c,out
def X(f): return ('X%5d%5d%5d\n'%f.v).encode()
def store_join(n,J,a,b,cap):
    if a>=n or b>=n: return 1
    if a==b: return 2
    if (min(a,b),max(a,b)) in J: return 3
    if len(J)>=cap: return 5
    return 0
def read_query(text,nmarks=63):
    text=text[:36465]
    at=0
    c,f=line(text,at)
    if c!='G': raise Fault(16,1,at)
    n,m=f
    if not 1<=n<=64 or m>2016: raise Fault(17,1,at)
    if nmarks<n-1: raise Fault(9,1,n-1)
    at+=17; J=set()
    for _ in range(m):
        c,f=line(text,at)
        if c!='J': raise Fault(16,1,at)
        v,w=f; e=store_join(n,J,v,w,2016)
        if e: raise Fault(e,2,at)
        J.add((min(v,w),max(v,w))); at+=17
    marks=[]; rows={}; nr=0; started=False
    while at<len(text):
        c,f=line(text,at)
        if c=='M' and nr==0 and len(marks)<n-1:
            marks.append(tuple(f)); at+=17
            continue
        if marks and len(marks)<n-1: raise Fault(16,1,at)
        if c=='R' and nr<64:
            t,k=f
            if t>=n: raise Fault(1,4,at)
            if k<-1 or k>2147483647: raise Fault(21,4,at)
            rows[t]=None if k==-1 else k
            nr+=1; at+=17; continue
        raise Fault(16,1,at)
    if marks and len(marks)<n-1: raise Fault(15,1,len(text))
    return n,J,marks,rows
def adj(n,J):
    A=[set() for _ in range(n)]
    for a,b in J: A[a].add(b); A[b].add(a)
    return A
def reach(A,tabs,s):
    seen={s}; st=[s]
    while st:
        t=st.pop()
        for y in A[t]:
            if y in tabs and y not in seen: seen.add(y); st.append(y)
    return seen
def build(n,J,room=2013):
    if n<3: raise Fault(6,3,0)
    A=adj(n,J); T=set(range(n))
    un=T-reach(A,T,0)
    if un: raise Fault(7,3,min(un))
    for x in range(n):
        R=T-{x}
        if reach(A,R,min(R))!=R: raise Fault(8,3,x)
    if len(J)-3>room: raise Fault(9,3,len(J)-3)
    rank={}; par={}; left=[]
    def dfs(t):
        rank[t]=len(rank)
        for y in sorted(A[t]):
            if y not in rank: par[y]=t; dfs(y)
        left.append(t)
    dfs(0)
    G=set(J); alive=set(T); notes=[]
    P=lambda a,b:(min(a,b),max(a,b))
    for u in left[:n-3]:
        f=par[u]; nb=[v for v in alive if P(u,v) in G and v!=u]
        a=min(nb,key=lambda v:rank[v])
        for v in sorted(nb):
            if v not in (f,a): G.discard(P(u,v)); notes.append(('E',)+P(u,v))
        if P(f,a) in G: G.discard(P(f,a)); notes.append(('E',)+P(f,a))
        G.discard(P(u,f)); G.discard(P(u,a)); G.add(P(f,a)); notes.append(('N',u)+P(f,a)); alive.discard(u)
    return tuple(sorted(alive)),notes[::-1]
def listtext(n,m,tri,steps):
    o='H%5d%5d%5d\nT%5d%5d%5d\n'%(n,m,m-3,*tri)
    for s in steps: o+='E     %5d%5d\n'%s[1:] if s[0]=='E' else 'N%5d%5d%5d\n'%s[1:]
    return o.encode()
def assemble(text):
    try:
        n,J,_,_=read_query(text)
        tri,steps=build(n,J)
        return listtext(n,len(J),tri,steps)
    except Fault as f: return X(f)
def replay(text):
    text=text[:36465]
    try:
        c,f=line(text,0)
        if c!='H': raise Fault(16,1,0)
        n,m,k=f
        if not 3<=n<=64 or m>2016 or k!=m-3: raise Fault(17,1,0)
        c,t=line(text,17)
        if c!='T': raise Fault(16,1,17)
        steps=[]; at=34
        for _ in range(k):
            c,f=line(text,at)
            if c not in 'NE': raise Fault(16,1,at)
            steps.append((c,)+tuple(f)); at+=17
        if at<len(text):
            line(text,at); raise Fault(16,1,at)
        a,b,c=t
        if not a<b<c<n: raise Fault(11,3,0)
        J={(a,b),(a,c),(b,c)}; use={a,b,c}
        P=lambda a,b:(min(a,b),max(a,b))
        for i,s in enumerate(steps,1):
            ts=s[1:]
            if any(x>=n for x in ts): raise Fault(1,2,i)
            if len(set(ts))<len(ts): raise Fault(2,2,i)
            if s[0]=='N':
                u,v,w=ts
                if u in use: raise Fault(12,3,i)
                if v not in use or w not in use: raise Fault(13,3,i)
                if P(v,w) not in J: raise Fault(4,2,i)
                if len(J)>=2016: raise Fault(5,2,i)
                J.discard(P(v,w)); J|={P(u,v),P(u,w)}; use.add(u)
            else:
                v,w=ts
                if v not in use or w not in use: raise Fault(13,3,i)
                if P(v,w) in J: raise Fault(3,2,i)
                if len(J)>=2016: raise Fault(5,2,i)
                J.add(P(v,w))
        for x in range(n):
            if x not in use: raise Fault(14,3,x)
        o='G%5d%5d     \n'%(n,len(J))
        for a,b in sorted(J): o+='J     %5d%5d\n'%(a,b)
        return o.encode()
    except Fault as f: return X(f)
def fill(n,J,marks):
    """The joins that the marks name, where they make a spanning tree."""
    if len(marks)!=n-1: raise Fault(18,4,0)
    T=set()
    for k,(v,w) in enumerate(marks):
        if v>=n or w>=n: raise Fault(1,4,k)
        if v==w: raise Fault(2,4,k)
        p=(min(v,w),max(v,w))
        if p not in J: raise Fault(4,4,k)
        if w in reach(adj(n,T),set(range(n)),v): raise Fault(19,4,k)
        T.add(p)
    return T
def path(A,r,x):
    """The tables on the one way from r to x in a tree, both ends among them."""
    st=[[r]]
    while st:
        way=st.pop()
        if way[-1]==x: return set(way)
        st+=[way+[y] for y in A[way[-1]] if y not in way]
def cross_count(n,J,T,r):
    A=adj(n,T); ways=[path(A,r,x) for x in range(n)]
    return sum(1 for v,w in J-T if v not in ways[w] and w not in ways[v])
def searches(n,J,r):
    """What each depth-first search from r walks: its joins, for every choice of the next neighbour."""
    A=adj(n,J)
    def go(order,walked):
        for t in reversed(order):
            new=[y for y in A[t] if y not in order]
            if new:
                for y in new: yield from go(order+[y],walked|{(min(t,y),max(t,y))})
                return
        yield walked
    return set(go([r],frozenset()))
SEARCHED={}
def walked_by(n,J,r):
    key=(n,frozenset(J),r)
    if key not in SEARCHED: SEARCHED[key]=searches(n,J,r)
    return SEARCHED[key]
# up to here, all searches are tried; beyond, a table is taken to drive where its cross count is 0
TRIED=6
def report(n,J,T):
    out=[]
    for r in range(n):
        c=cross_count(n,J,T,r); d=c==0
        if n<=TRIED: assert d==(frozenset(T) in walked_by(n,J,r)),(n,J,T,r)
        out.append((c,d))
    return out
def pick(rep,rows):
    driving=[r for r,(_,d) in enumerate(rep) if d]
    known=[(rows[r],r) for r in driving if rows.get(r) is not None]
    if known: return min(known)[1]
    return driving[0] if driving else None
def drive(text):
    try:
        n,J,marks,rows=read_query(text)
        T=fill(n,J,marks); rep=report(n,J,T)
        o=''.join('D%5d%5d%5d\n'%(r,c,d) for r,(c,d) in enumerate(rep))
        p=pick(rep,rows)
        return (o+'P'+('%5d'%p if p is not None else ' '*5)+' '*10+'\n').encode()
    except Fault as f: return X(f)
if __name__=='__main__':
    sys.stdout.buffer.write({'assemble':assemble,'replay':replay,'drive':drive}[sys.argv[1]](sys.stdin.buffer.read()))
