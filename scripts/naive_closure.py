"""The closure of kept triples over terms of given kinds, by plain rounds over every row: what the tests of closing compare with.
Kinds: n a name, p a container position, b a blank, for the terms from number 30 on."""
T,P,L,ST,SU,PR,OB,FI,RE,VA,NIL,SEQ,BAG,ALT,P1,RES,CL,LIT,DT,CONT,CMP,DOM,RAN,SC,SP,MEM,SEE,DEF,COM,LAB=range(30)
def start(regime,kinds):
    ks=['n']*30; ks[14]='p'; ks=ks+list(kinds)
    s=set()
    if regime=='simple': return s
    s.add((NIL,T,L))
    for x in (T,SU,PR,OB,FI,RE,VA): s.add((x,T,P))
    pos=[i for i,k in enumerate(ks) if k=='p']; names=[i for i,k in enumerate(ks) if k in 'np']
    for x in pos: s.add((x,T,P))
    if regime=='rdf': return s
    for x in names: s.add((x,T,RES))
    for x in pos: s|={(x,T,CMP),(x,DOM,RES),(x,RAN,RES)}
    for x in (MEM,SEE,DEF,VA,T,COM,LAB): s.add((x,DOM,RES))
    for x in (SU,PR,OB): s.add((x,DOM,ST))
    for x in (DOM,RAN,SP): s.add((x,DOM,P))
    s.add((SC,DOM,CL))
    for x in (FI,RE): s.add((x,DOM,L))
    for x in (MEM,SEE,DEF,VA,SU,PR,OB,FI): s.add((x,RAN,RES))
    for x in (T,DOM,RAN,SC): s.add((x,RAN,CL))
    s.add((SP,RAN,P)); s.add((RE,RAN,L))
    for x in (COM,LAB): s.add((x,RAN,LIT))
    for x in (ALT,BAG,SEQ): s.add((x,SC,CONT))
    s|={(CMP,SC,P),(DT,SC,CL),(DEF,SP,SEE)}
    return s
def step(regime,s):
    n=set()
    if regime=='simple': return n
    for (x,a,y) in s: n.add((a,T,P))
    if regime=='rdf': return n
    for (x,a,y) in s:
        n.add((x,T,RES)); n.add((y,T,RES))
        if a==T and y==P: n.add((x,SP,x))
        if a==T and y==CL: n|={(x,SC,RES),(x,SC,x)}
        if a==T and y==CMP: n.add((x,SP,MEM))
        if a==T and y==DT: n.add((x,SC,LIT))
    dom=[(t[0],t[2]) for t in s if t[1]==DOM]; ran=[(t[0],t[2]) for t in s if t[1]==RAN]
    sp=[(t[0],t[2]) for t in s if t[1]==SP]; sc=[(t[0],t[2]) for t in s if t[1]==SC]
    byp={}
    for t in s: byp.setdefault(t[1],[]).append(t)
    for a,c in dom:
        for x,_,y in byp.get(a,()): n.add((x,T,c))
    for a,c in ran:
        for x,_,y in byp.get(a,()): n.add((y,T,c))
    for a,b in sp:
        for x,_,y in byp.get(a,()): n.add((x,b,y))
        for c,d in sp:
            if b==c: n.add((a,SP,d))
    for c,d in sc:
        for x,_,y in byp.get(T,()):
            if y==c: n.add((x,T,d))
        for e,f in sc:
            if d==e: n.add((c,SC,f))
    return n
def close(regime,kinds,kept):
    s=start(regime,kinds)|set(kept)
    while True:
        n=step(regime,s)-s
        if not n: return s
        s|=n
# The halls of crates/closing_trials/src/halls.rt.
HALLS = 'nnnnnnnbp', [(30, SC, 31), (31, SC, 32), (33, DOM, 31), (33, RAN, 34), (35, 33, 36), (37, 33, 36), (35, 38, 36)]

if __name__ == '__main__':
    print('nothing:', *(len(close(r, '', [])) for r in ('simple', 'rdf', 'rdfs')))
    for regime in ('simple', 'rdf', 'rdfs'):
        print('halls,', regime + ':', *sorted(65536 * s + 256 * p + o for s, p, o in close(regime, *HALLS)))
