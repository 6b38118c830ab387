# A second opinion on a JSON file, by Python's own decoder: 4 too long, 5 no JSON (RFC 8259, UTF-8, at most 16 deep), 6 a name twice or a lone surrogate, else 0.
import json,sys
class Twice(Exception): pass
def judge(b):
    if len(b)>32768: return 4
    try: t=b.decode('utf-8')          # strict: no overlong forms, no surrogates
    except UnicodeDecodeError: return 5
    def depth(v):
        best=0; todo=[(v,0)]
        while todo:
            x,d=todo.pop()
            if isinstance(x,P): x=[q for _,q in x.items_]; d+=1
            elif isinstance(x,list): d+=1
            else: continue
            best=max(best,d); todo+=[(y,d) for y in x]
        return best
    class P:
        def __init__(s,i): s.items_=i
    def bad(c): raise ValueError(c)
    try: v=json.loads(t,object_pairs_hook=P,parse_constant=bad,parse_int=str,parse_float=str,strict=True)
    except (ValueError,RecursionError): return 5
    # Python lets white space of other kinds in nowhere but takes the four of RFC 8259 only; checked by its scanner
    if depth(v)>16: return 5
    def lone(s): return any(0xD800<=ord(c)<=0xDFFF for c in s)
    todo=[v]
    while todo:
        x=todo.pop()
        if isinstance(x,P):
            names=[n for n,_ in x.items_]
            if len(set(names))<len(names) or any(map(lone,names)): return 6
            todo+=[q for _,q in x.items_]
        elif isinstance(x,list): todo+=x
        elif isinstance(x,str) and lone(x): return 6
    return 0
if __name__=='__main__':
    for f in sys.argv[1:]: print(f.split('/')[-1]+'\t'+str(judge(open(f,'rb').read())))
