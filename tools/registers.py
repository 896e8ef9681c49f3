# Prints the expected output of the program `registers`, from the rules: registers as dictionaries of plain numbers.
import re
src=open('crates/registers/src/samples.rt').read()
CAP=1_000_000_000_000
nums=[int(x) for x in re.findall(r'\d+', src[src.index('OPENING: [u8;'):src.index('];')].split('= [')[1])]
def big(bs):
    n=0
    for b in bs: n=n*256+b
    return n
A,S=big(nums[0:2]),big(nums[2:4])
free={};res={}
for a in range(A):
    for s in range(S):
        i=a*S+s
        free[a,s]=big(nums[4+8*i:12+8*i]); j=A*S+i
        res[a,s]=big(nums[4+8*j:12+8*j])
changes=[(k.lower(),int(a),int(s),int(q.replace('_',''))) for k,a,s,q in re.findall(r'Change \{ kind: Kind::(\w+), line: Line \{ account: (\d+), security: (\d+) \}, shares: ([\d_]+) \}',src)]
def put(k,a,s,q):
    if a>=A or s>=S: return False
    f,r=free[a,s],res[a,s]
    if k=='credit':
        if f+q>CAP: return False
        free[a,s]=f+q
    elif k=='debit':
        if q>f: return False
        free[a,s]=f-q
    elif k=='hold':
        if q>f or r+q>CAP: return False
        free[a,s]=f-q; res[a,s]=r+q
    else:
        if q>r or f+q>CAP: return False
        free[a,s]=f+q; res[a,s]=r-q
    return True
out=[]
for k,a,s,q in changes:
    ok=put(k,a,s,q)
    out.append(f'{k} {q} at {a}/{s}')
    w='accepted' if ok else 'refused'
    for n in ('image','movement'):
        out.append(f'  {n}: {w}, free {free.get((a,s),0)}, reserved {res.get((a,s),0)}')
for n in ('image','movement'):
    out.append(f'{n} at the end')
    for a in range(A):
        for s in range(S): out.append(f'  {a}/{s}: free {free[a,s]}, reserved {res[a,s]}')
def enc(n,k): return [(n>>(8*(k-1-i)))&255 for i in range(k)]
end=enc(A,2)+enc(S,2)
for t in (free,res):
    for a in range(A):
        for s in range(S): end+=enc(t[a,s],8)
end+=nums[4+16*A*S:]
out.append('bytes at the end: '+str(end))
print('\n'.join(out))
