#!/usr/bin/env python3
# Writes data/cases and stdout of the crate storedcases. Each expectation follows from how the case was made: `good` tables are
# written by hand as lines in order, `bad` ones break one rule each; the answer on a flow follows from the line that it was aimed at.
import os,struct,sys
out=[]; exp=[]; seen=set()
W=36864
def quad(a): return '%d.%d.%d.%d'%(a>>24,a>>16&255,a>>8&255,a&255)
def ip(s):
    a,b,c,d=map(int,s.split('.')); return a<<24|b<<16|c<<8|d
def L(d,p,o,a,r,q):
    a0,a1=a if isinstance(a,tuple) else (a,a)
    a0=a0 if isinstance(a0,str) else quad(a0); a1=a1 if isinstance(a1,str) else quad(a1)
    return '%s\t%s\t%s\t%s-%s\t%s\t%s\n'%(d,p,o,a0,a1,r,q)
def case(name,text,flow,expect,whole=W):
    if isinstance(text,str): text=text.encode('latin1')
    assert len(name)<=80 and len(text)<=36865 and whole<=36865, (name,len(text))
    assert name not in seen,name; seen.add(name)
    d,p,o,a,r,q=flow; a=ip(a) if isinstance(a,str) else a
    nm=name.encode()
    head=struct.pack('>III',len(nm),len(text),whole)+struct.pack('>BBBIHHB',d,p,o,a,r,q,0)
    assert len(head)==24
    out.append(head+nm+text); exp.append('%s\t%s\n'%(name,expect))
F=(0,6,0,'198.51.100.8',443,1000)      # a flow, in the first line of the example
A='0-0\t6-6\t0-0\t198.51.100.8-198.51.100.9\t443-443\t0-65535\n'
B='0-0\t17-17\t0-0\t192.0.2.53-192.0.2.53\t53-53\t0-65535\n'
C='1-1\t17-17\t0-0\t192.0.2.53-192.0.2.53\t53-53\t0-65535\n'
E=A+B+C
def good(name,text,flow,expect): case(name,text,flow,expect)
def bad(name,text,flow=F): case(name,text,flow,'13')

# the example, and flows on both sides of each edge
good('example, line 1','%s'%E,F,'accept')
good('example, line 2',E,(0,17,0,'192.0.2.53',53,0),'accept')
good('example, line 3',E,(1,17,0,'192.0.2.53',53,65535),'accept')
good('example, other direction',E,(1,6,0,'198.51.100.8',443,1000),'drop')
good('example, opened by the remote',E,(0,6,1,'198.51.100.8',443,1000),'drop')
good('empty table',"",F,'drop')
one=L('0-0','6-6','0-1',('10.0.0.5','10.0.1.9'),'80-90','1000-2000')
mid=[0,6,1,ip('10.0.0.100'),85,1500]
names=['direction','protocol','opener','address','remote port','device port']
edges={0:[(0,'accept'),(1,'drop'),(2,'14'),(255,'14')],
 1:[(5,'14'),(6,'accept'),(7,'14')],   # ports and an opener 1 suit no other protocol
 2:[(0,'accept'),(1,'accept'),(2,'14'),(255,'14')],
 3:[(ip('10.0.0.4'),'drop'),(ip('10.0.0.5'),'accept'),(ip('10.0.1.9'),'accept'),(ip('10.0.1.10'),'drop'),(0,'drop'),(2**32-1,'drop')],
 4:[(79,'drop'),(80,'accept'),(90,'accept'),(91,'drop'),(0,'drop'),(65535,'drop')],
 5:[(999,'drop'),(1000,'accept'),(2000,'accept'),(2001,'drop'),(0,'drop'),(65535,'drop')]}
for d in edges:
    for v,x in edges[d]:
        f=list(mid); f[d]=v; good('one line, %s %d'%(names[d],v),one,tuple(f),x)
full=L('0-1','6-6','0-1',('0.0.0.0','255.255.255.255'),'0-65535','0-65535')
for f in [(0,6,0,0,0,0),(1,6,1,2**32-1,65535,65535)]: good('whole ranges, %d %d'%(f[0],f[3]),full,f,'accept')
good('whole ranges, other protocol',full,(0,17,0,0,0,0),'drop')

# 14 only where the bytes are a table; 13 before 14
nf=[('direction 2',(2,6,0,0,0,0)),('opener 2',(0,6,2,0,0,0)),('UDP opened by the remote',(0,17,1,0,0,0)),('ICMP opened by the remote',(0,1,1,0,0,0)),
    ('ICMP with a remote port',(0,1,0,0,1,0)),('ICMP with a device port',(0,1,0,0,0,1)),('protocol 255 with a port',(1,255,0,0,0,9))]
for n,f in nf:
    good('not a flow: '+n,E,f,'14'); bad('not a flow, not a table: '+n,E+'x',f)
for p in (0,1,5,7,16,18,255): good('no port, protocol %d'%p,E,(0,p,0,0,0,0),'drop')

# spelling
def sub(name,a,b,t=A):
    assert a in t,(name,a); bad('spelling: '+name,t.replace(a,b,1))
sub('zero in front, direction','0-0\t6','00-0\t6'); sub('zero in front, direction end','0-0\t6','0-00\t6')
sub('zero in front, protocol','6-6','06-6'); sub('zero in front, protocol end','6-6','6-06')
sub('zero in front, opener','\t0-0\t1','\t0-00\t1')
sub('zero in front, quad','198.51.100.8-','198.051.100.8-'); sub('zero in front, last quad number','.9\t','.09\t'); sub('zero in front, first quad number','198.51.100.8-','0198.51.100.8-')
sub('zero in front, remote port','443-443','0443-443'); sub('zero in front, device port','0-65535','00-65535'); sub('zero in front, device port end','65535','065535')
sub('two zeros','0-65535','0-00'); sub('plus sign','6-6','+6-6'); sub('minus sign','6-6','-6-6'); sub('space in front','0-0\t6',' 0-0\t6'); sub('space after','6-6\t','6-6 \t')
sub('hexadecimal','443-443','0x1bb-443'); sub('letters','443-443','http-443'); sub('exponent','443-443','4e2-443'); sub('point','443-443','443.0-443')
sub('no high end','6-6\t','6-\t'); sub('no low end','6-6\t','-6\t'); sub('single number','6-6\t','6\t'); sub('two dashes','6-6','6--6'); sub('three ends','6-6','6-6-6'); sub('colon for dash','6-6','6:6')
sub('empty range','\t6-6\t','\t\t'); sub('space for tab','6-6\t','6-6 '); sub('two tabs','6-6\t','6-6\t\t'); sub('tab at the start','0-0\t6','\t0-0\t6'); sub('tab at the end','65535\n','65535\t\n')
sub('five ranges','\t0-65535',''); sub('seven ranges','\n','\t0-0\n'); sub('CR LF','\n','\r\n'); sub('CR','\n','\r'); sub('no LF','\n',''); sub('comma for tab','6-6\t','6-6,')
sub('three quad numbers','198.51.100.8-','198.51.100-'); sub('five quad numbers','198.51.100.8-','198.51.100.8.1-'); sub('empty quad number','198.51.100.8-','198..100.8-'); sub('dot at the end','198.51.100.8-','198.51.100.8.-')
sub('address as one number','198.51.100.8-','3325256712-'); sub('address with a length','198.51.100.9\t','198.51.100.9/32\t'); sub('one address','-198.51.100.9','')
bad('spelling: empty line',"\n"); bad('spelling: empty line in front',"\n"+E); bad('spelling: empty line between',A+"\n"+B+C); bad('spelling: empty line after',E+"\n")
bad('spelling: one digit',"0"); bad('spelling: one space'," "); bad('spelling: byte 255',b"\xff"); bad('spelling: byte 1',b"\x01"); bad('spelling: mark of byte order',b"\xef\xbb\xbf"+E.encode())
bad('spelling: cut in the last line',E[:-9]); bad('spelling: the last LF missing',E[:-1]); bad('spelling: a header',"3\n"+E)
# numbers too large
sub('direction 2','0-0\t6','0-2\t6'); sub('direction 10','0-0\t6','0-10\t6'); sub('protocol 256','6-6','6-256'); sub('opener 2','\t0-0\t1','\t0-2\t1')
sub('quad number 256','198.51.100.8-','198.51.100.256-'); sub('quad number 1000','198.51.100.8-','1000.51.100.8-'); sub('port 65536','65535','65536'); sub('port 100000','65535','100000'); sub('port 2^32+443','443-443','443-4294967739'); sub('port 2^64+443','443-443','443-18446744073709552059'); sub('protocol 2^32+6','6-6','4294967302-6')
# low above high
sub('direction 1-0','0-0\t6','1-0\t6'); sub('protocol 6-5','6-6','6-5'); sub('opener 1-0','\t0-0\t1','\t1-0\t1'); sub('addresses falling','198.51.100.8-','198.51.100.10-'); sub('ports falling','443-443','444-443'); sub('device ports falling','0-65535','65535-0')

# order of lines
bad('order: last two swapped',A+C+B); bad('order: first two swapped',B+A+C); bad('order: falling directions',C+A+B); bad('order: a line twice',A+A+B+C); bad('order: the last line twice',E+C); bad('order: a direction again',A+C+B+C)
T=lambda d='0-0',p='6-6',o='0-0',a=('10.0.0.1','10.0.0.9'),r='80-89',q='1000-1999': L(d,p,o,a,r,q)
two={0:('d','0-0','1-1','0-1',None,None),1:None,2:('o','0-0','1-1','0-1',None,None)}
f0=(0,6,0,'10.0.0.1',80,1000)
# in each dimension: alike and touching is one run; alike and apart are two; touching and not alike are two; falling and overlapping runs are no table
def dims(name,key,lo,hi,both,gap,over,fl,fh):
    k=lambda v,**o: T(**dict({key:v},**o))
    other='q' if key!='q' else 'r'; ov='5-6' 
    bad('%s: touching alike'%name,k(lo)+k(hi),fl)
    good('%s: joined, low end'%name,k(both),fl,'accept'); good('%s: joined, high end'%name,k(both),fh,'accept')
    bad('%s: falling'%name,k(hi)+k(lo),fl); bad('%s: the same run twice'%name,k(lo)+k(lo),fl)
    if key!='q':
        good('%s: touching not alike'%name,k(lo)+k(hi,q='5-6'),fl,'accept')
        good('%s: touching not alike, high end'%name,k(lo)+k(hi,q='5-6'),fh[:5]+(6,),'accept'); good('%s: touching not alike, other'%name,k(lo)+k(hi,q='5-6'),fh,'drop')
        good('%s: touching, one line more'%name,k(lo)+k(hi)+k(hi,q='2001-2002'),fh,'accept')
        good('%s: touching, one line fewer'%name,k(lo)+k(lo,q='2001-2002')+k(hi),fh,'accept')
        bad('%s: touching alike, two lines each'%name,k(lo)+k(lo,q='2001-2002')+k(hi)+k(hi,q='2001-2002'),fl)
        good('%s: touching, two lines each, the last not alike'%name,k(lo)+k(lo,q='2001-2002')+k(hi)+k(hi,q='2001-2003'),fh[:5]+(2003,),'accept')
        bad('%s: lines of two runs mixed'%name,k(lo)+k(hi)+k(lo,q='2001-2002')+k(hi,q='2001-2003'),fl)
    if gap: good('%s: alike and one apart, low'%name,k(gap[0])+k(gap[1]),gap[2],'accept'); good('%s: alike and one apart, high'%name,k(gap[0])+k(gap[1]),gap[3],'accept'); good('%s: alike and one apart, between'%name,k(gap[0])+k(gap[1]),gap[4],'drop')
    if over:
        for n,(x,y) in over.items(): bad('%s: %s'%(name,n),k(x)+k(y),fl)
dims('direction','d','0-0','1-1','0-1',None,{'overlapping at the end':('0-0','0-1'),'overlapping at the start':('0-1','1-1')},f0,(1,6,0,'10.0.0.9',89,1999))
dims('opener','o','0-0','1-1','0-1',None,{'overlapping at the end':('0-0','0-1'),'overlapping at the start':('0-1','1-1')},f0,(0,6,1,'10.0.0.9',89,1999))
dims('address','a',('10.0.0.1','10.0.0.4'),('10.0.0.5','10.0.0.9'),('10.0.0.1','10.0.0.9'),(('10.0.0.1','10.0.0.4'),('10.0.0.6','10.0.0.9'),f0,(0,6,0,'10.0.0.6',80,1000),(0,6,0,'10.0.0.5',80,1000)),
 {'overlapping':(('10.0.0.1','10.0.0.5'),('10.0.0.5','10.0.0.9')),'inside':(('10.0.0.1','10.0.0.9'),('10.0.0.3','10.0.0.4')),'same start':(('10.0.0.1','10.0.0.4'),('10.0.0.1','10.0.0.9'))},f0,(0,6,0,'10.0.0.9',89,1999))
dims('address over a byte','a',('10.0.0.1','10.0.0.255'),('10.0.1.0','10.0.1.9'),('10.0.0.1','10.0.1.9'),(('10.0.0.1','10.0.0.254'),('10.0.1.0','10.0.1.9'),f0,(0,6,0,'10.0.1.0',80,1000),(0,6,0,'10.0.0.255',80,1000)),None,f0,(0,6,0,'10.0.1.9',89,1999))
dims('remote port','r','80-84','85-89','80-89',('80-84','86-89',f0,(0,6,0,'10.0.0.1',86,1000),(0,6,0,'10.0.0.1',85,1000)),{'overlapping':('80-85','85-89'),'inside':('80-89','84-84'),'same start':('80-84','80-89')},f0,(0,6,0,'10.0.0.9',89,1999))
dims('device port','q','1000-1499','1500-1999','1000-1999',('1000-1498','1500-1999',f0,(0,6,0,'10.0.0.1',80,1500),(0,6,0,'10.0.0.1',80,1499)),{'overlapping':('1000-1500','1500-1999'),'inside':('1000-1999','1001-1001'),'same start':('1000-1499','1000-1999')},f0,(0,6,0,'10.0.0.9',89,1999))
Z=lambda p,o='0-0',r='0-0',q='0-0',a=('10.0.0.1','10.0.0.9'): L('0-0',p,o,a,r,q)
z=lambda p,a='10.0.0.1': (0,p,0,a,0,0)
bad('protocol: touching alike',Z('1-2')+Z('3-4'),z(1)); good('protocol: joined, low end',Z('1-4'),z(1),'accept'); good('protocol: joined, high end',Z('1-4'),z(4),'accept'); good('protocol: joined, below',Z('1-4'),z(0),'drop'); good('protocol: joined, above',Z('1-4'),z(5),'drop')
good('protocol: touching not alike',Z('1-2')+Z('3-4',a='10.0.0.5'),z(3,'10.0.0.5'),'accept'); good('protocol: touching not alike, other',Z('1-2')+Z('3-4',a='10.0.0.5'),z(3),'drop')
good('protocol: alike and one apart, low',Z('1-2')+Z('4-5'),z(2),'accept'); good('protocol: alike and one apart, between',Z('1-2')+Z('4-5'),z(3),'drop'); good('protocol: alike and one apart, high',Z('1-2')+Z('4-5'),z(4),'accept')
bad('protocol: falling',Z('4-5')+Z('1-2'),z(1)); bad('protocol: overlapping',Z('1-3')+Z('3-4'),z(1))
# TCP and UDP joined to their neighbours: only port 0 and opener 0 in the set
for p in (5,6,7): good('TCP joined to its neighbours, protocol %d'%p,Z('5-7'),z(p),'accept')
good('TCP joined, a port',Z('5-7'),(0,6,0,'10.0.0.1',1,0),'drop'); good('TCP joined, a device port',Z('5-7'),(0,6,0,'10.0.0.1',0,1),'drop'); good('TCP joined, the other opener',Z('5-7'),(0,6,1,'10.0.0.1',0,0),'drop')
for p in (4,8): good('TCP joined, protocol %d'%p,Z('5-7'),z(p),'drop')
bad('TCP not joined to protocol 7',Z('6-6')+Z('7-7'),z(6)); bad('TCP not joined to protocol 5',Z('5-5')+Z('6-6'),z(6)); bad('UDP not joined to protocol 18',Z('17-17')+Z('18-255'),z(17))
for p in (16,17,18,255): good('UDP joined to its neighbours, protocol %d'%p,Z('16-255'),z(p),'accept')
for p in (0,6,17,255): good('all protocols joined, protocol %d'%p,Z('0-255'),z(p),'accept')
good('TCP with more stays apart, protocol 5',Z('5-5')+Z('6-6',r='0-1')+Z('7-7'),z(5),'accept'); good('TCP with more stays apart, port 1',Z('5-5')+Z('6-6',r='0-1')+Z('7-7'),(0,6,0,'10.0.0.1',1,0),'accept')
good('TCP with both openers stays apart',Z('5-5')+Z('6-6',o='0-1')+Z('7-7'),(0,6,1,'10.0.0.1',0,0),'accept')
# lines with other combinations than flows
bad('no flows: UDP with both openers',Z('17-17',o='0-1',r='53-53'),z(17)); bad('no flows: UDP opened by the remote',Z('17-17',o='1-1',r='53-53'),z(17)); bad('no flows: ICMP opened by the remote',Z('1-1',o='0-1'),z(1))
bad('no flows: TCP and its neighbour with both openers',Z('6-7',o='0-1'),z(6)); bad('no flows: TCP and its neighbour with a port',Z('5-6',r='0-1'),z(6)); bad('no flows: TCP and its neighbour with a device port',Z('6-7',q='0-1'),z(6))
bad('no flows: TCP to UDP with ports',Z('6-17',r='0-65535'),z(6)); bad('no flows: ICMP with a remote port',Z('1-1',r='1-1'),z(1)); bad('no flows: ICMP with a device port',Z('1-1',q='0-1'),z(1)); bad('no flows: UDP and its neighbour with ports',Z('17-18',r='53-53'),z(17)); bad('no flows: all protocols with ports',Z('0-255',r='0-65535'),z(0))
bad('no flows: protocol 256',Z('0-256'),z(0)); bad('no flows after a good line',A+Z('17-17',o='0-1',r='53-53'))

# how many lines
def many(n): return ''.join(L('0-0','6-6','0-0',ip('10.0.0.0')+2*(i//8),'%d-%d'%(1000+2*(i%8),1000+2*(i%8)),'0-65535') for i in range(n))
def at(i): return (0,6,0,ip('10.0.0.0')+2*(i//8),1000+2*(i%8),7)
for i in (0,511): good('512 lines, line %d'%(i+1),many(512),at(i),'accept')
good('512 lines, the next line',many(512),at(512),'drop')
good('511 lines, the next',many(511),at(511),'drop')
for i in (512,): bad('513 lines, line %d'%(i+1),many(513),at(i))
bad('513 lines, not a flow asked',many(513),(2,6,0,0,0,0))
long=''.join(L('0-1','17-17','0-0',(ip('200.100.100.100')+2*i*65536,)*2,'%d-%d'%(10000+2*j,10000+2*j),'10000-65535') for i in range(64) for j in range(8))
assert len(long)==512*70
good('512 lines of 70 bytes, the last',long,(1,17,0,ip('200.226.100.100'),10014,65535),'accept'); good('512 lines of 70 bytes, below the last',long,(1,17,0,ip('200.226.100.100'),10014,9999),'drop')
# zeros after the lines, and lengths
for n,b in [('1',b'\x01'),('LF',b'\n'),('digit',b'0'),('255',b'\xff')]:
    t=E.encode(); bad('after one zero: %s'%n,t+b'\0'+b)
bad('after the zeros: LF at the end',t+bytes(W-len(t)-1)+b'\n'); bad('after the zeros: 1 in the middle',t+bytes(W//2-len(t)-1)+b'\x01'); bad('zeros, then 1',bytes(W-1)+b'\x01')
bad('after one zero: a line',E.encode()+b'\0'+C.encode()); bad('after one zero: the whole table',b'\0'+E.encode()); bad('a zero between lines',A.encode()+b'\0'+(B+C).encode()); bad('a zero in a line',A.encode().replace(b'443-',b'44\x003-'))
for w in (0,1,len(E),36863,36865):
    case('length %d'%w,E if w>=len(E) else E[:w],F,'13',w); case('length %d, zeros'%w,'',F,'13',w); case('length %d, not a flow'%w,'',(9,9,9,9,9,9),'13',w)
t=(A*600)[:W]; bad('lines to the last byte',t)
d='crates/storedcases/'
open(d+'data/cases','wb').write(b''.join(out)); open(d+'stdout','w').write(''.join(exp)); print(len(out),'cases',sum(map(len,out)),'bytes')
