#!/usr/bin/env python3
# Writes data/cases and stdout of the crate buildercases; run it from the project's folder. The lines of a `hand` case are written out here;
# those of the others follow from the definition: the runs of values with one and the same rest, in each dimension.
import os, random, struct
TOP = [1, 255, 1, 2**32 - 1, 65535, 65535]
NONE = (1, 0)
ALL = [(0, t) for t in TOP]

def ip(text):
    a, b, c, d = map(int, text.split('.'))
    return a << 24 | b << 16 | c << 8 | d

def quad(a):
    return '%d.%d.%d.%d' % (a >> 24, a >> 16 & 255, a >> 8 & 255, a & 255)

# a rule: accept, six dimensions of one or two ranges, the names' networks by number
class Rule:
    def __init__(self, accept, names=(), **limits):
        self.accept, self.names = accept, names
        self.dims = [limits.get(k, ALL[d]) for d, k in enumerate(('direction', 'protocol', 'opener', 'address', 'remote', 'device'))]
        self.dims = [[r] if isinstance(r, tuple) else r for r in self.dims]
    def limits(self, d, nets):
        return [self.dims[d]] + ([[nets[j] for j in name] for name in self.names] if d == 3 else [])
    def words(self):
        out = [1 if self.accept else 0]
        for r in self.dims:
            out += [lo << 32 | hi for lo, hi in (r + [NONE])[:2]]
        masks = [sum(1 << j for j in name) for name in self.names]
        return out + [len(masks)] + masks + [0] * (7 - len(masks))

NO_FLOW = [Rule(False, protocol=[(0, 5), (7, 255)], opener=(1, 1))] + \
    [Rule(False, protocol=p, **{k: (1, 65535)}) for p in ((0, 5), (7, 16), (18, 255)) for k in ('remote', 'device')]

def inside(limits, v):
    return all(any(lo <= v <= hi for lo, hi in ranges) for ranges in limits)

def table(rules, nets):
    rules = NO_FLOW + rules
    cells = []
    for d in range(6):
        cuts = {0}
        for r in rules:
            for ranges in r.limits(d, nets):
                for lo, hi in ranges:
                    cuts |= {c for c in (lo, hi + 1) if c <= TOP[d]}
        starts = sorted(cuts)
        ends = [s - 1 for s in starts[1:]] + [TOP[d]]
        cells.append([(s, e, frozenset(i for i, r in enumerate(rules) if inside(r.limits(d, nets), s))) for s, e in zip(starts, ends)])
    known = {}
    def rest(d, live):
        if d == 6:
            return ((),) if live and rules[min(live)].accept else ()
        if (d, live) not in known:
            runs = []
            for s, e, holds in cells[d]:
                t = rest(d + 1, live & holds)
                if runs and runs[-1][2] == t:
                    runs[-1][1] = e
                else:
                    runs.append([s, e, t])
            known[d, live] = tuple(((s, e),) + line for s, e, t in runs for line in t)
        return known[d, live]
    return list(rest(0, frozenset(range(len(rules)))))

def text(line):
    return ''.join('\t%s-%s' % ((quad(lo), quad(hi)) if d == 3 else (lo, hi)) for d, (lo, hi) in enumerate(line)) + '\n'

data, expected = [], []
def case(name, rules, nets=(), lines=None):
    nets = list(nets) + [NONE] * (64 - len(nets))
    found = table(rules, nets)
    assert lines is None or found == lines, (name, found)
    assert len(rules) <= 66 and len(name) <= 80
    words = [lo << 32 | hi for lo, hi in nets] + [w for r in rules for w in r.words()]
    data.append(struct.pack('BB', len(name), len(rules)) + name.encode().ljust(80, b'\0') + struct.pack('>%dQ' % len(words), *words))
    expected.append(name + ('\tover\n' if len(found) > 512 else '\n' + ''.join(map(text, found))))
    return len(found)

def line(d, p, o, a, r, q):
    return tuple(x if isinstance(x, tuple) else (x, x) for x in (d, p, o, a, r, q))
A = ALL[3]; P = ALL[4]
def hand(name, rules, lines, nets=()):
    case(name, rules, nets, lines)

hand('no rule', [], [])
hand('all accepted', [Rule(True)], [
    line((0, 1), (0, 5), 0, A, 0, 0), line((0, 1), 6, (0, 1), A, P, P), line((0, 1), (7, 16), 0, A, 0, 0), line((0, 1), 17, 0, A, P, P), line((0, 1), (18, 255), 0, A, 0, 0)])
hand('from the device only', [Rule(True, direction=(0, 0))], [
    line(0, (0, 5), 0, A, 0, 0), line(0, 6, (0, 1), A, P, P), line(0, (7, 16), 0, A, 0, 0), line(0, 17, 0, A, P, P), line(0, (18, 255), 0, A, 0, 0)])
hand('all dropped, then all accepted', [Rule(False), Rule(True)], [])
hand('TCP opened by the remote, joined to nothing', [Rule(True, protocol=(6, 6), opener=(1, 1))], [line((0, 1), 6, 1, A, P, P)])
hand('no ports and opener 0: TCP and UDP joined to their neighbours', [Rule(True, opener=(0, 0), remote=(0, 0), device=(0, 0))], [line((0, 1), (0, 255), 0, A, 0, 0)])
hand('UDP opened by the remote is no flow', [Rule(True, protocol=(17, 17), opener=(1, 1))], [])
hand('ICMP with a port is no flow', [Rule(True, protocol=(1, 1), remote=(1, 65535))], [])
net = (ip('10.0.0.0'), ip('10.0.0.3'))
tcp = dict(direction=(0, 0), protocol=(6, 6), opener=(0, 0))
hand('a port more at one address', [Rule(True, address=net, remote=(80, 80), **tcp), Rule(True, address=(ip('10.0.0.2'),) * 2, remote=(81, 81), **tcp)], [
    line(0, 6, 0, (net[0], net[0] + 1), 80, P), line(0, 6, 0, net[0] + 2, (80, 81), P), line(0, 6, 0, net[0] + 3, 80, P)])
hand('two networks that touch are one run', [Rule(True, address=[net, (net[1] + 1, net[1] + 4)], remote=(80, 80), **tcp)], [line(0, 6, 0, (net[0], net[1] + 4), 80, P)])
hand('two rules that touch are one run', [Rule(True, address=net, **tcp), Rule(True, address=(net[1] + 1, net[1] + 4), **tcp)], [line(0, 6, 0, (net[0], net[1] + 4), P, P)])
hand('one address between', [Rule(True, address=net, **tcp), Rule(True, address=(net[1] + 2, net[1] + 4), **tcp)], [line(0, 6, 0, net, P, P), line(0, 6, 0, (net[1] + 2, net[1] + 4), P, P)])
hand('a drop in front cuts a hole', [Rule(False, remote=(53, 53)), Rule(True, address=net, **tcp)], [line(0, 6, 0, net, (0, 52), P), line(0, 6, 0, net, (54, 65535), P)])
hand('a drop behind cuts nothing', [Rule(True, address=net, **tcp), Rule(False, remote=(53, 53))], [line(0, 6, 0, net, P, P)])
hand('not port 53, as two ranges', [Rule(True, address=net, remote=[(0, 52), (54, 65535)], **tcp)], [line(0, 6, 0, net, (0, 52), P), line(0, 6, 0, net, (54, 65535), P)])
hand('two names meet in one network', [Rule(True, protocol=(17, 17), remote=(53, 53), direction=(1, 1), names=((0, 1), (1, 2)))],
    [line(1, 17, 0, (110, 119), 53, P)], [(100, 105), (110, 119), (130, 139)])
hand('a name with no network', [Rule(True, names=((),))], [], [net])
hand('a name with overlapping networks', [Rule(True, protocol=(17, 17), remote=(53, 53), direction=(1, 1), names=((0, 1),))], [line(1, 17, 0, (100, 130), 53, P)], [(100, 120), (110, 130)])
hand('the ends of the address space', [Rule(True, address=[(0, 0), (2**32 - 1,) * 2], **tcp)], [line(0, 6, 0, 0, P, P), line(0, 6, 0, 2**32 - 1, P, P)])
hand('the ends of the ports', [Rule(True, address=net, remote=[(0, 0), (65535, 65535)], device=[(0, 0), (65535, 65535)], **tcp)],
    [line(0, 6, 0, net, r, q) for r in (0, 65535) for q in (0, 65535)])
hand('an empty range in front of a full one', [Rule(True, address=[NONE, net], remote=(80, 80), **tcp)], [line(0, 6, 0, net, 80, P)])

# as many lines as a table may have, and one more: each of 64 addresses in eight ports apart
far = [(ip('10.0.0.0') + 2 * i,) * 2 for i in range(64)]
eight = [Rule(True, remote=[(1000 + 4 * i,) * 2, (1002 + 4 * i,) * 2], names=(tuple(range(64)),), **tcp) for i in range(4)]
assert case('512 lines', eight, far) == 512
assert case('513 lines', eight + [Rule(True, address=(5, 5), **tcp)], far) == 513
assert case('512 lines, a rule that drops the 513th in front', [Rule(False, address=(5, 5))] + eight + [Rule(True, address=(5, 5), **tcp)], far) == 512
assert case('576 lines', eight + [Rule(True, remote=(80, 80), names=(tuple(range(64)),), **tcp)], far) == 576
assert case('66 rules, the last one counts', [Rule(False, address=(i, i)) for i in range(65)] + [Rule(True, address=(0, 65), **tcp)], []) == 1

# rules by chance, the same for every run, over few values so that they meet and touch
chance = random.Random(8520)
def some(values):
    lo, hi = sorted(chance.choice(values) for _ in range(2))
    return (lo, hi)
VALUES = [[0, 1], [1, 5, 6, 7, 16, 17, 18], [0, 1], [0, 9, 10, 11, 12, 20, 2**32 - 2, 2**32 - 1], [0, 1, 53, 54, 65535], [0, 1, 123, 65534, 65535]]
def by_chance():
    keys = ('direction', 'protocol', 'opener', 'address', 'remote', 'device')
    limits = {k: [some(VALUES[d]) for _ in range(chance.randint(1, 2))] for d, k in enumerate(keys) if chance.random() < 0.5}
    names = tuple(tuple(sorted(chance.sample(range(8), chance.randint(0, 4)))) for _ in range(chance.choice((0, 0, 1, 2))))
    return Rule(chance.random() < 0.6, names, **limits)
for k in range(120):
    case('by chance %d' % k, [by_chance() for _ in range(chance.randint(1, 7))], [some(VALUES[3]) for _ in range(8)])

d = 'crates/buildercases/'
os.makedirs(d + 'data', exist_ok=True)
open(d + 'data/cases', 'wb').write(b''.join(data))
open(d + 'stdout', 'w').write(''.join(expected))
print(len(data), 'cases,', sum(map(len, data)), 'bytes of rules,', sum(map(len, expected)), 'bytes of lines,', sum(e.count('\tover') for e in expected), 'over')
