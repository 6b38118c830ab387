#!/usr/bin/env python3
# Writes data/cases and stdout of the crate gatewaycases; run it from the project's folder.
# gatewaycases.py             writes the cases that the gate runs
# gatewaycases.py --all DIR   writes all cases to that folder, the twins (`also`) with them: about twice as many
# gatewaycases.py --rules     prints each case's number, its name and the rule that makes it
#
# Each case states its number, and `rule` names the sentence of document 01, or the decision (docs/DECISIONS.md), that it follows from. The number
# must also be the one that tools/mudmeaning.py finds, which has the lines too: of the document's own examples the lines are written out here.
# Nothing is taken from what the program writes.
import json, os, random, struct, sys
sys.dont_write_bytecode = True
sys.path.insert(0, os.path.dirname(os.path.abspath(__file__)))
import jsonfiles
import mudmeaning
import second_opinion

W, K = 36864, 16290
data, expected, told, seen, twins = [], [], [], {}, set()
NOISE = (0xA5, 0xFF, 0x01, 0x30, 0x0A, 0x80)   # what the buffers hold before a build: never 0
now = None

def rule(sentence):
    global now
    now = sentence

# a text with a block that is repeated
class Text:
    def __init__(self, front, block=b'', times=0, back=b''):
        self.parts = [p if isinstance(p, bytes) else p.encode('utf-8') for p in (front, block, back)]
        self.times = times
    def whole(self):
        return self.parts[0] + self.parts[1] * self.times + self.parts[2]
    def packed(self):
        front, block, back = self.parts
        if self.times == 0:
            block = b''
        places = [len(front), len(front) + len(block), len(front) + len(block) * self.times, len(self.whole())]
        assert places[3] < 65536
        return struct.pack('>4H', *places), front + block + back

def as_text(t):
    return t if isinstance(t, Text) else Text(t)

def padded(t, length, c=' '):
    t = as_text(t).whole()
    return Text(t, c, length - len(t))

def line(words):
    return words.replace(' ', '\t') + '\n'

chance, picked = random.Random(8520), random.Random(8519)

# lines that hold a flow, and the definition's answer on it
def agree(name, found, rules):
    rows = mudmeaning.intervals(rules)
    for _ in range(40):
        flow = tuple(picked.choice(picked.choice(row)) for row in rows)
        held = any(all(low <= v <= high for v, (low, high) in zip(flow, l)) for l in found)
        assert held == mudmeaning.lets(rules, flow), (name, flow)

def case(name, number, file, site='', lines=None, reply=W, work=K):
    file, site = as_text(file), as_text(site)
    assert now and len(name.encode()) <= 100 and '\t' not in name and '\n' not in name, name
    assert name not in seen, name
    found, table, rules = mudmeaning.judge(file.whole(), site.whole(), reply, work)
    assert found == number, ('stated', number, 'found', found, name, file.whole(), site.whole())
    json_opinion = second_opinion.judge(file.whole())
    assert found < 4 or json_opinion == (found if found < 7 else 0), (name, json_opinion)
    if found == 0:
        agree(name, table, rules)
    out = ''.join(map(mudmeaning.text, table))
    assert lines is None or out == ''.join(lines), (name, out)
    seen[name] = (number, file.whole(), site.whole(), reply, work)
    noise = NOISE[len(data) % len(NOISE)]
    a, b = file.packed(), site.packed()
    head = struct.pack('>H', len(name.encode())) + a[0] + b[0] + struct.pack('>HHBB', reply, work, noise, 0)
    assert len(head) == 24
    data.append(head + name.encode() + a[1] + b[1])
    expected.append('%s\t%d\t%d\n%s' % (name, number, len(table), out))
    told.append((number, name, now))

# a case whose twin the gate runs: the same rule in the other direction, or in another place
def also(name, *how, **more):
    twins.add(len(data))
    case(name, *how, **more)

# the one or the other
def run_if(first):
    return case if first else also

# ## Files, as texts
URL = 'https://b.example/x'
FIELDS = {'mud-version': '1', 'mud-url': '"%s"' % URL, 'last-update': '""', 'is-supported': 'true'}

def members(fields):
    return ','.join('"%s":%s' % f for f in fields.items() if f[1] is not None)

# the header; a field given as None is left out
def head(**fields):
    return members(dict(FIELDS, **{k.replace('_', '-'): v for k, v in fields.items()}))
HEAD = head()

def policy(direction, names):
    return '"%s-device-policy":{"access-lists":{"access-list":[%s]}}' % (direction, ','.join('{"name":"%s"}' % n for n in names))

# an entry; `@` becomes its number in the list
def entry(matches=None, forwarding='accept', more=''):
    return '{"name":"@"%s,"actions":{"forwarding":"%s"}%s}' % ('' if matches is None else ',"matches":{%s}' % matches, forwarding, more)

def numbered(entries):
    return ','.join(e.replace('"name":"@"', '"name":"%d"' % i) for i, e in enumerate(entries))

def a_list(name, entries, kind='ipv4-acl-type'):
    return '{"name":"%s","type":"%s","aces":{"ace":[%s]}}' % (name, kind, numbered(entries))

def whole(policies='', lists=None, header=HEAD, more=''):
    acls = '' if lists is None else ',"ietf-access-control-list:acls":{"acl":[%s]}' % ','.join(lists)
    return '{"ietf-mud:mud":{%s%s}%s%s}' % (header, ',' + policies if policies else '', acls, more)

# entries from the device, and to it
def mud(out=None, to=None, **how):
    policies = ','.join(policy(d, [n]) for d, n, e in (('from', 'f', out), ('to', 't', to)) if e is not None)
    return whole(policies, [a_list(n, e) for n, e in (('f', out), ('t', to)) if e is not None], **how)

MIN = whole()
DROP = lambda m=None: entry(m, 'drop')
def ipv4(x): return '"ipv4":{%s}' % x
def tcp(x=''): return '"tcp":{%s}' % x
def udp(x=''): return '"udp":{%s}' % x
def of_mud(x): return '"ietf-mud:mud":{%s}' % x
def to_port(n): return '"destination-port":{"port":%d}' % n
def from_port(n): return '"source-port":{"port":%d}' % n
def ports(side, low, high): return '"%s-port":{"lower-port":%d,"upper-port":%d}' % (side, low, high)
def dst(net): return '"destination-ipv4-network":"%s"' % net
def src(net): return '"source-ipv4-network":"%s"' % net
def dns(name): return '"ietf-acldns:dst-dnsname":"%s"' % name
def src_dns(name): return '"ietf-acldns:src-dnsname":"%s"' % name
ECHO = udp(to_port(7))   # one port keeps tables short
def one(m, site='', **how): return mud([entry(m)], **how)
def class_line(name, net): return 'class\t%s\t%s\n' % (name, net)
def each(groups, f):
    for g in groups:
        f(*g)

# ## Document 01's own examples, their lines written out
CLOUD_SITE = 'class\turn:ietf:params:mud:dns\t192.0.2.53\nhost\tcloud.example.com\t198.51.100.8/31\n'
CLOUD = entry(ipv4(dns('cloud.example.com') + ',"protocol":6') + ',' + tcp(to_port(443) + ',"ietf-mud:direction-initiated":"from-device"'))
L1 = line('0-0 6-6 0-0 198.51.100.8-198.51.100.9 443-443 0-65535')
L2 = line('0-0 17-17 0-0 192.0.2.53-192.0.2.53 53-53 0-65535')
L3 = line('1-1 17-17 0-0 192.0.2.53-192.0.2.53 53-53 0-65535')
rule('The program: its example')
case('program', 0, mud([CLOUD]), CLOUD_SITE, [L1, L2, L3])
rule('"A from-device drop of UDP destination port 53 added to the program\'s file, with its site table: the table\'s line 2 goes"; before or after the other entry')
case('program, drop of port 53 after', 0, mud([CLOUD, DROP(udp(to_port(53)))]), CLOUD_SITE, [L1, L3])
case('program, drop of port 53 before', 0, mud([DROP(udp(to_port(53))), CLOUD]), CLOUD_SITE, [L1, L3])
rule('Easy ways: "Applying the defaults first, so no drop can take them away"; "reject counts as drop"')
case('program, reject of port 53', 0, mud([CLOUD, entry(udp(to_port(53)), 'reject')]), CLOUD_SITE, [L1, L3])
case('program, drop of all', 0, mud([CLOUD, DROP()]), CLOUD_SITE, [L1, L3])
case('program, drop of all first', 0, mud([DROP(), CLOUD]), CLOUD_SITE, [L3])
case('program, drop of all in both directions', 0, mud([CLOUD, DROP()], [DROP()]), CLOUD_SITE, [L1])
case('program, drop of source port 53, which is the device\'s', 0, mud([CLOUD, DROP(udp(from_port(53)))]), CLOUD_SITE, [
    L1, line('0-0 17-17 0-0 192.0.2.53-192.0.2.53 53-53 0-52'), line('0-0 17-17 0-0 192.0.2.53-192.0.2.53 53-53 54-65535'), L3])
rule('"A missing file counts as empty": what the program hands over then')
case('program, no file', 5, '', CLOUD_SITE)
case('program, no site table', 0, mud([CLOUD]), '', [])
case('program, neither', 5, '', '')

def five(d):
    return [line('%s %s' % (d, x)) for x in ('0-5 0-0 0.0.0.0-255.255.255.255 0-0 0-0', '6-6 0-1 0.0.0.0-255.255.255.255 0-65535 0-65535',
        '7-16 0-0 0.0.0.0-255.255.255.255 0-0 0-0', '17-17 0-0 0.0.0.0-255.255.255.255 0-65535 0-65535', '18-255 0-0 0.0.0.0-255.255.255.255 0-0 0-0')]
def udp_lines(*runs):
    return [line('0-0 17-17 0-0 0.0.0.0-255.255.255.255 %s 0-65535' % r) for r in runs]
rule('On both sides of the line: "No policies: 0 lines, all zeros"')
case('no policies', 0, MIN, '', [])
rule('"One entry without `matches`: five lines" ; "With the same entry to-device: five lines, direction 0-1"')
case('one entry without matches', 0, mud([entry()]), '', five('0-0'))
case('one entry without matches, to-device', 0, mud(None, [entry()]), '', five('1-1'))
case('one entry without matches, both', 0, mud([entry()], [entry()]), '', five('0-1'))
case('one entry with empty matches', 0, mud([entry('')]), '', five('0-0'))
case('one entry with empty matches, both', 0, mud([entry('')], [entry('')]), '', five('0-1'))
rule('"UDP destination ports 15000-35000 and 25000-55000: one line", "35001-55000: the same line", "35002-55000: two lines"')
def two_ranges(a, b, c, d): return mud([entry(udp(ports('destination', a, b))), entry(udp(ports('destination', c, d)))])
case('UDP 15000-35000 and 25000-55000', 0, two_ranges(15000, 35000, 25000, 55000), '', udp_lines('15000-55000'))
case('UDP 15000-35000 and 35001-55000', 0, two_ranges(15000, 35000, 35001, 55000), '', udp_lines('15000-55000'))
case('UDP 15000-35000 and 35002-55000', 0, two_ranges(15000, 35000, 35002, 55000), '', udp_lines('15000-35000', '35002-55000'))
case('UDP 25000-55000 and 15000-35000', 0, two_ranges(25000, 55000, 15000, 35000), '', udp_lines('15000-55000'))
case('UDP 15000-55000 and 25000-35000 inside', 0, two_ranges(15000, 55000, 25000, 35000), '', udp_lines('15000-55000'))
rule('"TCP to 10.0.0.0/30 port 80 and to 10.0.0.2/32 port 81: three lines"; Easy ways: removing covered entries in pairs only')
NET30 = [line('0-0 6-6 0-1 %s 0-65535' % x) for x in ('10.0.0.0-10.0.0.1 80-80', '10.0.0.2-10.0.0.2 80-81', '10.0.0.3-10.0.0.3 80-80')]
def net_port(net, port): return entry(ipv4(dst(net)) + ',' + tcp(to_port(port)))
case('TCP to 10.0.0.0/30 port 80 and 10.0.0.2/32 port 81', 0, mud([net_port('10.0.0.0/30', 80), net_port('10.0.0.2/32', 81)]), '', NET30)
case('the same in the other order', 0, mud([net_port('10.0.0.2/32', 81), net_port('10.0.0.0/30', 80)]), '', NET30)
case('the same with the smaller network twice', 0, mud([net_port('10.0.0.2/32', 81), net_port('10.0.0.2/32', 80), net_port('10.0.0.0/30', 80)]), '', NET30)
rule('"`neq` 0: 1-65535", "`lte` 0: 0-0"; ports: "`operator` `eq`, `neq`, `lte`, `gte`. An absent operator is `eq`"')
def op(o, n): return mud([entry(udp('"destination-port":{"operator":"%s","port":%d}' % (o, n)))])
each([('neq', 0, ['1-65535']), ('lte', 0, ['0-0']), ('eq', 0, ['0-0']), ('gte', 0, ['0-65535']), ('neq', 65535, ['0-65534']), ('lte', 65535, ['0-65535']), ('eq', 65535, ['65535-65535']),
    ('gte', 65535, ['65535-65535']), ('neq', 53, ['0-52', '54-65535']), ('lte', 53, ['0-53']), ('gte', 53, ['53-65535']), ('eq', 53, ['53-53']), ('neq', 1, ['0-0', '2-65535']), ('gte', 1, ['1-65535']), ('lte', 65534, ['0-65534'])],
    lambda o, n, runs: case('%s %d' % (o, n), 0, op(o, n), '', udp_lines(*runs)))
case('no operator', 0, mud([entry(udp(to_port(53)))]), '', udp_lines('53-53'))
each([(0, 0), (0, 65535), (65535, 65535), (53, 53), (52, 53)], lambda a, b: case('lower-port %d, upper-port %d' % (a, b), 0, mud([entry(udp(ports('destination', a, b)))]), '', udp_lines('%d-%d' % (a, b))))
case('port after operator, names by escapes', 0, mud([entry(udp('"destination\\u002dport":{"op\\u0065rator":"n\\u0065q","p\\u006Frt":0}'))]), '', udp_lines('1-65535'))

def far(n): return ['10.0.%d.%d' % (2 * i // 256, 2 * i % 256) for i in range(n)]
rule('"One class of 64 addresses, no two adjacent, and 8 entries, one TCP port each, no two adjacent: 512 lines. 9 such ports: 576, refused 12"')
SITE64 = ''.join(class_line('c', a) for a in far(64))
def many(n, m=of_mud('"controller":"c"')): return [entry(m + ',' + tcp(to_port(1000 + 2 * i))) for i in range(n)]
case('512 lines', 0, mud(many(8)), SITE64, [line('0-0 6-6 0-1 %s-%s %d-%d 0-65535' % (a, a, 1000 + 2 * i, 1000 + 2 * i)) for a in far(64) for i in range(8)])
case('576 lines', 12, mud(many(9)), SITE64)
case('513 lines, by one entry more', 12, mud(many(8) + [entry(ECHO)]), SITE64)
case('513 lines, the last in the other direction', 12, mud(many(8), [entry(ECHO)]), SITE64)
SITE63 = ''.join(class_line('c', a) for a in far(63))
def apart(n): return [entry(ipv4('"protocol":%d' % p)) for p in (1, 3, 5, 8, 10, 12, 14)[:n]]
SITE_DNS = SITE63 + class_line('urn:ietf:params:mud:dns', '1.1.1.1')
case('504 lines and a default in two directions: 506', 0, mud(many(8)), SITE_DNS)
case('504 lines, a default in two directions and 6 protocols: 512', 0, mud(many(8) + apart(6)), SITE_DNS)
case('504 lines, a default in two directions and 7 protocols: 513', 12, mud(many(8) + apart(7)), SITE_DNS)
case('the same with the default dropped one way: 512', 0, mud(many(8) + apart(7) + [DROP()]), SITE_DNS)
case('512 lines, a drop behind takes none', 0, mud(many(8) + [DROP()]), SITE64)
case('576 lines but for a drop in front of a port', 0, mud([DROP(tcp(to_port(1000)))] + many(9)), SITE64)
rule('12 "the table has over 512 lines": about the table, not about entries or pieces on the way')
def touching(n): return [entry(of_mud('"controller":"c"') + ',' + tcp(to_port(1000 + i))) for i in range(n)]
case('576 pieces that join to 64 lines', 0, mud(touching(9)), SITE64, [line('0-0 6-6 0-1 %s-%s 1000-1008 0-65535' % (a, a)) for a in far(64)])
case('64 pieces of address that join to one line', 0, mud(many(1)), ''.join(class_line('c', '10.0.0.%d' % i) for i in range(64)), [line('0-0 6-6 0-1 10.0.0.0-10.0.0.63 1000-1000 0-65535')])
case('64 pieces of address in falling order', 0, mud(many(1)), ''.join(class_line('c', '10.0.0.%d' % i) for i in reversed(range(64))), [line('0-0 6-6 0-1 10.0.0.0-10.0.0.63 1000-1000 0-65535')])
rule('"No line is longer than 70 bytes", and there may be 512 of them')
SITE70 = ''.join(class_line('c', '200.%d.100.100/31' % (100 + 2 * i)) for i in range(64))
LONG_FROM = [entry(of_mud('"controller":"c"') + ',' + udp('%s,%s' % (to_port(10000 + 2 * i), ports('source', 10000, 65535)))) for i in range(8)]
LONG_TO = [entry(of_mud('"controller":"c"') + ',' + udp('%s,%s' % (from_port(10000 + 2 * i), ports('destination', 10000, 65535)))) for i in range(8)]
LONG = [line('0-1 17-17 0-0 200.%d.100.100-200.%d.100.101 %d-%d 10000-65535' % (100 + 2 * i, 100 + 2 * i, 10000 + 2 * j, 10000 + 2 * j)) for i in range(64) for j in range(8)]
assert len(LONG) == 512 and all(len(l) == 70 for l in LONG)
case('512 lines of 70 bytes', 0, mud(LONG_FROM, LONG_TO), SITE70, LONG)

rule('"64 entries pass; 65 give 11"; 11 "more than 64 entries read (a list named in both directions counts twice)"')
NONE = entry(of_mud('"controller":"n"'))
def count(n, *more): return [NONE] * n + list(more)
case('64 entries', 0, mud(count(64)), '', [])
case('65 entries', 11, mud(count(65)))
case('64 entries, the last one counts', 0, mud(count(63, entry(ECHO))), '', udp_lines('7-7'))
case('65 entries, the last a catch-all', 11, mud(count(64, entry())))
case('63 and 1 entries', 0, mud(count(63), count(1)))
case('64 and 1 entries', 11, mud(count(64), count(1)))
also('1 and 64 entries', 11, mud(count(1), count(64)))
case('0 and 64 entries', 0, mud(None, count(64)))
case('0 and 65 entries', 11, mud(None, count(65)))
case('32 and 32 entries', 0, mud(count(32), count(32)))
case('33 and 32 entries', 11, mud(count(33), count(32)))
case('a list of 32 entries named in both directions', 0, whole(policy('from', ['f']) + ',' + policy('to', ['f']), [a_list('f', count(32))]))
case('a list of 33 entries named in both directions', 11, whole(policy('from', ['f']) + ',' + policy('to', ['f']), [a_list('f', count(33))]))
case('two lists of 32', 0, whole(policy('from', ['f', 'g']), [a_list('f', count(32)), a_list('g', count(32))]))
case('lists of 32 and 33', 11, whole(policy('from', ['f', 'g']), [a_list('f', count(32)), a_list('g', count(33))]))
case('a list of 64, and one of 65 that nobody names', 0, whole(policy('from', ['f']), [a_list('f', count(64)), a_list('g', count(65))]))
case('a list of 64, and an IPv6 list of 65', 0, whole(policy('from', ['f', 'g']), [a_list('f', count(64)), a_list('g', count(65), 'ipv6-acl-type')]))
also('two IPv6 lists of 65', 0, whole(policy('from', ['f']) + ',' + policy('to', ['g']), [a_list('f', count(65), 'ipv6-acl-type'), a_list('g', count(65), 'ipv6-acl-type')]))
case('64 lists of one entry', 0, whole(policy('from', ['%d' % i for i in range(64)]), [a_list('%d' % i, [NONE]) for i in range(64)]))
case('65 lists of one entry', 11, whole(policy('from', ['%d' % i for i in range(65)]), [a_list('%d' % i, [NONE]) for i in range(65)]))
case('64 entries of one port each, and both defaults', 0, mud([entry(tcp(to_port(2 * i))) for i in range(64)]), 'class\turn:ietf:params:mud:ntp\t10.0.0.2\nclass\turn:ietf:params:mud:dns\t10.0.0.1\n',
    [line('0-0 6-6 0-1 0.0.0.0-255.255.255.255 %d-%d 0-65535' % (2 * i, 2 * i)) for i in range(64)] + [line('%d-%d 17-17 0-0 10.0.0.%d-10.0.0.%d %d-%d 0-65535' % (d, d, a, a, p, p)) for d in (0, 1) for a, p in ((1, 53), (2, 123))])
case('64 entries, drops and accepts by turns', 0, mud([(entry if i % 2 else DROP)(udp(ports('destination', 0, 100 * (i + 1) - 1))) for i in range(64)]), '',
    [line('0-0 17-17 0-0 0.0.0.0-255.255.255.255 %d-%d 0-65535' % (100 * i, 100 * i + 99)) for i in range(1, 64, 2)])
case('64 entries after a catch-all', 11, mud([entry()] + count(64)))
also('100 entries', 11, mud(count(100)))

# ## Number 1
rule('1 "reply buffer not 36,864 bytes, or a lent work buffer not of its fixed size" (16,290 words); all bytes of both zero')
for r in (0, 1, 70, 36792, 36863, 36865):
    case('reply of %d bytes' % r, 1, mud([CLOUD]), CLOUD_SITE, reply=r)
for w in (0, 1, 64, 16289, 16291):
    case('work buffer of %d words' % w, 1, mud([CLOUD]), CLOUD_SITE, work=w)
case('both of another size', 1, mud([CLOUD]), CLOUD_SITE, reply=36865, work=16291)
case('no buffers at all', 1, mud([CLOUD]), CLOUD_SITE, reply=0, work=0)
case('sizes exchanged', 1, mud([CLOUD]), CLOUD_SITE, reply=16290, work=4608)
case('reply of 36863 bytes, nothing to build', 1, MIN, reply=36863)
case('work buffer of 16289 words, nothing to build', 1, MIN, work=16289)

# ## Site table
rule('Site table: "Text, at most 8,192 bytes and 64 LF bytes", else 2')
def host_line(n, net='10.0.0.1', end='\n'): return 'host\t' + 'h' * n + '\t' + net + end
def lines_of(k, n): return Text('', host_line(n), k)
assert len(host_line(112)) == 127 and len(host_line(113)) == 128
case('site of 8192 bytes in 64 lines', 0, MIN, lines_of(64, 113))
case('site of 8193 bytes in 64 lines', 2, MIN, Text(host_line(114), host_line(113), 63))
case('site of 8193 bytes in 33 lines', 2, MIN, Text(host_line(255, '10.0.0.10'), host_line(234), 32, 'x'))
case('site of 64 short lines', 0, MIN, lines_of(64, 1))
case('site of 65 short lines', 2, MIN, lines_of(65, 1))
case('site of 65 LF alone', 2, MIN, Text('', '\n', 65))
case('site of 64 LF alone', 3, MIN, Text('', '\n', 64))
case('site of 8193 bytes without LF', 2, MIN, Text('', 'x', 8193))
case('site of 8192 bytes without LF', 3, MIN, Text('', 'x', 8192))
case('site of 8193 zeros', 2, MIN, Text('', b'\0', 8193))
case('site of 64 LF and a byte', 3, MIN, Text('', host_line(1), 64, 'x'))
case('site of 64 LF and a line without LF', 3, MIN, Text('', host_line(1), 64, host_line(1, end='')))
case('site of 65 LF, the first line malformed', 2, MIN, Text('x', host_line(1), 65))
case('site of 65535 bytes', 2, MIN, Text('', 'x', 65535))
case('site of 8192 bytes, the last line malformed', 3, MIN, Text('', host_line(113), 63, host_line(112, '10.0.0.01')))
case('64 lines, the last one names the network', 0, one(ipv4(dns('z')) + ',' + ECHO), Text('', host_line(1), 63, 'host\tz\t10.0.0.9\n'), [line('0-0 17-17 0-0 10.0.0.9-10.0.0.9 7-7 0-65535')])
case('64 lines, the last malformed', 3, one(ipv4(dns('z')) + ',' + ECHO), Text('', host_line(1), 63, 'host\tz\t10.0.0.256\n'))

def shown(low, high): return [line('0-0 17-17 0-0 %s-%s 7-7 0-65535' % (low, high))]
MATCH = {'host': lambda n: ipv4(dns(n)), 'class': lambda n: of_mud('"controller":"%s"' % n), 'mine': lambda n: of_mud('"my-controller":[null]'),
    'local': lambda n: of_mud('"local-networks":[null]'), 'thing': lambda n: of_mud('"model":"%s"' % n)}
# a file whose only entry names what a site line has
def asks(kind, name):
    name = name.replace('\\', '\\\\').replace('"', '\\"')
    return mud([entry(MATCH[kind](name) + ',' + ECHO)], header=head(mud_url='"%s"' % name) if kind == 'mine' else HEAD)
def site_case(label, kind, name, net, number=3, lines=None):
    run_if(kind in ('host', 'local') or kind == 'mine' and number == 0)('site: ' + label, number, asks(kind, name) if number == 0 else MIN, '%s\t%s\t%s\n' % (kind, name, net), lines)

rule('Site table: "A name is 1 to 255 bytes from 0x21 to 0x7E"')
for kind in ('host', 'class'):
    each([('of 1 byte', 'h'), ('of 255 bytes', 'h' * 255), ('!', '!'), ('~', '~'), ('all bytes 0x21 to 0x7E', ''.join(map(chr, range(0x21, 0x7F))))],
        lambda l, n: site_case('%s name %s' % (kind, l), kind, n, '10.0.0.1', 0, shown('10.0.0.1', '10.0.0.1')))
    each([('of no byte', ''), ('of 256 bytes', 'h' * 256), ('with a blank', 'a b'), ('of a blank', ' '), ('with 0x7F', 'a\x7f'), ('with 0x80', b'a\x80'), ('with 0x1F', 'a\x1f'), ('with 0xFF', b'\xff'),
        ('with NUL', 'a\0'), ('in UTF-8', '\u00fcber'), ('with CR', 'a\r'), ('with a blank in front', ' a'), ('with a blank after', 'a ')],
        lambda l, n: run_if(kind == 'host')('site: %s name %s' % (kind, l), 3, MIN, kind.encode() + b'\t' + (n if isinstance(n, bytes) else n.encode()) + b'\t10.0.0.1\n'))
rule('Site table: what suits its kind is stated for `mine`, `thing` and `local` only; `host` and `class` names are any such bytes')
for kind in ('host', 'class'):
    for n in ('-', '/', '"', '..', '.', 'a/b', 'a:b@c', URL, 'https://', '\\', '10.0.0.1', '*', 'host', 'EXAMPLE.com', 'xn--a', '\\u0061'):
        site_case('%s name %s' % (kind, n), kind, n, '10.0.0.1', 0, shown('10.0.0.1', '10.0.0.1'))
rule('A MUD URL "has at most 255 bytes from 0x21 to 0x7E, begins with the eight bytes `https://` and has a non-empty authority, which runs to the first `/`, `?`, `#` or the end"')
GOOD_URLS = ['https://a', 'https://a/', 'https://a?', 'https://a#', 'https://a?/#', 'https://@', 'https://:', 'https://"', 'https://%', 'https://a//b', 'https://[::1]/', 'https://u:p@a:8443/x?y#z', 'https://https://', 'https://-',
    'https://\\', 'https://a' + 'b' * 246, 'https://a/' + 'b' * 245, 'https://' + '~' * 247]
BAD_URLS = ['https://', 'https:///', 'https:///a', 'https://?', 'https://?a', 'https://#', 'https://#a', 'http://a', 'HTTPS://a', 'Https://a', 'https:/a', 'https:a', 'https//a', 'https', 'h', 'ttps://a', 'xhttps://a', 'ftp://a', 'a', '-',
    'https:\\\\a', '//a', 'https://a' + 'b' * 247, 'https:///' + 'b' * 246]
for kind in ('mine', 'thing'):
    for n in GOOD_URLS:
        site_case('%s name %s%s' % (kind, n[:60], ' ..(%d)' % len(n) if len(n) > 60 else ''), kind, n, '10.0.0.1', 0, shown('10.0.0.1', '10.0.0.1'))
    for n in BAD_URLS:
        site_case('%s name %s%s, no URL' % (kind, n[:60], ' ..(%d)' % len(n) if len(n) > 60 else ''), kind, n, '10.0.0.1')
    case('site: %s name with a blank' % kind, 3, MIN, '%s\thttps://a/b c\t10.0.0.1\n' % kind)
    case('site: %s name in UTF-8' % kind, 3, MIN, '%s\thttps://\u00fc\t10.0.0.1\n' % kind)
    case('site: %s name empty' % kind, 3, MIN, '%s\t\t10.0.0.1\n' % kind)
rule('Site table: "a `local` name other than `-`" is malformed')
site_case('local', 'local', '-', '10.0.0.1', 0, shown('10.0.0.1', '10.0.0.1'))
for n in ('--', '_', 'x', '', ' -', '- ', '\u2212', 'local', '*', '0', 'https://a'):
    case('site: local name <%s>' % n, 3, MIN, 'local\t%s\t10.0.0.1\n' % n)

rule('Site table: "A network is a dotted quad with or without `/0` to `/32`, no number written with extra zeros in front; without means /32. Host bits are cleared"')
GOOD_NETS = [('10.0.0.1', '10.0.0.1', '10.0.0.1'), ('10.0.0.1/32', '10.0.0.1', '10.0.0.1'), ('10.0.0.1/31', '10.0.0.0', '10.0.0.1'), ('10.0.0.1/30', '10.0.0.0', '10.0.0.3'), ('10.1.2.3/8', '10.0.0.0', '10.255.255.255'),
    ('10.1.2.3/9', '10.0.0.0', '10.127.255.255'), ('10.1.2.3/10', '10.0.0.0', '10.63.255.255'), ('10.129.2.3/9', '10.128.0.0', '10.255.255.255'), ('10.1.2.3/16', '10.1.0.0', '10.1.255.255'), ('10.1.2.3/24', '10.1.2.0', '10.1.2.255'),
    ('10.1.2.3/25', '10.1.2.0', '10.1.2.127'), ('10.1.2.3/17', '10.1.0.0', '10.1.127.255'), ('10.1.2.3/1', '0.0.0.0', '127.255.255.255'), ('200.1.2.3/1', '128.0.0.0', '255.255.255.255'), ('200.1.2.3/2', '192.0.0.0', '255.255.255.255'),
    ('200.1.2.3/0', '0.0.0.0', '255.255.255.255'), ('0.0.0.0/0', '0.0.0.0', '255.255.255.255'), ('255.255.255.255/0', '0.0.0.0', '255.255.255.255'), ('0.0.0.0', '0.0.0.0', '0.0.0.0'), ('0.0.0.0/32', '0.0.0.0', '0.0.0.0'),
    ('255.255.255.255', '255.255.255.255', '255.255.255.255'), ('255.255.255.255/32', '255.255.255.255', '255.255.255.255'), ('255.255.255.255/31', '255.255.255.254', '255.255.255.255'), ('255.255.255.255/4', '240.0.0.0', '255.255.255.255'),
    ('9.10.99.100/32', '9.10.99.100', '9.10.99.100'), ('100.100.100.255/29', '100.100.100.248', '100.100.100.255')]
BAD_NETS = ['', '/', '/8', '10.0.0.1/', '10.0.0.1/33', '10.0.0.1/99', '10.0.0.1/100', '10.0.0.1/00', '10.0.0.1/08', '10.0.0.1/032', '10.0.0.1/-1', '10.0.0.1/+8', '10.0.0.1/ 8', '10.0.0.1/8 ', ' 10.0.0.1/8', '10.0.0.1 /8', '10.0.0.1/8/8', '10.0.0.1//8',
    '10.0.0.1/256', '10.0.0.1/264', '10.0.0.1/4294967304', '10.0.0.1/18446744073709551624', '10.0.0.1/8a', '10.0.0.1/0x8', '10.0.0.1/8.', '10.0.0.1/255.0.0.0', '10.0.0', '10.0.0.', '10.0.0.1.', '10.0.0.1.1', '.10.0.0.1', '10..0.1', '10.0.0.1-10.0.0.2',
    '10.0.0.256', '256.0.0.1', '10.0.256.1', '10.256.0.1', '10.0.0.999', '10.0.0.1000', '266.0.0.1', '4294967306.0.0.1', '18446744073709551626.0.0.1', '010.0.0.1', '10.00.0.1', '10.0.0.01', '00.0.0.0', '10.0.0.001', '0x10.0.0.1', 'a.b.c.d', '10.0.0.a', '10,0,0,1', '10.0.0.1,',
    '-10.0.0.1', '+10.0.0.1', '10.0.0.-1', '167772161', '::1', '::ffff:10.0.0.1', '10.0.0/8', '10/8', 'localhost', '10.0.0.1\r', '10.0.0.1/8\r', '10.0.0.1\0', '10.0.0.1/8\0', '10.0.0.1\u00b2', '\u0661.0.0.1', '10.0.0.1#', '10 .0.0.1']
for n, low, high in GOOD_NETS:
    site_case('network %s' % n, 'host', 'h', n, 0, shown(low, high))
for n in BAD_NETS:
    site_case('network <%s>' % n.replace('\r', '(CR)').replace('\0', '(NUL)'), 'host', 'h', n)

rule('Site table: "It is empty, or each line is kind, tab, name, tab, network, LF"')
G = 'host\th\t10.0.0.1\n'
case('site: empty', 0, MIN, '')
case('site: one line', 0, asks('host', 'h'), G, shown('10.0.0.1', '10.0.0.1'))
case('site: five kinds', 0, asks('host', 'h'), G + 'class\tc\t10.0.0.2\nmine\thttps://a\t10.0.0.3\nlocal\t-\t10.0.0.4\nthing\thttps://a\t10.0.0.5\n', shown('10.0.0.1', '10.0.0.1'))
each([('the last LF missing', G[:-1]), ('the last LF missing in line 2', G + G[:-1]), ('LF alone', '\n'), ('two LF', '\n\n'), ('empty line in front', '\n' + G), ('empty line between', G + '\n' + G), ('empty line after', G + '\n'),
    ('CR LF', G.replace('\n', '\r\n')), ('CR for LF', G.replace('\n', '\r')), ('CR alone', '\r'), ('a blank', ' '), ('a blank and LF', ' \n'), ('a blank line after', G + ' \n'), ('a tab', '\t'), ('two tabs and LF', '\t\t\n'), ('a zero', '\0'), ('zeros after', G + '\0'),
    ('a comment', '# x\n' + G), ('a comment after', G[:-1] + ' # x\n'), ('byte order mark', '\ufeff' + G), ('blanks for tabs', G.replace('\t', ' ')), ('blank for the first tab', 'host h\t10.0.0.1\n'), ('blank for the second tab', 'host\th 10.0.0.1\n'),
    ('two tabs first', 'host\t\th\t10.0.0.1\n'), ('two tabs second', 'host\th\t\t10.0.0.1\n'), ('tab at the start', '\t' + G), ('tab at the end', 'host\th\t10.0.0.1\t\n'), ('a fourth part', 'host\th\t10.0.0.1\tx\n'), ('two networks', 'host\th\t10.0.0.1\t10.0.0.2\n'),
    ('no network', 'host\th\n'), ('no network, with its tab', 'host\th\t\n'), ('no name', 'host\t10.0.0.1\n'), ('kind alone', 'host\n'), ('kind and tab', 'host\t\n'), ('name and network exchanged', 'host\t10.0.0.1\th\n'), ('vertical tab', 'host\x0bh\x0b10.0.0.1\n'),
    ('LF in a line', 'host\n\th\t10.0.0.1\n'), ('two lines without LF between', G[:-1] + G), ('line 2 cut after its kind', G + 'host'), ('line 2 cut after its name', G + 'host\th'), ('line 2 cut after a tab', G + 'host\th\t'), ('line 2 malformed', G + 'x' + G + G)],
    lambda l, s: case('site: ' + l, 3, asks('host', 'h'), s))
rule('Site table: the five kinds')
for kind in ('', 'Host', 'HOST', 'hos', 'hosts', 'ost', 'h', 'name', 'dns', 'ip', 'classs', 'clas', 'Class', 'mines', 'min', 'my', 'locals', 'loca', 'local-networks', 'things', 'thin', 'model', 'manufacturer', ' host', 'host ', 'host\0', 'h\u00f6st', 'hostclass', 'controller'):
    for net in ('10.0.0.1',):
        case('site: kind <%s>' % kind.replace('\0', '(NUL)'), 3, MIN, '%s\thttps://a\t%s\n' % (kind, net))
rule('Site table: "Repeated lines are allowed"; the networks of a name are those of all its lines')
case('site: a line twice', 0, asks('host', 'h'), G + G, shown('10.0.0.1', '10.0.0.1'))
case('site: a line 64 times', 0, asks('host', 'h'), Text('', G, 64), shown('10.0.0.1', '10.0.0.1'))
case('site: networks that overlap', 0, asks('host', 'h'), 'host\th\t10.0.0.0/30\nhost\th\t10.0.0.2/31\nhost\th\t10.0.0.3\n', shown('10.0.0.0', '10.0.0.3'))
case('site: networks that touch', 0, asks('host', 'h'), 'host\th\t10.0.0.4/30\nhost\th\t10.0.0.0/30\n', shown('10.0.0.0', '10.0.0.7'))
case('site: networks one apart', 0, asks('host', 'h'), 'host\th\t10.0.0.5\nhost\th\t10.0.0.0/30\n', shown('10.0.0.0', '10.0.0.3') + shown('10.0.0.5', '10.0.0.5'))
case('site: the ends of the addresses', 0, asks('host', 'h'), 'host\th\t255.255.255.255\nhost\th\t0.0.0.0\n', shown('0.0.0.0', '0.0.0.0') + shown('255.255.255.255', '255.255.255.255'))
case('site: two halves of all', 0, asks('host', 'h'), 'host\th\t128.0.0.0/1\nhost\th\t0.0.0.0/1\n', shown('0.0.0.0', '255.255.255.255'))
case('site: one host among others', 0, asks('host', 'h'), 'host\tg\t10.0.0.0/8\nhost\th\t10.0.0.1\nhost\thh\t11.0.0.0/8\nclass\th\t12.0.0.0/8\n', shown('10.0.0.1', '10.0.0.1'))

rule('"Names, URLs and authorities are compared byte for byte"; Easy ways: "Taking a name nobody registered as any address"; a name without site lines stands for no address')
for n in ('cloud.example.co', 'cloud.example.comm', 'Cloud.example.com', 'CLOUD.EXAMPLE.COM', 'cloud.example.com.', 'loud.example.com', '', ' ', 'cloud', 'cloud.example.com\\u0000', 'cloud.example.com ', '*.example.com', 'cl\\u00f6ud.example.com', 'cloud\\nexample.com', 'x' * 255, 'x' * 256, 'x' * 3000,
        'cloud.example.com,cloud.example.com', '198.51.100.8', '-'):
    case('DNS name <%s> has no line' % (n if len(n) < 40 else 'x..(%d)' % len(n)), 0, one(ipv4(dns(n)) + ',' + ECHO), 'host\tcloud.example.com\t198.51.100.8/31\n', [])
    also('controller <%s> has no line' % (n if len(n) < 40 else 'x..(%d)' % len(n)), 0, one(of_mud('"controller":"%s"' % n) + ',' + ECHO), 'class\tcloud.example.com\t198.51.100.8/31\nlocal\t-\t10.0.0.0/8\n', [])
case('DNS name of 256 bytes whose first 255 have a line', 0, one(ipv4(dns('h' * 256)) + ',' + ECHO), host_line(255), [])
case('DNS name of 254 bytes, with one more there is a line', 0, one(ipv4(dns('h' * 254)) + ',' + ECHO), host_line(255), [])
case('DNS name of 255 bytes', 0, one(ipv4(dns('h' * 255)) + ',' + ECHO), host_line(255), shown('10.0.0.1', '10.0.0.1'))
case('DNS name of 255 bytes, all by escapes', 0, one(ipv4(dns('\\u0068' * 255)) + ',' + ECHO), host_line(255), shown('10.0.0.1', '10.0.0.1'))
for n in ('cloud\\u002eexample.com', 'cl\\u006Fud.example.com', '\\u0063loud.example.com', 'cloud.example.co\\u006d'):
    case('DNS name %s by escapes' % n, 0, one(ipv4(dns(n)) + ',' + ECHO), 'host\tcloud.example.com\t198.51.100.8/31\n', shown('198.51.100.8', '198.51.100.9'))
case('DNS name, nobody registered, drop before an accept', 0, mud([DROP(ipv4(dns('x'))), entry(ECHO)]), '', udp_lines('7-7'))
for m in ('"manufacturer":"x"', '"model":"x"', '"controller":"x"', '"same-manufacturer":[null]', '"local-networks":[null]', '"my-controller":[null]'):
    case('nobody registered: %s' % m.replace('"', ''), 0, one(of_mud(m)), '', [])
    also('nobody registered, to-device: %s' % m.replace('"', ''), 0, mud(None, [entry(of_mud(m))]), '', [])

# ## The file as JSON
rule('The file as JSON: "At most 32,768 bytes", else 4')
case('file of 32768 bytes, blanks after', 0, padded(mud([CLOUD]), 32768), CLOUD_SITE, [L1, L2, L3])
case('file of 32769 bytes, blanks after', 4, padded(mud([CLOUD]), 32769), CLOUD_SITE)
case('file of 32768 bytes, LF after', 0, padded(mud([CLOUD]), 32768, '\n'), CLOUD_SITE, [L1, L2, L3])
case('file of 32768 bytes, blanks in front', 0, Text('', ' ', 32768 - len(MIN), MIN), '', [])
case('file of 32769 bytes, blanks in front', 4, Text('', ' ', 32769 - len(MIN), MIN))
case('file of 32769 blanks', 4, Text('', ' ', 32769))
case('file of 32768 blanks', 5, Text('', ' ', 32768))
case('file of 32769 brackets', 4, Text('', '[', 32769))
case('file of 32768 brackets', 5, Text('', '[', 32768))
case('file of 32768 braces', 5, Text('', '{', 32768))
case('file of 32769 bytes 0xFF', 4, Text('', b'\xff', 32769))
case('file of 32768 bytes 0xFF', 5, Text('', b'\xff', 32768))
case('file of 65535 bytes', 4, padded(MIN, 65535))
def stuffed(front, block, back, length):
    return Text(MIN[:-1] + front, block, length - len(MIN) - len(front) - len(back), back + '}')
case('file of 32768 bytes, one long string', 0, stuffed(',"x":"', 'a', '"', 32768), '', [])
case('file of 32769 bytes, one long string', 4, stuffed(',"x":"', 'a', '"', 32769))
case('file of 32768 bytes, one long name', 0, stuffed(',"', 'a', '":0', 32768), '', [])
case('file of 32768 bytes, one long integer', 0, stuffed(',"x":', '9', '', 32768), '', [])
case('file of 32768 bytes, one long fraction', 0, stuffed(',"x":-0.', '0', 'e-1', 32768), '', [])
case('file of 32768 bytes, one long exponent', 0, stuffed(',"x":1E+', '9', '', 32768), '', [])
case('file of 32768 bytes, string not ended', 5, stuffed(',"x":"', 'a', '', 32768))
case('ignored array of 15000 numbers', 0, Text(MIN[:-1] + ',"x":[0', ',0', 15000, ']}'), '', [])
case('ignored array of 10000 empty objects', 0, Text(MIN[:-1] + ',"x":[{}', ',{}', 10000, ']}'), '', [])
case('ignored array of 15000 numbers, comma at the end', 5, Text(MIN[:-1] + ',"x":[0', ',0', 15000, ',]}'))
case('ignored string of 5000 escapes', 0, Text(MIN[:-1] + ',"x":"', '\\u0041', 5000, '"}'), '', [])
case('ignored string of 2500 pairs of surrogates', 0, Text(MIN[:-1] + ',"x":"', '\\ud83d\\ude00', 2500, '"}'), '', [])
case('ignored string of 2500 pairs and a lone one', 6, Text(MIN[:-1] + ',"x":"', '\\ud83d\\ude00', 2500, '\\ud83d"}'))
NAMES = ','.join('"%x":0' % i for i in range(3300))
case('3300 names, all different', 0, MIN[:-1] + ',"y":{' + NAMES + '}}', '', [])
case('3300 names, the last as the first', 6, MIN[:-1] + ',"y":{' + NAMES + ',"0":0}}')
case('3300 names, the last as the one before', 6, MIN[:-1] + ',"y":{' + NAMES + ',"%x":0}}' % 3299)
case('3300 names, the last as one in the middle, by escapes', 6, MIN[:-1] + ',"y":{' + NAMES + ',"\\u0034\\u0064\\u0032":0}}')
FALLING = ','.join('"%04x":0' % i for i in reversed(range(1500)))
case('1500 names in falling order', 0, MIN[:-1] + ',"y":{' + FALLING + '}}', '', [])
case('1500 names in falling order, the first again', 6, MIN[:-1] + ',"y":{' + FALLING + ',"%04x":0}}' % 1499)

rule('"well-formed UTF-8", else 5')
def ignored(value): return MIN[:-1].encode() + b',"x":' + (value if isinstance(value, bytes) else value.encode()) + b'}'
def in_string(b): return ignored(b'"' + b + b'"')
each([('U+0080', b'\xc2\x80'), ('U+07FF', b'\xdf\xbf'), ('U+0800', b'\xe0\xa0\x80'), ('U+D7FF', b'\xed\x9f\xbf'), ('U+E000', b'\xee\x80\x80'), ('U+FFFD', b'\xef\xbf\xbd'), ('U+FFFE', b'\xef\xbf\xbe'), ('U+FFFF', b'\xef\xbf\xbf'), ('U+FEFF', b'\xef\xbb\xbf'),
    ('U+10000', b'\xf0\x90\x80\x80'), ('U+10FFFF', b'\xf4\x8f\xbf\xbf'), ('U+1F600', b'\xf0\x9f\x98\x80'), ('U+2028', b'\xe2\x80\xa8'), ('0x7F', b'\x7f'), ('U+FDD0', b'\xef\xb7\x90'), ('a blank', b' ')],
    lambda l, b: case('string with %s' % l, 0, in_string(b), '', []))
each([('0x80 alone', b'\x80'), ('0xBF alone', b'\xbf'), ('0xC0 0x80, overlong', b'\xc0\x80'), ('0xC1 0xBF, overlong', b'\xc1\xbf'), ('0xE0 0x9F 0xBF, overlong', b'\xe0\x9f\xbf'), ('0xF0 0x8F 0xBF 0xBF, overlong', b'\xf0\x8f\xbf\xbf'),
    ('0xED 0xA0 0x80, a surrogate', b'\xed\xa0\x80'), ('0xED 0xBF 0xBF, a surrogate', b'\xed\xbf\xbf'), ('a raw pair of surrogates', b'\xed\xa0\xbd\xed\xb8\x80'), ('0xF4 0x90 0x80 0x80, above U+10FFFF', b'\xf4\x90\x80\x80'), ('0xF5', b'\xf5\x80\x80\x80'), ('0xF8', b'\xf8\x88\x80\x80\x80'), ('0xFE', b'\xfe'), ('0xFF', b'\xff'),
    ('0xC3 cut', b'\xc3'), ('0xE2 0x82 cut', b'\xe2\x82'), ('0xE2 cut', b'\xe2'), ('0xF0 0x9F 0x98 cut', b'\xf0\x9f\x98'), ('0xC3 0x28', b'\xc3\x28'), ('0xE2 0x28 0xA1', b'\xe2\x28\xa1'), ('0xE2 0x82 0x41', b'\xe2\x82\x41'), ('latin-1', b'\xfcber'), ('0xC3 0xC3 0xBC', b'\xc3\xc3\xbc')],
    lambda l, b: (case('string with %s' % l, 5, in_string(b)), also('name with %s' % l, 5, MIN[:-1].encode() + b',"' + b + b'":0}')))
case('file cut in a sequence', 5, MIN.encode() + b'\xc3')
case('file with 0xFF after', 5, MIN.encode() + b'\xff')
case('file in UTF-16, big end first', 5, MIN.encode('utf-16-be'))
case('file in UTF-16, little end first', 5, MIN.encode('utf-16-le'))
case('file in UTF-16 with its mark', 5, b'\xff\xfe' + MIN.encode('utf-16-le'))
case('file in UTF-32', 5, MIN.encode('utf-32-le'))
rule('"no byte order mark": 5 at the start, and no white space elsewhere; in a string it is a character')
case('byte order mark in front', 5, b'\xef\xbb\xbf' + MIN.encode())
case('byte order mark after', 5, MIN.encode() + b'\xef\xbb\xbf')
case('byte order mark after a blank', 5, b' \xef\xbb\xbf' + MIN.encode())
case('byte order mark between members', 5, MIN[:-1].encode() + b',\xef\xbb\xbf"x":0}')
case('byte order mark alone', 5, b'\xef\xbb\xbf')
case('byte order mark cut', 5, b'\xef\xbb' + MIN.encode())
case('byte order mark by an escape', 0, in_string(b'\\ufeff'), '', [])

rule('"By RFC 8259": white space is four bytes; an empty file, or one of white space, is no JSON')
case('empty file', 5, '')
for l, c in (('blank', ' '), ('tab', '\t'), ('LF', '\n'), ('CR', '\r'), ('blank, LF, CR, tab', ' \n\r\t')):
    case('file of a %s' % l, 5, c)
    case('a %s in front and after' % l, 0, c + MIN + c, '', [])
SPACED = '\r\n\t '.join(json.dumps(json.loads(mud([CLOUD])), indent=1, separators=(' ,', ' : ')).split(' '))
case('white space between all tokens', 0, SPACED.replace('"accept\r\n\t "', '"accept"'), CLOUD_SITE, [L1, L2, L3])
case('indented', 0, json.dumps(json.loads(mud([CLOUD])), indent=4) + '\n', CLOUD_SITE, [L1, L2, L3])
for l, c in (('vertical tab', '\x0b'), ('form feed', '\x0c'), ('NUL', '\0'), ('U+00A0', '\xa0'), ('U+0085', '\x85'), ('U+2028', '\u2028'), ('U+3000', '\u3000'), ('0x1F', '\x1f'), ('0x7F', '\x7f'), ('backspace', '\b')):
    also('%s as white space in front' % l, 5, c + MIN)
    case('%s as white space after' % l, 5, MIN + c)
    also('%s as white space between' % l, 5, MIN.replace(':1,', ':' + c + '1,'))
rule('RFC 8259, strings: control bytes below 0x20 by escapes only; the escapes')
for c in list(range(0x20)):
    run_if(c in (0, 1, 8, 9, 10, 13, 31))('raw 0x%02X in a string' % c, 5, in_string(bytes([c])))
each([('all short escapes', b'\\"\\\\\\/\\b\\f\\n\\r\\t'), ('NUL by an escape', b'\\u0000'), ('hexadecimal in both cases', b'\\u00aF\\u00Af'), ('U+FFFF by an escape', b'\\uffff'), ('a backslash before u', b'\\\\u12'), ('two backslashes before a quote', b'\\\\\\"'), ('a solidus', b'/')],
    lambda l, b: case('string with %s' % l, 0, in_string(b), '', []))
each([('an escape x', b'\\x41'), ('an escape 0', b'\\0'), ('an escape of an apostrophe', b"\\'"), ('an escape a', b'\\a'), ('an escape v', b'\\v'), ('an escape e', b'\\e'), ('an escape U', b'\\U0041'), ('an escape N', b'\\N'), ('an escape of a blank', b'\\ '), ('an escape of LF', b'\\\n'), ('an escape of NUL', b'\\\0'),
    ('u and three digits', b'\\u123'), ('u and no digits', b'\\u'), ('u and a letter', b'\\u12g4'), ('u and a sign', b'\\u+123'), ('u and a blank', b'\\u 123'), ('u and braces', b'\\u{41}'), ('u and G', b'\\u00G0'), ('u and @', b'\\u00@0'), ('u and a grave accent', b'\\u00`0'), ('u and a solidus', b'\\u00/0'), ('u and a colon', b'\\u00:0'), ('u and Z', b'\\uZ000'), ('u and a bracket', b'\\u000['), ('u and z', b'\\u0z00'), ('a backslash at the end', b'\\'), ('three backslashes at the end', b'\\\\\\'), ('an escape in UTF-8', b'\\\xc3\xbc'), ('a pair, the second cut', b'\\ud83d\\ude0'), ('a pair, the second with a letter', b'\\ud83d\\uxe00')],
    lambda l, b: case('string with %s' % l, 5, in_string(b)))
rule('RFC 8259, numbers; "numbers of any size and form" where the rules ignore them')
for n in ('0', '-0', '1', '-1', '0.0', '-0.0', '0e0', '0E+00', '1.5', '1e5', '1E5', '1e+5', '1e-5', '1.5e-300', '1e400', '-1e400', '123456789012345678901234567890', '0.00000000000000000000001', '10', '9', '1.0E+2', '100e-0'):
    case('number %s' % n, 0, ignored(n), '', [])
for n in ('00', '01', '-01', '-', '+1', '+', '.5', '-.5', '1.', '1.e5', '1e', '1e+', '1e-', '1E', 'e5', '1e5.5', '1.5.5', '1,5', '1 5', '1_000', '0x10', '0b1', '1f', '1d', '--1', '- 1', 'NaN', 'nan', 'Infinity', '-Infinity', 'inf', '1e5e5', '1/2', '\uff11', '0-1', '0.-1', '1 .5', '\u221e', "1'000", '012', '0e', '1a'):
    run_if(len(n) < 4)('no number %s' % n, 5, ignored(n))
rule('RFC 8259, literals, arrays and objects')
for v in ('null', 'true', 'false', '[]', '{}', '[[]]', '[{}]', '{"":0}', '[null,true,false,0,"",[],{}]', '""', '[ ]', '{ }', '[0 , 1]', '{"a" : 0 , "b" : 1}', '"null"'):
    case('value %s' % v, 0, ignored(v), '', [])
for v in ('', 'nul', 'nulll', 'Null', 'NULL', 'tru', 'True', 'fals', 'False', 'undefined', 'none', 'n', 't', 'f', "'a'", 'a', '`a`', '"a', 'a"', '"a""b"', '[', ']', '[0', '[,]', '[0,]', '[,0]', '[0,,1]', '[0 1]', '[0;1]', '[0:1]', '(0)', '[0}', '{', '{"a"}', '{"a":}', '{"a":0', '{"a":0,}', '{,}', '{,"a":0}',
        '{"a":0,,"b":1}', '{"a":0 "b":1}', '{"a" 0}', '{"a"=0}', '{"a":0;"b":1}', '{a:0}', "{'a':0}", '{0:0}', '{null:0}', '{[]:0}', '{"a"::0}', '{"a":0]', '{"a":0}}', '[]]', '0 0', '{} {}', '[] []', '/* */0', '0//', '#0', '<!-- -->0', '0,', '...', '$', '\\u0030', '"\\', '[0,...]', '{"a":0,...}', 'truefalse', '[true false]', '{"a":true"b":0}', '"a"b'):
    run_if(len(v) % 2 == 0)('no value %s' % v, 5, ignored(v))
each([('a comma after', MIN + ','), ('a brace after', MIN + '}'), ('a bracket after', MIN + ']'), ('itself again', MIN + MIN), ('a quote after', MIN + '"'), ('a zero after', MIN + '0'), ('NUL after', MIN + '\0'), ('a comment after', MIN + '//'), ('a comment in front', '/**/' + MIN), ('a comma in front', ',' + MIN), ('the first brace missing', MIN[1:]), ('the last brace missing', MIN[:-1]),
    ('two braces missing', MIN[:-2]), ('in brackets not closed', '[' + MIN), ('record separator in front', '\x1e' + MIN), ('a length in front', '%d\n' % len(MIN) + MIN), ('a call around', 'f(' + MIN + ')'), ('LF and a second value', MIN + '\n' + MIN)], lambda l, t: case('file with %s' % l, 5, t))
rule('no proper beginning of an object is JSON')
SHORT = '{"ietf-mud:mud":{"mud-version":1,"mud-url":"https://a","last-update":"","is-supported":true},"x":[null,-1.5e3,"\\u00e9\\n"]}'
case('a file to be cut', 0, SHORT, '', [])
for i in range(1, len(SHORT)):
    run_if(i % 9 == 0)('the file cut to %d bytes' % i, 5, SHORT[:i])

rule('"nested at most 16 deep (the outermost is depth 1)": "Depth 16 passes, 17 gives 5"')
def nest(n, inner='', a='[', z=']'): return a * n + inner + z * n
def nested_objects(n, inner): return '{"a":' * n + inner + '}' * n
case('15 arrays in the outermost object', 0, ignored(nest(15)), '', [])
case('16 arrays in the outermost object', 5, ignored(nest(16)))
case('15 objects in the outermost object', 0, ignored(nested_objects(14, '{}')), '', [])
case('16 objects in the outermost object', 5, ignored(nested_objects(15, '{}')))
case('a number in the 15th array', 0, ignored(nest(15, '0')), '', [])
case('a string with brackets in the 15th array', 0, ignored(nest(15, '"[[[{{{"')), '', [])
case('an empty object in the 15th array', 5, ignored(nest(15, '{}')))
case('an empty array in the 15th object', 5, ignored(nested_objects(15, '[]')))
case('a number in the 15th object', 0, ignored(nested_objects(15, '0')), '', [])
case('arrays and objects by turns, 16 deep', 0, ignored('[{"a":' * 7 + '[]' + '}]' * 7), '', [])
case('arrays and objects by turns, 17 deep', 5, ignored('[{"a":' * 7 + '[[]]' + '}]' * 7))
case('depth 16 twice side by side', 0, ignored('[%s,%s]' % (nest(14), nest(14))), '', [])
case('depth 16, then 17 side by side', 5, ignored('[%s,%s]' % (nest(14), nest(15))))
case('1000 arrays deep', 5, ignored(nest(1000)))
case('16 arrays alone', 7, nest(16))
case('17 arrays alone', 5, nest(17))
case('16 objects alone', 7, nested_objects(15, '{}'))
case('17 objects alone', 5, nested_objects(16, '{}'))
case('17 arrays, not closed', 5, '[' * 17)
case('16 arrays, not closed', 5, '[' * 16)
case('depth 16 in a statistics member of an entry', 0, mud([entry(ECHO, more=',"statistics":' + nest(9))]), '', udp_lines('7-7'))
case('depth 17 in a statistics member of an entry', 5, mud([entry(ECHO, more=',"statistics":' + nest(10))]))
case('depth 16 in a member of matches', 9, mud([entry('"ttl":' + nest(8))]))
case('depth 17 in a member of matches', 5, mud([entry('"ttl":' + nest(9))]))
case('depth 16 in place of a port', 10, mud([entry(udp('"source-port":{"port":%s}' % nest(6)))]))
case('depth 17 in place of a port', 5, mud([entry(udp('"source-port":{"port":%s}' % nest(7)))]))
case('depth 16 in an IPv6 list', 0, whole(policy('from', ['f']), ['{"name":"f","type":"ipv6-acl-type","aces":%s}' % nest(12)]), '', [])
case('depth 17 in an IPv6 list', 5, whole(policy('from', ['f']), ['{"name":"f","type":"ipv6-acl-type","aces":%s}' % nest(13)]))

rule('"No object has two members of one name, compared after escapes are decoded", else 6; everywhere in the file')
LIST_OF = lambda more: whole(policy('from', ['f']), [a_list('f', [entry(ECHO)])] + more)
each([('in an ignored object', ignored('{"a":0,"a":0}')), ('with two values', ignored('{"a":0,"a":[]}')), ('in an object in an array', ignored('[0,{"a":0,"b":0,"a":1}]')), ('deep inside', ignored('[[{"b":[{"a":0,"a":0}]}]]')), ('the outermost members', whole(more=',"x":0,"x":0')),
    ('the file\'s own object', '{"ietf-mud:mud":{},' + MIN[1:]), ('acls', whole(more=',"ietf-access-control-list:acls":{},"ietf-access-control-list:acls":{}')), ('a header member', whole(header=HEAD + ',"mud-version":1')), ('a header member with another value', whole(header=HEAD + ',"mud-version":2')), ('a header member first wrong', whole(header='"mud-version":2,' + HEAD)),
    ('cache-validity', whole(header=HEAD + ',"cache-validity":1,"cache-validity":1')), ('an ignored header member', whole(header=HEAD + ',"systeminfo":"","systeminfo":""')), ('a policy', whole(policy('from', []) + ',' + policy('from', []))), ('access-lists', whole('"from-device-policy":{"access-lists":{},"access-lists":{}}')), ('a name in a policy', whole('"from-device-policy":{"access-lists":{"access-list":[{"name":"f","name":"f"}]}}', [a_list('f', [])])),
    ('in a list nobody names', LIST_OF(['{"name":"g","x":0,"x":0}'])), ('in an entry of a list nobody names', LIST_OF(['{"name":"g","aces":{"ace":[{"a":0,"a":0}]}}'])), ('in an IPv6 list', whole(policy('from', ['f']), ['{"name":"f","type":"ipv6-acl-type","aces":{"a":0,"a":0}}'])), ('an entry\'s name', mud(['{"name":"a","name":"b","actions":{"forwarding":"drop"}}'])),
    ('matches', mud(['{"name":"a","matches":{},"matches":{},"actions":{"forwarding":"drop"}}'])), ('in matches', mud([entry('"tcp":{},"tcp":{}')])), ('in matches, not listed', mud([entry('"ttl":1,"ttl":1')])), ('in tcp', mud([entry(tcp(to_port(1) + ',' + to_port(2)))])), ('in a port', mud([entry(tcp('"source-port":{"port":1,"port":1}'))])), ('in actions', mud(['{"name":"a","actions":{"forwarding":"drop","forwarding":"drop"}}'])),
    ('in statistics', mud([entry(ECHO, more=',"statistics":{"a":0,"a":0}')])), ('in an outermost array', '[{"a":0,"a":0}]'), ('in an outermost object of another kind', '{"a":0,"a":0}'), ('empty names', ignored('{"":0,"":0}')), ('by an escape', ignored('{"a":0,"\\u0061":0}')), ('by two spellings of an escape', ignored('{"\\u004a":0,"\\u004A":0}')), ('solidus by an escape', ignored('{"/":0,"\\/":0}')),
    ('tab by two escapes', ignored('{"\\t":0,"\\u0009":0}')), ('quote by two escapes', ignored('{"\\"":0,"\\u0022":0}')), ('NUL', ignored('{"\\u0000":0,"\\u0000":1}')), ('U+00E9 by an escape', ignored('{"\u00e9":0,"\\u00e9":0}')), ('U+20AC by an escape', ignored('{"\u20ac":0,"\\u20AC":0}')), ('U+1F600 by a pair', ignored('{"\U0001f600":0,"\\ud83d\\ude00":0}')), ('a pair in two spellings', ignored('{"\\ud83d\\ude00":0,"\\uD83D\\uDE00":0}')),
    ('the second of three', ignored('{"a":0,"b":0,"b":0}')), ('the first and third', ignored('{"a":0,"b":0,"a":0}')), ('long names', ignored('{"%s":0,"%s":1}' % ('x' * 400, 'x' * 400))), ('mud-url by an escape', whole(header=HEAD + ',"mud\\u002durl":"https://z"'))],
    lambda l, t: case('a name twice: %s' % l, 6, t))
each([('in two objects side by side', ignored('[{"a":0},{"a":0}]')), ('in an object and one inside', ignored('{"a":{"a":{"a":0}}}')), ('another case', ignored('{"a":0,"A":0}')), ('a NUL after', ignored('{"a":0,"a\\u0000":0}')), ('two NUL', ignored('{"\\u0000":0,"\\u0000\\u0000":0,"":0}')), ('a blank after', ignored('{"a":0,"a ":0}')), ('a beginning', ignored('{"ab":0,"a":0,"abc":0,"b":0}')), ('composed and decomposed', ignored('{"\u00e9":0,"e\u0301":0}')),
    ('an escape of a backslash', ignored('{"a":0,"\\\\u0061":0}')), ('values alike', ignored('{"a":"b","b":"a"}')), ('the name as a value', ignored('{"a":"a"}')), ('long names, the last byte different', ignored('{"%sa":0,"%sb":1}' % ('x' * 400, 'x' * 400))), ('U+00FF and bytes', ignored('{"\u00ff":0,"\u00c3\u00bf":0}')), ('digits', ignored('{"1":0,"01":0,"1.0":0}'))],
    lambda l, t: case('different names: %s' % l, 0, t, '', []))
rule('"A surrogate escape without its partner is refused": 6, in names and values')
each([('high alone', '\\ud800'), ('low alone', '\\udc00'), ('the last high', '\\udbff'), ('the last low', '\\udfff'), ('high, then a letter', '\\ud800a'), ('high, then LF by an escape', '\\ud800\\n'), ('high, then a backslash and letters', '\\ud800\\\\udc00'), ('high, then U+0041 by an escape', '\\ud800\\u0041'), ('high, high, low', '\\ud800\\ud800\\udc00'), ('high, low, low', '\\ud800\\udc00\\udc00'),
    ('low, high', '\\udc00\\ud800'), ('low, high, low', '\\udc00\\ud800\\udc00'), ('high, high', '\\ud800\\ud800'), ('low, low', '\\udc00\\udc00'), ('high, then U+E000', '\\ud800\\ue000'), ('high, then U+DBFF', '\\ud800\\udbff'), ('high, then raw U+10000', '\\ud800\U00010000'), ('high, then a raw character', '\\ud800\u00e9'), ('after text', 'abc\\uD83D'), ('high, then a quote by an escape', '\\ud800\\"'), ('in capitals', '\\uDABC'), ('high, blank, low', '\\ud800 \\udc00')],
    lambda l, t: (case('lone surrogate: %s' % l, 6, ignored('"%s"' % t)), run_if('alone' in l)('lone surrogate in a name: %s' % l, 6, ignored('{"%s":0}' % t))))
each([('the first pair', '\\ud800\\udc00'), ('the last pair', '\\udbff\\udfff'), ('in capitals', '\\uD83D\\uDE00'), ('mixed', '\\uD83d\\uDe00'), ('two pairs', '\\ud800\\udc00\\ud800\\udc00'), ('U+D7FF', '\\ud7ff'), ('U+E000', '\\ue000'), ('a backslash before', '\\\\ud800'), ('letters only', 'ud800'), ('a pair after a backslash', '\\\\\\ud83d\\ude00')],
    lambda l, t: case('no lone surrogate: %s' % l, 0, ignored('{"%s":"%s"}' % (t, t)), '', []))
each([('in an entry\'s name', mud(['{"name":"\\ud800","actions":{"forwarding":"drop"}}'])), ('in mud-url', whole(header=head(mud_url='"https://\\ud800"'))), ('in last-update', whole(header=head(last_update='"\\udfff"'))), ('in a DNS name', one(ipv4(dns('\\ud800')))), ('in an IPv6 list', whole(policy('from', ['f']), ['{"name":"f","type":"ipv6-acl-type","x":"\\ud800"}'])), ('in an outermost string', '"\\ud800"'), ('in an outermost array', '[["\\udc00"]]'), ('in the name of an unlisted member', one('"\\ud800":0'))],
    lambda l, t: case('lone surrogate %s' % l, 6, t))
rule('"Every string value, too, stands for its bytes after decoding", and names of members do')
ESCAPED = ''.join('\\u%04x' % ord(c) for c in 'ietf-mud:mud')
case('ietf-mud:mud by escapes', 0, MIN.replace('"ietf-mud:mud"', '"%s"' % ESCAPED), '', [])
case('every string of the program\'s file by escapes', 0, ''.join(json.dumps(p)[1:-1] if i % 2 == 0 else '"' + ''.join('\\u%04X' % ord(c) for c in p) + '"' for i, p in enumerate(mud([CLOUD]).split('"'))), CLOUD_SITE, [L1, L2, L3])
case('a solidus by an escape in a network', 0, one(ipv4('"destination-ipv4-network":"10.0.0.0\\/8"') + ',' + ECHO), '', shown('10.0.0.0', '10.255.255.255'))
case('tcp by an escape', 0, one('"t\\u0063p":{"destination-port":{"port":1}}'), '', [line('0-0 6-6 0-1 0.0.0.0-255.255.255.255 1-1 0-65535')])
case('a listed name with an escape that changes it', 9, one('"t\\u0063p\\u0000":{}'))
case('accept by escapes', 0, mud(['{"name":"a","matches":{%s},"actions":{"forwarding":"\\u0061ccept"}}' % ECHO]), '', udp_lines('7-7'))
case('accept with a NUL after', 10, mud(['{"name":"a","matches":{%s},"actions":{"forwarding":"accept\\u0000"}}' % ECHO]))

# ## Number 7
rule('"The outermost object has `ietf-mud:mud`, an object": 7; a scalar outermost is JSON')
for v in ('null', 'true', 'false', '0', '-1.5', '""', '"ietf-mud:mud"', '[]', '{}', '[{}]', '[%s]' % MIN, '{"x":%s}' % MIN, '{"ietf-mud:mud":null}', '{"ietf-mud:mud":[]}', '{"ietf-mud:mud":""}', '{"ietf-mud:mud":1}', '{"ietf-mud:mud":true}', '{"ietf-mud:mud":{}}', '{"ietf-mud:mud":[{%s}]}' % HEAD,
        '{"mud":{%s}}' % HEAD, '{"ietf-mud:Mud":{%s}}' % HEAD, '{"ietf-mud":{%s}}' % HEAD, '{"ietf-mud:mud ":{%s}}' % HEAD, '{"ietf-mud:mud\\u0000":{%s}}' % HEAD, '{"":{%s}}' % HEAD, '{%s}' % HEAD):
    case('outermost %s' % (v if len(v) < 60 else v[:60] + '..'), 7, v)
rule('"an object with `mud-version` (integer 1), `mud-url` (a MUD URL), `last-update` (a string) and `is-supported` (a boolean)": 7')
for f in FIELDS:
    fields = dict(FIELDS); del fields[f]
    case('header without %s' % f, 7, whole(header=members(fields)))
    case('header with %s beside ietf-mud:mud' % f, 7, whole(header=members(fields), more=',"%s":%s' % (f, FIELDS[f])))
    case('header with %s under a prefix' % f, 7, whole(header=members(dict(fields, **{'ietf-mud:' + f: FIELDS[f]}))))
    case('header with %s in another case' % f, 7, whole(header=members(dict(fields, **{f.upper(): FIELDS[f]}))))
    case('header with %s in an object inside' % f, 7, whole(header=members(dict(fields, x='{"%s":%s}' % (f, FIELDS[f])))))
    case('header with %s by an escape' % f, 0, whole(header=members(dict(fields, **{'\\u%04x' % ord(f[0]) + f[1:]: FIELDS[f]}))), '', [])
    for v in ('null', '[]', '{}', '[%s]' % FIELDS[f], '{"a":%s}' % FIELDS[f]) + (('true', 'false') if f != 'is-supported' else ()) + (('0', '2', '-1', '1.0') if f != 'mud-version' else ()) + (('"x"', '"1"') if f not in ('last-update',) else ()):
        case('%s %s' % (f, v), 7, whole(header=head(**{f: v})))
for v in ('0', '2', '10', '11', '-1', '1.0', '1e0', '1E0', '10e-1', '0.1', '01'[:0] + '100', '257', '65537', '4294967297', '18446744073709551617', '1' * 40, '"1"', '"1.0"', '-0', 'true'):
    if 'mud-version %s' % v not in seen:
        case('mud-version %s' % v, 7, whole(header=head(mud_version=v)))
case('header in another order', 0, whole(header=members(dict(reversed(list(FIELDS.items()))))), '', [])
for n in GOOD_URLS:
    case('mud-url %s%s' % (n[:60], ' ..(%d)' % len(n) if len(n) > 60 else ''), 0, whole(header=head(mud_url=json.dumps(n))), '', [])
for n in BAD_URLS + ['', ' https://a', 'https://a ', 'https://a b', 'https://\x7f', 'https://a\x00', 'https://a\n', 'https://\u00fc', 'https://a\u20ac', 'https://a\U0001f600']:
    case('mud-url <%s%s>, no URL' % (json.dumps(n)[1:61], ' ..(%d)' % len(n) if len(n) > 60 else ''), 7, whole(header=head(mud_url=json.dumps(n))))
case('mud-url of 255 bytes, all by escapes', 0, whole(header=head(mud_url='"%s"' % ''.join('\\u%04x' % ord(c) for c in 'https://a' + 'b' * 246))), '', [])
case('mud-url of 256 bytes, all by escapes', 7, whole(header=head(mud_url='"%s"' % ''.join('\\u%04x' % ord(c) for c in 'https://a' + 'b' * 247))))
case('mud-url with its solidus by escapes', 0, whole(header=head(mud_url='"https:\\/\\/a"')), '', [])
case('mud-url with U+0100', 7, whole(header=head(mud_url='"https://\u0100"')))
case('mud-url with U+0161, whose low byte is a letter', 7, whole(header=head(mud_url='"https://\\u0161"')))
case('mud-url of 256 bytes, authority of 248', 7, whole(header=head(mud_url='"https://%s"' % ('a' * 248))))
for v in ('""', '"x"', '"2018-03-02T11:20:51+01:00"', '"\\u0000"', '"\u00e9"', '"%s"' % ('9' * 5000), '"null"'):
    case('last-update %s' % (v if len(v) < 60 else '(long)'), 0, whole(header=head(last_update=v)), '', [])
for v in ('true', 'false'):
    case('is-supported %s' % v, 0, mud([CLOUD], header=head(is_supported=v)), CLOUD_SITE, [L1, L2, L3])
for v in ('"true"', '1', '0', '"yes"', '""'):
    if 'is-supported %s' % v not in seen:
        case('is-supported %s' % v, 7, whole(header=head(is_supported=v)))
rule('"`cache-validity`, if present, is an integer from 1 to 168"; "168 passes, 169 and 0 give 7"')
for v in ('1', '2', '48', '100', '167', '168'):
    case('cache-validity %s' % v, 0, whole(header=head(cache_validity=v)), '', [])
for v in ('0', '169', '170', '200', '255', '256', '257', '304', '1000', '65584', '4294967344', '18446744073709551664', '-0', '-1', '-48', '48.0', '4.8e1', '48e0', '0.5', '1.0', '168.0', '1e2', '"48"', '""', 'null', 'true', 'false', '[]', '[48]', '{}', '{"a":48}', '9' * 300):
    case('cache-validity %s' % (v if len(v) < 40 else '(300 digits)'), 7, whole(header=head(cache_validity=v)))
rule('"Other members are ignored everywhere", whatever they hold')
for v in ('null', '0', '"x"', '[1,[2]]', '{"a":{"b":0}}', 'true'):
    case('other members %s everywhere but in matches' % v, 0, '{"x":%s,"ietf-mud:mud":{"x":%s,%s,"extensions":%s,"systeminfo":%s,"from-device-policy":{"x":%s,"access-lists":{"x":%s,"access-list":[{"x":%s,"name":"f"}]}}},"ietf-access-control-list:acls":{"x":%s,"acl":[{"x":%s,"name":"f","type":"ipv4-acl-type","aces":{"x":%s,"ace":[{"x":%s,"name":"a","statistics":%s,"matches":{%s},"actions":{"x":%s,"forwarding":"accept","logging":%s}}]}}]}}'
        % (v, v, HEAD, v, v, v, v, v, v, v, v, v, v, ECHO, v, v), '', udp_lines('7-7'))
case('names of matches outside matches', 0, mud([entry(ECHO, more=',"tcp":{"x":0},"udp":0,"ipv4":[],"ttl":1,"ietf-mud:mud":{"x":0}')]), '', udp_lines('7-7'))
rule('"`tcp` beside `matches`, not in it" is a member of the entry that is ignored: the entry is wider than its author meant')
case('udp beside matches', 0, mud([entry(ipv4('"protocol":17'), more=',"udp":{"destination-port":{"port":7}}')]), '', udp_lines('0-65535'))

# ## Number 8
WRONG = ('null', 'true', 'false', '0', '"x"', '""')
rule('"Each is an object; in it `access-lists` (object), then `access-list` (array of objects with a string `name`, no name twice); either absent means none", else 8')
for d in ('from', 'to'):
    def pol(v): return whole('"%s-device-policy":%s' % (d, v), [a_list('f', [entry(ECHO)])])
    for v in WRONG + ('[]', '[{}]'):
        run_if(d == 'from')('%s-device-policy %s' % (d, v), 8, pol(v))
        run_if(d == 'from')('%s-device access-lists %s' % (d, v), 8, pol('{"access-lists":%s}' % v))
    for v in WRONG + ('{}', '{"name":"f"}'):
        run_if(d == 'from')('%s-device access-list %s' % (d, v), 8, pol('{"access-lists":{"access-list":%s}}' % v))
    for v in WRONG + ('[]', '{}', '"f"', '{"name":null}', '{"name":1}', '{"name":true}', '{"name":[]}', '{"name":["f"]}', '{"name":{}}', '{"Name":"f"}', '{"name ":"f"}', '[{"name":"f"}]'):
        run_if(d == 'from')('%s-device access-list element %s' % (d, v), 8, pol('{"access-lists":{"access-list":[%s]}}' % v))
        also('%s-device access-list element %s after a good one' % (d, v), 8, pol('{"access-lists":{"access-list":[{"name":"f"},%s]}}' % v))
    for v in ('{}', '{"x":0}', '{"access-lists":{}}', '{"access-lists":{"x":0}}', '{"access-lists":{"access-list":[]}}', '{"access-list":[{"name":"f"}]}', '{"ietf-mud:access-lists":0}'):
        run_if(d == 'from')('%s-device-policy %s' % (d, v), 0, pol(v), '', [])
    direction = '0-0' if d == 'from' else '1-1'
    ECHO_LINE = line('%s 17-17 0-0 0.0.0.0-255.255.255.255 %s' % (direction, '7-7 0-65535' if d == 'from' else '0-65535 7-7'))
    case('%s-device policy of one list' % d, 0, pol('{"access-lists":{"access-list":[{"name":"f"}]}}'), '', [ECHO_LINE])
    for l, ns in (('twice the same', '{"name":"f"},{"name":"f"}'), ('the same by an escape', '{"name":"f"},{"name":"\\u0066"}'), ('an unknown one', '{"name":"g"}'), ('an unknown one after', '{"name":"f"},{"name":"g"}'), ('an unknown one twice', '{"name":"g"},{"name":"g"}'), ('another case', '{"name":"F"}'), ('a blank after', '{"name":"f "}'), ('a NUL after', '{"name":"f\\u0000"}'), ('empty', '{"name":""}'), ('a longer one', '{"name":"ff"}')):
        run_if(d == 'from')('%s-device policy names %s' % (d, l), 8, pol('{"access-lists":{"access-list":[%s]}}' % ns))
    case('%s-device policy names a list by an escape' % d, 0, pol('{"access-lists":{"access-list":[{"name":"\\u0066"}]}}'), '', [ECHO_LINE])
    case('%s-device policy names an IPv6 list twice' % d, 8, whole(policy(d, ['f', 'f']), [a_list('f', [], 'ipv6-acl-type')]))
    case('%s-device policy, no acls' % d, 8, whole(policy(d, ['f'])))
    case('%s-device policy of nothing, no acls' % d, 0, whole(policy(d, [])), '', [])
case('the same list in both policies', 0, whole(policy('from', ['f']) + ',' + policy('to', ['f']), [a_list('f', [entry(ECHO)])]), '', [line('0-0 17-17 0-0 0.0.0.0-255.255.255.255 7-7 0-65535'), line('1-1 17-17 0-0 0.0.0.0-255.255.255.255 0-65535 7-7')])
case('policies beside ietf-mud:mud are ignored', 0, whole('', [a_list('f', [entry()])], more=',' + policy('from', ['g'])), '', [])
case('policies under a prefix are ignored', 0, whole('"ietf-mud:from-device-policy":0'), '', [])
rule('"In the outermost object `ietf-access-control-list:acls`, if present, is an object; its `acl`, if present, is an array of objects, each with a string `name`, all names different. Every named list exists", else 8')
def acls(v, policies=''): return whole(policies, more=',"ietf-access-control-list:acls":%s' % v)
for v in WRONG + ('[]', '[{}]'):
    case('acls %s' % v, 8, acls(v))
for v in WRONG + ('{}', '{"name":"f"}'):
    case('acl %s' % v, 8, acls('{"acl":%s}' % v))
for v in WRONG + ('[]', '{}', '{"name":null}', '{"name":0}', '{"name":["f"]}', '{"name":{}}', '{"Name":"f"}', '{"type":"ipv4-acl-type"}', '[{"name":"g"}]'):
    case('acl element %s' % v, 8, acls('{"acl":[%s]}' % v))
    also('acl element %s after a named one' % v, 8, acls('{"acl":[%s,%s]}' % (a_list('f', []), v), policy('from', ['f'])))
for v in ('{}', '{"x":0}', '{"acl":[]}', '{"ietf-access-control-list:acl":0}'):
    case('acls %s, no policies' % v, 0, acls(v), '', [])
    case('acls %s, a list named' % v, 8, acls(v, policy('from', ['f'])))
each([('twice', '{"name":"f"},{"name":"f"}'), ('twice by an escape', '{"name":"f"},{"name":"\\u0066"}'), ('empty twice', '{"name":""},{"name":""}'), ('the first and third', '{"name":"f"},{"name":"g"},{"name":"f"}')], lambda l, v: case('names of lists nobody names: %s' % l, 8, acls('{"acl":[%s]}' % v)))
case('names of lists: one IPv4 and one IPv6 alike', 8, whole(policy('from', ['f']), [a_list('f', []), a_list('f', [], 'ipv6-acl-type')]))
each([('without type', '{"name":"g"}'), ('of a wrong type', '{"name":"g","type":"x"}'), ('of type 4', '{"name":"g","type":4}'), ('with aces null', '{"name":"g","type":"ipv4-acl-type","aces":null}'), ('with ace 0', '{"name":"g","type":"ipv4-acl-type","aces":{"ace":0}}'), ('with entries without names', '{"name":"g","type":"ipv4-acl-type","aces":{"ace":[0,{},{"name":1}]}}'), ('with entries alike', '{"name":"g","type":"ipv4-acl-type","aces":{"ace":[{"name":"a"},{"name":"a"}]}}'),
    ('with ttl', a_list('g', [entry('"ttl":1')])), ('with a breach', a_list('g', [entry('"tcp":0')])), ('of the empty name', '{"name":""}'), ('of another case', '{"name":"F"}'), ('with a longer name', '{"name":"ff"}')],
    lambda l, v: (case('a list nobody names %s' % l, 0, LIST_OF([v]), '', udp_lines('7-7')), also('a list nobody names %s, in front' % l, 0, whole(policy('from', ['f']), [v, a_list('f', [entry(ECHO)])]), '', udp_lines('7-7'))))
case('acls in ietf-mud:mud', 8, whole(policy('from', ['f']) + ',"ietf-access-control-list:acls":{"acl":[%s]}' % a_list('f', [])))
case('acls without its prefix', 8, whole(policy('from', ['f']), more=',"acls":{"acl":[%s]}' % a_list('f', [])))
case('acls under another prefix', 8, whole(policy('from', ['f']), more=',"ietf-acl:acls":{"acl":[%s]}' % a_list('f', [])))
case('acls in front of ietf-mud:mud', 0, '{"ietf-access-control-list:acls":{"acl":[%s]},"ietf-mud:mud":{%s,%s}}' % (a_list('f', [entry(ECHO)]), HEAD, policy('from', ['f'])), '', udp_lines('7-7'))
case('policies in front of the header', 0, '{"ietf-mud:mud":{%s,%s},"ietf-access-control-list:acls":{"acl":[%s]}}' % (policy('from', ['f']), HEAD, a_list('f', [entry(ECHO)])), '', udp_lines('7-7'))
case('the empty name of a list', 0, whole(policy('from', ['']), [a_list('', [entry(ECHO)])]), '', udp_lines('7-7'))
case('a list\'s name in UTF-8 and by an escape', 0, whole(policy('from', ['\\u00e9\\ud83d\\ude00']), [a_list('\u00e9\U0001f600', [entry(ECHO)])]), '', udp_lines('7-7'))
case('a list\'s name composed and decomposed', 8, whole(policy('from', ['\u00e9']), [a_list('e\u0301', [entry(ECHO)])]))
case('a list\'s name with a NUL', 0, whole(policy('from', ['f\\u0000g']), [a_list('f\\u0000g', [entry(ECHO)]), a_list('f', [entry()])]), '', udp_lines('7-7'))
case('a list\'s name of 3000 bytes', 0, whole(policy('from', ['n' * 3000]), [a_list('n' * 3000, [entry(ECHO)])]), '', udp_lines('7-7'))
rule('"A named list has `type` `ipv4-acl-type` or `ipv6-acl-type`, without a module prefix", else 8')
def typed(t, d='from', more=''): return whole(policy(d, ['f']), ['{"name":"f"%s%s}' % ('' if t is None else ',"type":%s' % t, more)])
for t in (None, 'null', 'true', '4', '6', '[]', '{}', '["ipv4-acl-type"]', '""', '"ipv4"', '"ipv4-acl"', '"ipv4-acl-typ"', '"ipv4-acl-types"', '"IPV4-ACL-TYPE"', '"ipv5-acl-type"', '"acl:ipv4-acl-type"', '"ietf-access-control-list:ipv4-acl-type"', '"ietf-access-control-list:ipv6-acl-type"', '"eth-acl-type"', '"mixed-eth-ipv4-acl-type"', '"mixed-eth-ipv4-ipv6-acl-type"', '" ipv4-acl-type"', '"ipv4-acl-type "', '"ipv4-acl-type\\u0000"', '"ipv6-acl-type\\u0000"'):
    case('type %s' % t, 8, typed(t)); also('type %s, to-device' % t, 8, typed(t, 'to'))
for t in ('"ipv4-acl-type"', '"ipv6-acl-type"', '"ipv4\\u002dacl-type"', '"\\u0069pv6-acl-type"'):
    case('type %s' % t, 0, typed(t), '', [])
rule('"An IPv6 list adds nothing and is read no further"')
for v in WRONG + ('[]', '{"ace":0}', '{"ace":[0]}', '{"ace":[{}]}', '{"ace":[{"name":"a"},{"name":"a"}]}', '{"ace":[{"name":"a","matches":{"ttl":1}}]}', '{"ace":[{"name":"a","matches":0,"actions":0}]}', '{"ace":[{"name":"a","actions":{"forwarding":"accept"}}]}'):
    case('aces of an IPv6 list %s' % v, 0, typed('"ipv6-acl-type"', more=',"aces":%s' % v), '', [])
rule('"In an IPv4 list `aces` (object) and in it `ace` (array of objects, each with a string `name`, no name twice) may be absent: no entries", else 8')
def aces(v): return typed('"ipv4-acl-type"', more=',"aces":%s' % v)
for v in WRONG + ('[]', '[{}]'):
    case('aces %s' % v, 8, aces(v))
for v in WRONG + ('{}', '{"name":"a"}'):
    case('ace %s' % v, 8, aces('{"ace":%s}' % v))
A = '{"name":"a","actions":{"forwarding":"accept"}}'
for v in WRONG + ('[]', '{}', '{"actions":{"forwarding":"accept"}}', '{"name":null,"actions":{"forwarding":"accept"}}', '{"name":1,"actions":{"forwarding":"accept"}}', '{"name":["a"],"actions":{"forwarding":"accept"}}', '{"name":{},"actions":{"forwarding":"accept"}}', '{"Name":"b","actions":{"forwarding":"accept"}}'):
    case('ace element %s' % v, 8, aces('{"ace":[%s]}' % v)); also('ace element %s after a good one' % v, 8, aces('{"ace":[%s,%s]}' % (A, v)))
for v in ('{}', '{"x":0}', '{"ace":[]}'):
    case('aces %s' % v, 0, aces(v), '', [])
case('entry names alike', 8, aces('{"ace":[%s,%s]}' % (A, A)))
case('entry names alike by an escape', 8, aces('{"ace":[%s,%s]}' % (A, A.replace('"a"', '"\\u0061"'))))
case('entry names alike, first and third', 8, aces('{"ace":[%s,%s,%s]}' % (A, A.replace('"a"', '"b"'), A)))
case('entry names in another case', 0, aces('{"ace":[%s,%s]}' % (A, A.replace('"a"', '"A"'))), '', five('0-0'))
case('entry names empty and with a NUL', 0, aces('{"ace":[%s,%s]}' % (A.replace('"a"', '""'), A.replace('"a"', '"\\u0000"'))), '', five('0-0'))
case('entry names empty twice', 8, aces('{"ace":[%s,%s]}' % (A.replace('"a"', '""'), A.replace('"a"', '""'))))
case('entry names alike in two lists', 0, whole(policy('from', ['f', 'g']), ['{"name":"f","type":"ipv4-acl-type","aces":{"ace":[%s]}}' % A, '{"name":"g","type":"ipv4-acl-type","aces":{"ace":[%s]}}' % A]), '', five('0-0'))
case('an entry named as its list', 0, aces('{"ace":[%s]}' % A.replace('"a"', '"f"')), '', five('0-0'))
case('64 entries, the last named as the first', 8, mud(count(63, NONE.replace('"@"', '"0"'))))
also('65 entries, the last named as the first', 8, mud(count(64, NONE.replace('"@"', '"0"'))))

# ## Numbers 9 and 10
ACCEPT = '"actions":{"forwarding":"accept"}'
def both(label, number, m, site='', lines=None, first=True):
    run_if(first)(label, number, mud([entry(m)]), site, lines)
    if number:
        also(label + ', to-device', number, mud(None, [entry(m)]), site, lines)
rule('9 "a member not listed above, in `matches`"; Easy ways: "Ignoring an unknown match, such as `ttl`"')
for n in ('ttl', 'ipv6', 'icmp', 'eth', 'l3', 'l4', 'x', '', 'TCP', 'Udp', 'IPv4', 'ipv4 ', 'tcp\\u0000', 'mud', 'ietf-mud:Mud', 'ietf-mud', 'ietf-access-control-list:tcp', 'ietf-access-control-list:ipv4', 'ietf-mud:tcp', 'source-port', 'destination-port', 'protocol', 'port', 'lower-port', 'operator', 'manufacturer', 'controller', 'local-networks', 'my-controller',
        'source-ipv4-network', 'destination-ipv4-network', 'ietf-acldns:dst-dnsname', 'ietf-acldns:src-dnsname', 'ietf-mud:direction-initiated', 'matches', 'actions', 'name', 'egress-interface', 'tc', 'tcpp'):
    both('matches has %s' % (n or '(empty)'), 9, '"%s":{}' % n)
for v in ('null', '1', '"x"', '[]', '[{}]', 'true', '{"ttl":1}', '[null]'):
    both('matches has ttl %s' % v, 9, '"ttl":%s' % v)
case('matches has ttl beside all others', 9, one(of_mud('"controller":"c"') + ',' + ipv4('"protocol":17') + ',' + ECHO + ',"ttl":1'))
rule('9 "in an object that the list gives it": `ietf-mud:mud`, `ipv4`, `tcp`, `udp` and the port objects; listed means listed for that object')
UNLISTED = {
    'ietf-mud:mud': ('x', '', 'Manufacturer', 'ietf-mud:manufacturer', 'ietf-mud:local-networks', 'local-network', 'localnetworks', 'same_manufacturer', 'mycontroller', 'models', 'controllers', 'protocol', 'tcp', 'ipv4', 'direction-initiated', 'ietf-mud:mud', 'is-supported', 'mud-url', 'class', 'host'),
    'ipv4': ('x', '', 'ttl', 'dscp', 'ecn', 'length', 'ihl', 'flags', 'offset', 'identification', 'Protocol', 'protocols', 'src-dnsname', 'dst-dnsname', 'ietf-mud:src-dnsname', 'ietf-acldns:srcdnsname', 'ietf-acldns:dst-dnsname ', 'source-network', 'destination-network', 'source-ipv6-network', 'destination-ipv6-network', 'ietf-access-control-list:protocol', 'tcp', 'source-port', 'destination-port', 'controller', 'port', 'ietf-mud:direction-initiated'),
    'tcp': ('x', '', 'flags', 'sequence-number', 'window-size', 'options', 'direction-initiated', 'ietf-mud:Direction-initiated', 'ietf-mud:direction', 'protocol', 'port', 'lower-port', 'upper-port', 'operator', 'source-ports', 'Source-port', 'sourceport', 'source-port-range-or-operator', 'ietf-access-control-list:source-port', 'udp', 'ipv4', 'destination-ipv4-network'),
    'udp': ('x', '', 'length', 'ietf-mud:direction-initiated', 'direction-initiated', 'protocol', 'port', 'operator', 'lower-port', 'flags', 'destination-ports', 'tcp')}
for o, names in UNLISTED.items():
    for n in names:
        both('%s has %s' % (o, n or '(empty)'), 9, '"%s":{"%s":0}' % (o, n))
for t in ('tcp', 'udp'):
    for s in ('source-port', 'destination-port'):
        for n in ('x', '', 'range', 'ports', 'Port', 'lower', 'upper', 'lower_port', 'lower-ports', 'op', 'operators', 'ietf-access-control-list:port', 'source-port', 'protocol', 'neq', 'eq'):
            run_if((t, s) == ('tcp', 'source-port'))('%s %s has %s' % (t, s, n or '(empty)'), 9, one('"%s":{"%s":{"port":1,"%s":1}}' % (t, s, n)))
case('direction-initiated in udp, a good value', 9, one(udp('"ietf-mud:direction-initiated":"from-device"')))
case('a port object has nothing but an unlisted member', 9, one(udp('"source-port":{"x":0}')))
rule('"an object in place of a plain value is 10", also in place of `[null]` and inside an array')
for m in (ipv4('"protocol":{"x":1}'), ipv4('"protocol":{}'), ipv4('"destination-ipv4-network":{"x":1}'), ipv4('"ietf-acldns:dst-dnsname":{"x":1}'), of_mud('"manufacturer":{"x":1}'), of_mud('"model":{"x":1}'), of_mud('"controller":{"x":1}'), of_mud('"my-controller":{"x":1}'), of_mud('"local-networks":{"x":1}'), of_mud('"same-manufacturer":{}'),
        of_mud('"my-controller":[{"x":1}]'), tcp('"source-port":{"port":{"x":1}}'), tcp('"source-port":{"operator":{"x":1},"port":1}'), udp('"source-port":{"lower-port":{"x":1},"upper-port":2}'), udp('"source-port":{"lower-port":1,"upper-port":{"x":1}}'), tcp('"ietf-mud:direction-initiated":{"x":1}'), '"tcp":[{"x":1}]', '"udp":[{"x":1}]', '"ipv4":[{"x":1}]', '"ietf-mud:mud":[{"x":1}]', tcp('"source-port":[{"x":1}]'), udp('"destination-port":[{"x":1}]')):
    both('an object in place: %s' % m.replace('"', ''), 10, m)
rule('10: an array or plain value in place of an object for which members are listed; absent and null are different')
for v in ('null', 'true', 'false', '0', '6', '"x"', '""', '[]', '[null]', '[{}]'):
    for o in ('ietf-mud:mud', 'ipv4', 'tcp', 'udp'):
        case('%s %s' % (o, v), 10, one('"%s":%s' % (o, v)))
    for t in ('tcp', 'udp'):
        for s in ('source-port', 'destination-port'):
            run_if((t, s) in (('tcp', 'source-port'), ('udp', 'destination-port')))('%s %s %s' % (t, s, v), 10, one('"%s":{"%s":%s}' % (t, s, v)))
    case('matches %s' % v, 10, mud(['{"name":"a","matches":%s,%s}' % (v, ACCEPT)]))
    case('actions %s' % v, 10, mud(['{"name":"a","actions":%s}' % v]))
rule('"`actions` is an object with `forwarding`: `accept`, `drop` or `reject`", else 10; other members are ignored')
case('actions absent', 10, mud(['{"name":"a"}']))
case('actions absent, with matches', 10, mud(['{"name":"a","matches":{%s}}' % ECHO]))
for v in ('{}', '{"logging":"x"}', '{"Forwarding":"accept"}', '{"ietf-access-control-list:forwarding":"accept"}') + tuple('{"forwarding":%s}' % v for v in ('null', 'true', '0', '[]', '["accept"]', '{}', '{"accept":0}', '""', '"Accept"', '"ACCEPT"', '"accept "', '" accept"', '"accep"', '"accepts"', '"deny"', '"permit"', '"allow"', '"dropp"', '"Drop"', '"REJECT"', '"rejected"', '"ietf-access-control-list:accept"', '"ietf-access-control-list:drop"', '"acl:reject"', '"accept\\n"')):
    case('actions %s' % v, 10, mud(['{"name":"a","matches":{%s},"actions":%s}' % (ECHO, v)]))
case('actions with logging', 0, mud(['{"name":"a","matches":{%s},"actions":{"logging":"log-syslog","forwarding":"accept"}}' % ECHO]), '', udp_lines('7-7'))
case('actions in front of matches and name', 0, mud(['{"actions":{"forwarding":"accept"},"matches":{%s},"name":"a"}' % ECHO]), '', udp_lines('7-7'))
for f, ls in (('accept', udp_lines('7-7')), ('drop', []), ('reject', [])):
    case('forwarding %s' % f, 0, mud([entry(ECHO, f), entry(ECHO)]), '', ls)
rule('"`manufacturer`, `model`, `controller` (strings)", else 10')
for n in ('manufacturer', 'model', 'controller'):
    for v in ('null', 'true', '0', '[]', '[null]', '["x"]', '{}'):
        both('%s %s' % (n, v), 10, of_mud('"%s":%s' % (n, v)), first=n == 'controller' or len(v) > 4)
    for v in ('""', '"x"', '"a/b"', '"\\u0000"', '"\u00e9"', '"%s"' % ('x' * 300), '" "'):
        run_if(n == 'manufacturer' or v == '""')('%s %s names nobody' % (n, v if len(v) < 40 else '(300 bytes)'), 0, one(of_mud('"%s":%s' % (n, v))), 'thing\thttps://z\t10.0.0.1\nclass\tz\t10.0.0.2\n', [])
rule('"`same-manufacturer`, `local-networks`, `my-controller` (each `[null]`)", else 10')
PEERS = 'local\t-\t10.0.0.1\nmine\t%s\t10.0.0.1\nthing\t%s\t10.0.0.1\n' % (URL, URL)
for n in ('same-manufacturer', 'local-networks', 'my-controller'):
    for v in ('null', 'true', 'false', '0', '""', '"x"', '[]', '[null,null]', '[[null]]', '[0]', '[false]', '["null"]', '[""]', '[{}]', '[[]]', '{}', '"[null]"', '[null,0]'):
        both('%s %s' % (n, v), 10, of_mud('"%s":%s' % (n, v)), PEERS, first=n == 'my-controller' or len(v) < 5)
    for v in ('[null]', '[ null ]', '[\t\r\n null\n]'):
        case('%s %s' % (n, json.dumps(v)[1:-1]), 0, one(of_mud('"%s":%s' % (n, v)) + ',' + ECHO), PEERS, shown('10.0.0.1', '10.0.0.1'))
rule('"`protocol` (integer to 255)", else 10')
for v in ('256', '300', '65542', '4294967302', '18446744073709551622', '-0', '-1', '-6', '6.0', '6e0', '0.6e1', '1.5', '"6"', '"tcp"', '""', 'null', 'true', '[]', '[6]', '9' * 100):
    both('protocol %s' % (v if len(v) < 40 else '(100 digits)'), 10, ipv4('"protocol":%s' % v))
ALL = '0.0.0.0-255.255.255.255'
for p in (0, 1, 5, 7, 16, 18, 47, 254, 255):
    case('protocol %d' % p, 0, one(ipv4('"protocol":%d' % p)), '', [line('0-0 %d-%d 0-0 %s 0-0 0-0' % (p, p, ALL))])
ALL_TCP, ALL_UDP = line('0-0 6-6 0-1 %s 0-65535 0-65535' % ALL), line('0-0 17-17 0-0 %s 0-65535 0-65535' % ALL)
case('protocol 6', 0, one(ipv4('"protocol":6')), '', [ALL_TCP])
case('protocol 17', 0, one(ipv4('"protocol":17')), '', [ALL_UDP])
rule('"`tcp` means protocol 6 and `udp` 17; another `protocol` beside it is malformed"; empty objects limit nothing else')
case('tcp empty', 0, one(tcp()), '', [ALL_TCP])
case('udp empty', 0, one(udp()), '', [ALL_UDP])
case('ipv4 empty', 0, one(ipv4('')), '', five('0-0'))
case('ietf-mud:mud empty', 0, one(of_mud('')), '', five('0-0'))
case('all empty with tcp', 0, one(of_mud('') + ',' + ipv4('') + ',' + tcp()), '', [ALL_TCP])
case('tcp with protocol 6', 0, one(ipv4('"protocol":6') + ',' + tcp()), '', [ALL_TCP])
case('udp with protocol 17', 0, one(ipv4('"protocol":17') + ',' + udp()), '', [ALL_UDP])
for t, ps in (('tcp', ('17', '0', '1', '5', '7', '255', '256', '262', '"6"', '6.0', 'null', '[6]', '{}', '-6')), ('udp', ('6', '0', '16', '18', '255', '273', '"17"', '17.0', 'null'))):
    for p in ps:
        both('%s with protocol %s' % (t, p), 10, ipv4('"protocol":%s' % p) + ',"%s":{}' % t)
        also('%s with protocol %s, the other way round' % (t, p), 10, one('"%s":{},' % t + ipv4('"protocol":%s' % p)))
rule('"`tcp` or `udp`, not both": 10, but 9 if either has a member that is not listed')
both('tcp and udp', 10, tcp() + ',' + udp())
both('udp and tcp with ports', 10, udp(to_port(1)) + ',' + tcp(to_port(1)))
both('tcp and udp with protocol 6', 10, tcp() + ',' + udp() + ',' + ipv4('"protocol":6'))
both('tcp and udp, udp has x', 9, tcp() + ',' + udp('"x":0'))
both('tcp and udp, tcp has x', 9, tcp('"x":0') + ',' + udp())
both('tcp and udp, a port has x', 9, tcp() + ',' + udp('"source-port":{"x":0}'))
both('tcp and udp, udp has direction-initiated', 9, tcp() + ',' + udp('"ietf-mud:direction-initiated":"from-device"'))
case('tcp and udp null', 10, one('"tcp":{},"udp":null'))
rule('"in `tcp` also `ietf-mud:direction-initiated`, `from-device` (opener 0) or `to-device` (opener 1)", in both directions the same; else 10')
for d, frm, to in (('from-device', '0-0', '0-0'), ('to-device', '1-1', '1-1')):
    case('direction-initiated %s' % d, 0, mud([entry(tcp('"ietf-mud:direction-initiated":"%s"' % d))]), '', [line('0-0 6-6 %s %s 0-65535 0-65535' % (frm, ALL))])
    case('direction-initiated %s, to-device list' % d, 0, mud(None, [entry(tcp('"ietf-mud:direction-initiated":"%s"' % d))]), '', [line('1-1 6-6 %s %s 0-65535 0-65535' % (to, ALL))])
case('direction-initiated both, in two entries', 0, mud([entry(tcp('"ietf-mud:direction-initiated":"from-device"')), entry(tcp('"ietf-mud:direction-initiated":"to-device"'))]), '', [ALL_TCP])
case('direction-initiated to-device dropped, then all TCP', 0, mud([DROP(tcp('"ietf-mud:direction-initiated":"to-device"')), entry(tcp())]), '', [line('0-0 6-6 0-0 %s 0-65535 0-65535' % ALL)])
for v in ('null', 'true', '0', '[]', '["from-device"]', '""', '"from"', '"to"', '"device"', '"From-device"', '"from_device"', '"from-device "', '"both"', '"either"', '"ietf-mud:from-device"', '"from-device\\u0000"', '"from-devices"'):
    both('direction-initiated %s' % v, 10, tcp('"ietf-mud:direction-initiated":%s' % v))
rule('"A port object has `lower-port` and `upper-port`, low not above high, or `port` with `operator`"; "All ports are integers to 65535"; "The two forms do not stand together": 10')
BAD_PORTS = ['', '"lower-port":1', '"upper-port":1', '"operator":"eq"', '"operator":"range"', '"lower-port":2,"upper-port":1', '"lower-port":65535,"upper-port":0', '"lower-port":1,"upper-port":2,"port":1', '"lower-port":1,"port":1', '"upper-port":1,"port":1', '"lower-port":1,"upper-port":2,"operator":"eq"', '"lower-port":1,"upper-port":2,"operator":"range"', '"operator":"range","lower-port":1,"upper-port":2',
    '"lower-port":1,"upper-port":2,"operator":null', '"lower-port":1,"operator":"gte"', '"upper-port":1,"operator":"lte"', '"lower-port":1,"upper-port":2,"port":1,"operator":"eq"', '"lower-port":1,"upper-port":2,"port":null', '"port":1,"lower-port":null', '"port":1,"upper-port":null']
for v in ('65536', '70000', '100000', '65616', '4294967376', '18446744073709551696', '-1', '-0', '80.0', '8e1', '0.5', '"80"', '""', 'null', 'true', '[]', '[80]', '9' * 200):
    BAD_PORTS += ['"port":%s' % v, '"lower-port":%s,"upper-port":65535' % v, '"lower-port":0,"upper-port":%s' % v]
for v in ('"range"', '"EQ"', '"Eq"', '"="', '"=="', '"lt"', '"gt"', '"ne"', '"le"', '"ge"', '"eq "', '" eq"', '""', '"eqq"', '"neqq"', '"lte\\u0000"', '"ietf-access-control-list:eq"', 'null', 'true', '0', '[]', '["eq"]'):
    BAD_PORTS.append('"operator":%s,"port":1' % v)
for i, b in enumerate(BAD_PORTS):
    t, s = ('tcp', 'udp')[i % 2], ('source', 'destination')[i // 2 % 2]
    label = '%s %s-port {%s}' % (t, s, b.replace('"', '') if len(b) < 60 else '%s .. %d bytes' % (b.replace('"', '')[:20], len(b)))
    case(label if label not in seen else '%s-port {%s}, the text' % (s, b), 10, one('"%s":{"%s-port":{%s}}' % (t, s, b)))
rule('"In a from-device list the destination is the remote and the source the device; in a to-device list the reverse"; Easy ways: "Reading `source-port` as the device\'s in both directions"')
for t, n, o in (('tcp', 6, '0-1'), ('udp', 17, '0-0')):
    for side, d, r, q in (('source', 0, '0-65535', '9-9'), ('destination', 0, '9-9', '0-65535'), ('source', 1, '9-9', '0-65535'), ('destination', 1, '0-65535', '9-9')):
        e = [entry('"%s":{"%s-port":{"port":9}}' % (t, side))]
        case('%s %s-port %s the device' % (t, side, ('from', 'to')[d]), 0, mud(*((e, None) if d == 0 else (None, e))), '', [line('%d-%d %d-%d %s %s %s %s' % (d, d, n, n, o, ALL, r, q))])
    case('%s both ports' % t, 0, one('"%s":{"source-port":{"operator":"gte","port":1024},"destination-port":{"operator":"neq","port":80}}' % t), '',
        [line('0-0 %d-%d %s %s %s 1024-65535' % (n, n, o, ALL, x)) for x in ('0-79', '81-65535')])
    case('%s both ports, to-device' % t, 0, mud(None, [entry('"%s":{"source-port":{"operator":"gte","port":1024},"destination-port":{"operator":"neq","port":80}}' % t)]), '',
        [line('1-1 %d-%d %s %s 1024-65535 %s' % (n, n, o, ALL, x)) for x in ('0-79', '81-65535')])
rule('"A network or DNS name on the device\'s side is malformed": 10')
case('destination network from the device', 0, mud([entry(ipv4(dst('10.0.0.0/8')) + ',' + ECHO)]), '', shown('10.0.0.0', '10.255.255.255'))
case('source network to the device', 0, mud(None, [entry(ipv4(src('10.0.0.0/8')) + ',' + udp(from_port(7)))]), '', [line('1-1 17-17 0-0 10.0.0.0-10.255.255.255 7-7 0-65535')])
case('source network from the device', 10, mud([entry(ipv4(src('10.0.0.0/8')))]))
case('destination network to the device', 10, mud(None, [entry(ipv4(dst('10.0.0.0/8')))]))
case('both networks from the device', 10, mud([entry(ipv4(src('10.0.0.0/8') + ',' + dst('10.0.0.0/8')))]))
case('both networks to the device', 10, mud(None, [entry(ipv4(src('10.0.0.0/8') + ',' + dst('10.0.0.0/8')))]))
H = 'host\th\t10.0.0.1\n'
case('destination name from the device', 0, mud([entry(ipv4(dns('h')) + ',' + ECHO)]), H, shown('10.0.0.1', '10.0.0.1'))
case('source name to the device', 0, mud(None, [entry(ipv4(src_dns('h')) + ',' + udp(from_port(7)))]), H, [line('1-1 17-17 0-0 10.0.0.1-10.0.0.1 7-7 0-65535')])
case('source name from the device', 10, mud([entry(ipv4(src_dns('h')))]), H)
case('destination name to the device', 10, mud(None, [entry(ipv4(dns('h')))]), H)
case('source name from the device, nobody registered', 10, mud([entry(ipv4(src_dns('nobody')))]))
for v in ('null', '0', '""', '"x"', '{}', '[]'):
    case('source network from the device %s' % v, 10, mud([entry(ipv4('"source-ipv4-network":%s' % v))]))
    case('destination name to the device %s' % v, 10, mud(None, [entry(ipv4('"ietf-acldns:dst-dnsname":%s' % v))]))
    if v[0] != '"':
        case('destination name from the device %s' % v, 10, mud([entry(ipv4('"ietf-acldns:dst-dnsname":%s' % v))]))
        case('source name to the device %s' % v, 10, mud(None, [entry(ipv4('"ietf-acldns:src-dnsname":%s' % v))]))
BOTH = lambda m: whole(policy('from', ['f']) + ',' + policy('to', ['f']), [a_list('f', [entry(m)])])
for l, m in (('destination network', ipv4(dst('10.0.0.0/8'))), ('source network', ipv4(src('10.0.0.0/8'))), ('destination name', ipv4(dns('h'))), ('source name', ipv4(src_dns('h')))):
    case('a list named in both directions with a %s' % l, 10, BOTH(m), H)
case('a list named in both directions with a controller', 0, BOTH(of_mud('"controller":"c"') + ',' + udp(to_port(7))), class_line('c', '10.0.0.1'), [line('0-0 17-17 0-0 10.0.0.1-10.0.0.1 7-7 0-65535'), line('1-1 17-17 0-0 10.0.0.1-10.0.0.1 0-65535 7-7')])
rule('networks of entries: "(here `/n` is required)"; no number with extra zeros in front, "Host bits are cleared, in an entry\'s networks too"; else 10')
for n, low, high in GOOD_NETS:
    if '/' in n:
        case('destination-ipv4-network %s' % n, 0, one(ipv4(dst(n)) + ',' + ECHO), '', shown(low, high))
    else:
        case('destination-ipv4-network %s without /n' % n, 10, one(ipv4(dst(n))))
for i, n in enumerate(['255.255.255.255/32 ', '255.255.255.255/320', '255.255.255.255/32/', '0000.0.0.0/0', '10.0.0.1/8\n', '1' * 40, '10.0.0.0/8' + ' ' * 300] + BAD_NETS):
    name = '<%s>' % (json.dumps(n)[1:-1] if len(n) < 40 else n[:12] + '..')
    if i % 2 == 0:
        run_if(i < 40)('destination-ipv4-network %s' % name, 10, one(ipv4(dst(json.dumps(n)[1:-1]))))
    else:
        run_if(i < 40)('source-ipv4-network %s' % name, 10, mud(None, [entry(ipv4(src(json.dumps(n)[1:-1])))]))
for v in ('null', 'true', '0', '10.0', '[]', '["10.0.0.0/8"]', '{}'):
    case('destination-ipv4-network %s' % v, 10, one(ipv4('"destination-ipv4-network":%s' % v)))
rule('9 and 10 are about entries read: IPv6 lists and lists nobody names are not')
case('ttl in an IPv6 list', 0, whole(policy('from', ['f']), [a_list('f', [entry('"ttl":1')], 'ipv6-acl-type')]), '', [])
case('a breach in an IPv6 list', 0, whole(policy('from', ['f']), [a_list('f', [entry('"tcp":1')], 'ipv6-acl-type')]), '', [])
rule('entries that no flow reaches are read all the same')
case('ttl after a catch-all', 9, mud([entry(), entry('"ttl":1')]))
case('a breach after a catch-all', 10, mud([DROP(), entry('"tcp":1')]))
case('ttl in the 65th entry', 9, mud(count(64, entry('"ttl":1'))))
also('a breach in the 65th entry', 10, mud(count(64, entry('"tcp":1'))))
case('a breach in the 70th entry', 10, mud(count(69, entry(None, 'permit'))))
also('ttl in the 66th entry, the last to-device', 9, mud(count(33), count(32, entry('"ttl":1'))))
case('a breach for nobody\'s address', 10, one(of_mud('"controller":"n"') + ',' + tcp('"source-port":{}')))

# ## Order
rule('"The lowest number that holds is given; each is judged only when no lower one holds": breaches together')
def breached(s):
    site = ''.join(class_line('c', a) for a in far(63))
    if 3 in s: site += 'bad\n'
    if 2 in s: site += class_line('c', '1.1.1.1') * 2
    out = ([entry(None, 'permit')] if 10 in s else []) + many(9 if 12 in s else 1) + ([DROP()] * 64 if 11 in s else [])
    to = [NONE] + ([entry(of_mud('"controller":"n"') + ',"ttl":64')] if 9 in s else [])
    policies = policy('from', ['f']) + ',' + policy('to', ['t'] + (['none'] if 8 in s else []))
    t = whole(policies, [a_list('f', out), a_list('t', to)], header=head(mud_version='2') if 7 in s else HEAD, more=',"z":[{"y":0,"y":1}]' if 6 in s else '')
    if 5 in s: t += ']'
    return dict(file=padded(t, 32769) if 4 in s else t, site=site, reply=36863 if 1 in s else W)
case('no breach', 0, **breached(set()))
for i in range(1, 13):
    case('breach %d' % i, i, **breached({i}))
for i in range(1, 13):
    for j in range(i + 1, 13):
        case('breaches %d and %d' % (i, j), i, **breached({i, j}))
for i in range(1, 12):
    run_if(i in (1, 4, 9, 11))('breaches %d to 12' % i, i, **breached(set(range(i, 13))))
rule('9 over all entries of both directions before 10')
T, B = entry('"ttl":1'), entry('"tcp":1')
each([('10 first, 9 second', [B, T], None), ('9 first, 10 second', [T, B], None), ('10 from, 9 to', [B], [T]), ('9 from, 10 to', [T], [B]), ('10 first, 9 in the 60th of the other direction', [B], count(59, T)), ('9 in an entry without actions', ['{"name":"a","matches":{"ttl":1}}'], None), ('9 in an entry with actions null', ['{"name":"a","matches":{"ttl":1},"actions":null}'], None),
    ('9 beside a 10 in one object', [entry(ipv4('"protocol":256,"ttl":1'))], None), ('9 beside a 10 in matches', [entry('"tcp":1,"ttl":1')], None), ('9 in a port beside a 10', [entry(tcp('"source-port":{"port":70000,"x":0}'))], None), ('9 in a port beside the wrong form', [entry(tcp('"source-port":{"port":1,"lower-port":1,"x":0}'))], None), ('9 beside a device-side network', [entry(ipv4(src('10.0.0.0/8') + ',"x":0'))], None), ('9 in the second list', None, None)],
    lambda l, f, t: case('order: %s' % l, 9, mud(f, t) if f else whole(policy('from', ['f', 'g']), [a_list('f', [B]), a_list('g', [T])])))
case('order: 9 in a list named in both directions, 10 in one', 9, BOTH(ipv4(dst('10.0.0.0/8') + ',"x":0')))
rule('8 before 9 and 10, wherever it stands')
each([('an unknown list to-device, ttl from-device', whole(policy('from', ['f']) + ',' + policy('to', ['g']), [a_list('f', [T])])), ('an entry without name after ttl', mud([T, '{"actions":{"forwarding":"drop"}}'])), ('names alike after ttl', mud([T, NONE.replace('"@"', '"0"')])), ('a list\'s type after ttl', whole(policy('from', ['f', 'g']), [a_list('f', [T]), a_list('g', [], 'x')])), ('names of lists nobody names, with ttl', whole(policy('from', ['f']), [a_list('f', [T]), a_list('g', []), a_list('g', [])])),
    ('ace null to-device, a breach from-device', whole(policy('from', ['f']) + ',' + policy('to', ['g']), [a_list('f', [B]), '{"name":"g","type":"ipv4-acl-type","aces":{"ace":null}}'])), ('an entry that is no object after a breach', mud([B, '0']))], lambda l, t: case('order: %s' % l, 8, t))
rule('7 before 8; 6 before 7, over the whole file; 5 before 6, over the whole file')
case('order: header 7, policy 8', 7, whole('"from-device-policy":0', header=head(mud_version='2')))
case('order: header 7 after policy 8', 7, '{"ietf-access-control-list:acls":0,"ietf-mud:mud":{"from-device-policy":0,%s}}' % head(is_supported='1'))
case('order: outermost array with names twice', 6, '[{"a":0,"a":0}]')
case('order: header 7, a name twice in an ignored member', 6, whole(header=head(mud_version='2'), more=',"x":{"a":0,"a":0}'))
case('order: ttl, a name twice after it', 6, mud([T], more=',"x":{"a":0,"a":0}'))
case('order: a name twice, then a comma at the end', 5, '{"a":0,"a":0,}')
case('order: a name twice, then not ended', 5, '{"a":0,"a":0')
case('order: a name twice, then depth 17', 5, '{"a":0,"a":%s}' % nest(16))
case('order: a name twice, then not UTF-8', 5, b'{"a":0,"a":"\xff"}')
case('order: a name twice in the file, a byte after it', 5, whole(more=',"x":0,"x":0') + 'x')
case('order: a lone surrogate, then not UTF-8', 5, b'["\\ud800","\xff"]')
case('order: a lone surrogate, then a bad escape', 5, '["\\ud800\\x"]')
case('order: a lone surrogate not ended', 5, '["\\ud800')
case('order: not UTF-8 after the JSON text', 5, MIN.encode() + b' \x80')
rule('2 and 3 before 4 and 5')
case('order: site of 65 LF, file too long', 2, padded(MIN, 32769), lines_of(65, 1))
case('order: site malformed, file too long', 3, padded(MIN, 32769), 'x')
case('order: site malformed, no file', 3, '', 'x')
case('order: site of 8193 bytes, no file', 2, '', Text('', 'x', 8193))
case('order: file too long, not JSON', 4, Text('', '[', 40000))
case('order: reply of 0 bytes, site of 65 LF, file too long', 1, padded(MIN, 32769), lines_of(65, 1), reply=0)
case('order: no work buffer, no file', 1, '', '', work=0)
rule('11 before 12, and after 10')
case('order: 65 entries and 576 lines', 11, mud(many(9) + count(56)), SITE64)
case('order: 64 entries and 576 lines', 12, mud(many(9) + count(55)), SITE64)

# ## What a file lets through
rule('"Each limits the remote address to the site networks it names: `manufacturer` compares its string with the authority of each `thing`, `same-manufacturer` uses this file\'s authority, `model` the whole URL"')
THINGS = ''.join('thing\t%s\t10.0.0.%d\n' % (u, i) for i, u in enumerate(('https://a.example/x', 'https://a.example/y', 'https://a.example', 'https://a.example?x', 'https://b.example/x', 'https://b.example:8443/x', 'https://u@b.example/x', 'https://A.example/x', 'https://a.example.com/x', 'https://a.exampl/x', URL + '/', URL + '#')))
def meets(label, m, hosts, site=THINGS, header=HEAD):
    ls = []
    for h in hosts:
        ls += shown('10.0.0.%d' % h[0], '10.0.0.%d' % h[1])
    case(label, 0, mud([entry(m + ',' + ECHO)], header=header), site, ls)
each([('a.example', [(0, 3)]), ('b.example', [(4, 4), (10, 11)]), ('b.example:8443', [(5, 5)]), ('u@b.example', [(6, 6)]), ('A.example', [(7, 7)]), ('A.EXAMPLE', []), ('a.example.', []), ('a.exampl', [(9, 9)]), ('a.example/x', []), ('https://a.example', []), ('', []), ('.example', []), ('a.ex\\u0061mple', [(0, 3)])], lambda s, h: meets('manufacturer <%s>' % s, of_mud('"manufacturer":"%s"' % s), h))
each([('https://a.example/x', [(0, 0)]), ('https:\\/\\/a.example\\/x', [(0, 0)]), ('https://a.example', [(2, 2)]), ('https://a.example/', []), ('https://a.example?x', [(3, 3)]), ('https://A.example/x', [(7, 7)]), ('a.example', []), ('', []), (URL, [(4, 4)]), (URL + '#', [(11, 11)])], lambda s, h: meets('model <%s>' % s, of_mud('"model":"%s"' % s), h))
each([(URL, [(4, 4), (10, 11)]), ('https://a.example/z?q', [(0, 3)]), ('https://a.example', [(0, 3)]), ('https://b.example:8443/', [(5, 5)]), ('https://u@b.example', [(6, 6)]), ('https://c.example/x', []), ('https:\\/\\/a.example\\u002fz', [(0, 3)])], lambda u, h: meets('same-manufacturer, this file %s' % u, of_mud('"same-manufacturer":[null]'), h, header=head(mud_url='"%s"' % u)))
ENDS = ''.join('thing\t%s\t10.0.0.%d\n' % (u, i) for i, u in enumerate(('https://c.example#f', 'https://c.example?q', 'https://c.example/', 'https://c.example', 'https://c.example$x', 'https://c.example:', 'https://c.example\\x', 'https://c.example;x', 'https://c.example"', 'https://c.example>', 'https://c.example@', 'https://c.example.')))
each([('c.example', [(0, 3)]), ('c.example$x', [(4, 4)]), ('c.example:', [(5, 5)]), ('c.example\\\\x', [(6, 6)]), ('c.example;x', [(7, 7)]), ('c.example\\"', [(8, 8)]), ('c.example>', [(9, 9)]), ('c.example@', [(10, 10)]), ('c.example.', [(11, 11)]), ('c.example#f', []), ('c.example?q', []), ('c.example#', [])], lambda s, h: meets('where an authority ends: manufacturer <%s>' % s, of_mud('"manufacturer":"%s"' % s), h, ENDS))
each([('https://c.example#f', [(0, 3)]), ('https://c.example?q', [(0, 3)]), ('https://c.example/', [(0, 3)]), ('https://c.example', [(0, 3)]), ('https://c.example#?/', [(0, 3)]), ('https://c.example$x#', [(4, 4)]), ('https://c.example:?', [(5, 5)]), ('https://c.example;x', [(7, 7)]), ('https://c.example>/', [(9, 9)])], lambda u, h: meets('where an authority ends: this file %s' % u, of_mud('"same-manufacturer":[null]'), h, ENDS, head(mud_url='"%s"' % u)))
rule('`mine` "my-controller of that URL": only the file whose `mud-url` is the name; `local` for all files; a thing line of this very URL counts')
MINES = ''.join('mine\t%s\t10.0.0.%d\n' % (u, i) for i, u in enumerate((URL, URL + '/', 'https://b.example', 'https://B.example/x', URL)))
each([(URL, [(0, 0), (4, 4)]), (URL + '/', [(1, 1)]), ('https://b.example', [(2, 2)]), ('https://b.example/', []), ('https://b.example/X', []), ('https:\\/\\/b.example\\/x', [(0, 0), (4, 4)])], lambda u, h: meets('my-controller, this file %s' % u, of_mud('"my-controller":[null]'), h, MINES, head(mud_url='"%s"' % u)))
for u in (URL, 'https://z'):
    meets('local-networks, this file %s' % u, of_mud('"local-networks":[null]'), [(1, 1), (3, 3)], 'local\t-\t10.0.0.1\nlocal\t-\t10.0.0.3\nclass\t-\t10.0.0.5\nhost\t-\t10.0.0.6\n', head(mud_url='"%s"' % u))
meets('controller -', of_mud('"controller":"-"'), [(5, 5)], 'local\t-\t10.0.0.1\nclass\t-\t10.0.0.5\nhost\t-\t10.0.0.6\n')
meets('controller names no host, mine or thing', of_mud('"controller":"%s"' % URL), [(2, 2)], 'host\t%s\t10.0.0.1\nclass\t%s\t10.0.0.2\nmine\t%s\t10.0.0.3\nthing\t%s\t10.0.0.4\n' % (URL, URL, URL, URL))
meets('a DNS name is no class, mine or thing', ipv4(dns(URL)), [(1, 1)], 'host\t%s\t10.0.0.1\nclass\t%s\t10.0.0.2\nmine\t%s\t10.0.0.3\nthing\t%s\t10.0.0.4\n' % (URL, URL, URL, URL))
meets('a model is no host, class or mine', of_mud('"model":"%s"' % URL), [(4, 4)], 'host\t%s\t10.0.0.1\nclass\t%s\t10.0.0.2\nmine\t%s\t10.0.0.3\nthing\t%s\t10.0.0.4\n' % (URL, URL, URL, URL))
meets('my-controller is no host, class or thing', of_mud('"my-controller":[null]'), [(3, 3)], 'host\t%s\t10.0.0.1\nclass\t%s\t10.0.0.2\nmine\t%s\t10.0.0.3\nthing\t%s\t10.0.0.4\n' % (URL, URL, URL, URL))
rule('"All members given must hold together": intersections')
EVERY = ('class\tc\t10.0.0.0/28\nhost\th\t10.0.0.1\nhost\th\t10.0.0.3\nhost\th\t10.0.0.20\nlocal\t-\t10.0.0.2/31\nmine\t%s\t10.0.0.0/30\nthing\t%s\t10.0.0.3\nthing\thttps://b.example/y\t10.0.0.0/31\n' % (URL, URL))
each([('controller and name', of_mud('"controller":"c"') + ',' + ipv4(dns('h')), [(1, 1), (3, 3)]), ('controller and local', of_mud('"controller":"c","local-networks":[null]'), [(2, 3)]), ('network and name', ipv4(dns('h') + ',' + dst('10.0.0.0/29')), [(1, 1), (3, 3)]), ('network and local', of_mud('"local-networks":[null]') + ',' + ipv4(dst('10.0.0.0/30')), [(2, 3)]), ('network apart', of_mud('"local-networks":[null]') + ',' + ipv4(dst('10.0.0.0/31')), []),
    ('manufacturer and model', of_mud('"manufacturer":"b.example","model":"%s"' % URL), [(3, 3)]), ('same-manufacturer and my-controller', of_mud('"same-manufacturer":[null],"my-controller":[null]'), [(0, 1), (3, 3)]), ('all six', of_mud('"manufacturer":"b.example","model":"%s","controller":"c","same-manufacturer":[null],"local-networks":[null],"my-controller":[null]' % URL), [(3, 3)]),
    ('all six and a name and a network', of_mud('"manufacturer":"b.example","model":"%s","controller":"c","same-manufacturer":[null],"local-networks":[null],"my-controller":[null]' % URL) + ',' + ipv4(dns('h') + ',' + dst('10.0.0.0/8') + ',"protocol":17'), [(3, 3)]), ('all and nobody', of_mud('"controller":"c","manufacturer":"z"'), []), ('nobody and a network', ipv4(dns('z') + ',' + dst('0.0.0.0/0')), [])], lambda l, m, h: meets('together: %s' % l, m, h, EVERY))
rule('"The verdict is that of the first matching entry, lists in the order the policy names them"')
P7, P8, N7 = entry(udp(to_port(7))), entry(udp(to_port(8))), DROP(udp(to_port(7)))
def order(names, **lists): return whole(policy('from', names), [a_list(n, e) for n, e in lists.items()])
each([('accept, then drop', mud([P7, N7]), ['7-7']), ('drop, then accept', mud([N7, P7]), []), ('drop all, then accept', mud([DROP(), P7]), []), ('accept, then drop all', mud([P7, DROP()]), ['7-7']), ('two lists, the first accepts', order(['a', 'b'], a=[P7], b=[DROP()]), ['7-7']), ('two lists, the first drops', order(['a', 'b'], a=[DROP()], b=[P7]), []), ('two lists in the policy\'s order', order(['b', 'a'], a=[DROP()], b=[P7]), ['7-7']),
    ('two lists in the policy\'s order, a drop first', order(['b', 'a'], a=[P7], b=[N7, P8]), ['8-8']), ('an IPv6 list between changes nothing', whole(policy('from', ['a', 's', 'b']), [a_list('a', [P7]), a_list('s', [DROP()], 'ipv6-acl-type'), a_list('b', [P8])]), ['7-8']), ('an IPv6 list that accepts all adds nothing', whole(policy('from', ['s', 'a']), [a_list('s', [entry()], 'ipv6-acl-type'), a_list('a', [P7])]), ['7-7']), ('an empty list between', order(['a', 'b', 'd'], a=[P7], b=[], d=[P8]), ['7-8']),
    ('a list nobody names', order(['a'], a=[P7], b=[entry()]), ['7-7']), ('a drop list to-device does not touch from-device', mud([P7], [DROP()]), ['7-7']), ('three lists, the last one read', order(['a', 'b', 'd'], a=[P7], b=[DROP(udp(to_port(9)))], d=[entry(udp(ports('destination', 8, 10)))]), ['7-8', '10-10']), ('a drop that a name makes empty', mud([DROP(of_mud('"controller":"z"')), P7]), ['7-7'])],
    lambda l, t, runs: case('first match: %s' % l, 0, t, '', udp_lines(*runs)))
case('first match: a hole in a range', 0, mud([DROP(udp(ports('destination', 100, 199))), entry(udp(ports('destination', 50, 250)))]), '', udp_lines('50-99', '200-250'))
case('first match: a hole in the addresses', 0, mud([DROP(ipv4(dst('10.0.0.128/25'))), entry(ipv4(dst('10.0.0.0/23')) + ',' + ECHO)]), '', shown('10.0.0.0', '10.0.0.127') + shown('10.0.1.0', '10.0.1.255'))
case('first match: a hole in the device\'s ports', 0, mud([DROP(udp(ports('source', 0, 1023))), entry(ECHO)]), '', [line('0-0 17-17 0-0 %s 7-7 1024-65535' % ALL)])
case('first match: a drop of one protocol', 0, mud([DROP(ipv4('"protocol":1')), entry()]), '', [line('0-0 %s' % x) for x in ('0-0 0-0 %s 0-0 0-0' % ALL, '2-5 0-0 %s 0-0 0-0' % ALL, '6-6 0-1 %s 0-65535 0-65535' % ALL, '7-16 0-0 %s 0-0 0-0' % ALL, '17-17 0-0 %s 0-65535 0-65535' % ALL, '18-255 0-0 %s 0-0 0-0' % ALL)])
rule('"After them, in both directions: accept protocol 17 with remote port 53 for class `urn:ietf:params:mud:dns`, and 123 for `urn:ietf:params:mud:ntp`. Then drop"')
DNS, NTP = 'class\turn:ietf:params:mud:dns\t192.0.2.53\n', 'class\turn:ietf:params:mud:ntp\t192.0.2.123\n'
def default(d, a, p): return line('%s 17-17 0-0 %s-%s %d-%d 0-65535' % (d, a, a, p, p))
D53, D123 = default('0-1', '192.0.2.53', 53), default('0-1', '192.0.2.123', 123)
case('defaults: none', 0, MIN, 'class\tx\t10.0.0.0/8\n', [])
case('defaults: dns', 0, MIN, DNS, [D53])
case('defaults: ntp', 0, MIN, NTP, [D123])
case('defaults: both', 0, MIN, NTP + DNS, [D53, D123])
case('defaults: both at one address', 0, MIN, DNS + NTP.replace('.123', '.53'), [D53, default('0-1', '192.0.2.53', 123)])
case('defaults: three servers', 0, MIN, DNS + DNS.replace('.53', '.54') + DNS.replace('.53', '.60'), [line('0-1 17-17 0-0 192.0.2.53-192.0.2.54 53-53 0-65535'), default('0-1', '192.0.2.60', 53)])
case('defaults: all addresses', 0, MIN, DNS.replace('192.0.2.53', '0.0.0.0/0'), [line('0-1 17-17 0-0 %s 53-53 0-65535' % ALL)])
for l, s in (('a host line', DNS.replace('class', 'host')), ('another case', DNS.replace('urn', 'URN')), ('a longer name', DNS.replace(':dns', ':dnss')), ('a shorter name', DNS.replace(':dns', ':dn')), ('another urn', DNS.replace('mud', 'mudd')), ('dns', DNS.replace('urn:ietf:params:mud:', ''))):
    case('defaults: not by %s' % l, 0, MIN, s, [])
case('defaults: a controller entry adds to them', 0, mud([entry(of_mud('"controller":"urn:ietf:params:mud:dns"') + ',' + tcp(to_port(53)))]), DNS, [line('0-0 6-6 0-1 192.0.2.53-192.0.2.53 53-53 0-65535'), default('0-0', '192.0.2.53', 53), default('1-1', '192.0.2.53', 53)])
case('defaults: dropped from the device', 0, mud([DROP()]), DNS + NTP, [default('1-1', '192.0.2.53', 53), default('1-1', '192.0.2.123', 123)])
case('defaults: dropped to the device', 0, mud(None, [DROP()]), DNS + NTP, [default('0-0', '192.0.2.53', 53), default('0-0', '192.0.2.123', 123)])
case('defaults: rejected both ways', 0, mud([entry(None, 'reject')], [entry(None, 'reject')]), DNS + NTP, [])
case('defaults: a drop of TCP takes none', 0, mud([DROP(tcp())], [DROP(tcp())]), DNS, [D53])
case('defaults: a drop of port 123 takes ntp', 0, mud([DROP(udp(to_port(123)))], [DROP(udp(from_port(123)))]), DNS + NTP, [D53])
case('defaults: a drop of the wrong side to-device takes none of the remote\'s', 0, mud(None, [DROP(udp(to_port(53)))]), DNS, [default('0-0', '192.0.2.53', 53), line('1-1 17-17 0-0 192.0.2.53-192.0.2.53 53-53 0-52'), line('1-1 17-17 0-0 192.0.2.53-192.0.2.53 53-53 54-65535')])
case('defaults: an IPv6 list that drops all takes none', 0, whole(policy('from', ['s']), [a_list('s', [DROP()], 'ipv6-acl-type')]), DNS, [D53])
case('defaults: an accept in front joins them', 0, mud([entry(udp(to_port(53)))], [entry(udp(from_port(53)))]), DNS, [line('0-1 17-17 0-0 %s 53-53 0-65535' % ALL)])
case('defaults: 64 entries and both', 0, mud(count(32), count(32)), DNS + NTP, [D53, D123])
rule('The table of a set of flows: "Two values of a dimension are alike when their cross sections are the same set"; TCP and UDP may join their neighbours')
BARE = [DROP(tcp('"ietf-mud:direction-initiated":"to-device"')), DROP(tcp('"source-port":{"operator":"gte","port":1}')), DROP(tcp('"destination-port":{"operator":"gte","port":1}'))]
BARE_UDP = [DROP(udp('"source-port":{"operator":"neq","port":0}')), DROP(udp('"destination-port":{"operator":"neq","port":0}'))]
case('joined: TCP to its neighbours', 0, mud(BARE + [entry()]), '', [line('0-0 0-16 0-0 %s 0-0 0-0' % ALL), ALL_UDP, line('0-0 18-255 0-0 %s 0-0 0-0' % ALL)])
case('joined: UDP to its neighbours', 0, mud(BARE_UDP + [entry()]), '', [line('0-0 0-5 0-0 %s 0-0 0-0' % ALL), ALL_TCP, line('0-0 7-255 0-0 %s 0-0 0-0' % ALL)])
case('joined: all protocols', 0, mud(BARE + BARE_UDP + [entry()]), '', [line('0-0 0-255 0-0 %s 0-0 0-0' % ALL)])
case('joined: 5-7', 0, mud(BARE + [entry(ipv4('"protocol":5')), entry(tcp()), entry(ipv4('"protocol":7'))]), '', [line('0-0 5-7 0-0 %s 0-0 0-0' % ALL)])
case('joined: 16-18, by accepts', 0, mud([entry(ipv4('"protocol":18')), entry(udp('"source-port":{"operator":"lte","port":0},"destination-port":{"operator":"lte","port":0}')), entry(ipv4('"protocol":16'))]), '', [line('0-0 16-18 0-0 %s 0-0 0-0' % ALL)])
case('joined: not TCP with both openers', 0, mud(BARE[1:] + [entry()]), '', [line('0-0 0-5 0-0 %s 0-0 0-0' % ALL), line('0-0 6-6 0-1 %s 0-0 0-0' % ALL), line('0-0 7-16 0-0 %s 0-0 0-0' % ALL), ALL_UDP, line('0-0 18-255 0-0 %s 0-0 0-0' % ALL)])
case('joined: not TCP with one port more', 0, mud([BARE[0], BARE[1], DROP(tcp('"destination-port":{"operator":"gte","port":2}')), entry()]), '', [line('0-0 0-5 0-0 %s 0-0 0-0' % ALL), line('0-0 6-6 0-0 %s 0-1 0-0' % ALL), line('0-0 7-16 0-0 %s 0-0 0-0' % ALL), ALL_UDP, line('0-0 18-255 0-0 %s 0-0 0-0' % ALL)])
case('joined: directions alike but for the ports\' sides', 0, mud([entry(udp(to_port(5)))], [entry(udp(from_port(5)))]), '', [line('0-1 17-17 0-0 %s 5-5 0-65535' % ALL)])
case('joined: directions not alike', 0, mud([entry(udp(to_port(5)))], [entry(udp(to_port(5)))]), '', [line('0-0 17-17 0-0 %s 5-5 0-65535' % ALL), line('1-1 17-17 0-0 %s 0-65535 5-5' % ALL)])
case('joined: protocols 1 to 4 by four entries', 0, mud([entry(ipv4('"protocol":%d' % p)) for p in (3, 1, 4, 2)]), '', [line('0-0 1-4 0-0 %s 0-0 0-0' % ALL)])
case('joined: the whole of it by halves of the addresses', 0, mud([entry(ipv4(dst('0.0.0.0/1'))), entry(ipv4(dst('128.0.0.0/1')))]), '', five('0-0'))
case('joined: not TCP and UDP with the same ports', 0, mud([entry(tcp(to_port(7) + ',"ietf-mud:direction-initiated":"from-device"')), entry(udp(to_port(7)))]), '', [line('0-0 6-6 0-0 %s 7-7 0-65535' % ALL), line('0-0 17-17 0-0 %s 7-7 0-65535' % ALL)])
case('joined: 60 entries that make one run', 0, mud([entry(udp(ports('destination', 100 * i, 100 * i + 99))) for i in range(60)]), '', udp_lines('0-5999'))
case('60 entries that make 60 runs', 0, mud([entry(udp(ports('destination', 100 * i, 100 * i + 98))) for i in range(60)]), '', udp_lines(*('%d-%d' % (100 * i, 100 * i + 98) for i in range(60))))

# ## Published files (tools/mud-files): those of draft-ietf-opsawg-mud-24, and parts of files printed in a thesis on MUD conflicts
PUBLISHED = os.path.join(os.path.dirname(os.path.abspath(__file__)), 'mud-files')
def published(n): return open(os.path.join(PUBLISHED, n + '.json')).read()
LIGHT = 'host\ttest.example.com\t203.0.113.0/30\n'
rule('published files as they are: IPv6 lists add nothing; a part of a file has no `ietf-mud:mud`')
for n in ('draft24_s9_lightbulb', 'draft24_appC_extension'):
    case('published: %s' % n, 0, published(n), '', [])
    case('published: %s, with a site table' % n, 0, published(n), LIGHT + DNS, [D53])
for n in sorted(f[:-5] for f in os.listdir(PUBLISHED) if f.endswith('.json')):
    if n not in ('draft24_s9_lightbulb', 'draft24_appC_extension'):
        case('published: %s' % n, 7, published(n), LIGHT)
rule('published files with IPv4 lists: `ipv6-acl-type` and `ipv6` made `ipv4-acl-type` and `ipv4`')
def made_v4(t): return t.replace('ipv6-acl-type', 'ipv4-acl-type').replace('"ipv6":', '"ipv4":')
S9 = [line('0-1 6-6 0-0 203.0.113.0-203.0.113.3 443-443 0-65535')]
for n in ('draft24_s9_lightbulb', 'draft24_appC_extension'):
    case('published: %s, lists made IPv4' % n, 0, made_v4(published(n)), LIGHT, S9)
    case('published: %s, lists made IPv4, nobody registered' % n, 0, made_v4(published(n)), '', [])
    case('published: %s, lists made IPv4, ipv6 left in matches' % n, 9, published(n).replace('ipv6-acl-type', 'ipv4-acl-type'), LIGHT)
    case('published: %s, in one line' % n, 0, json.dumps(json.loads(made_v4(published(n)))), LIGHT, S9)
S9_PRINTED = json.loads(made_v4(published('draft24_s9_lightbulb')))
E = S9_PRINTED['ietf-access-control-list:acls']['acl'][0]['aces']['ace'][0]
E['tcp'] = E['matches'].pop('tcp')
rule('the same as draft 24 prints it: in the to-device entry `tcp` stands beside `matches`, and is ignored')
case('published: section 9 as printed, lists made IPv4', 0, json.dumps(S9_PRINTED), LIGHT, [line('0-0 6-6 0-0 203.0.113.0-203.0.113.3 443-443 0-65535'), line('1-1 6-6 0-1 203.0.113.0-203.0.113.3 0-65535 0-65535')])
rule('published lists with a header and policies put before them')
APP_B = published('draft24_appB_defaults').lstrip()[1:]
def with_header(policies): return '{"ietf-mud:mud":{%s,%s},' % (HEAD, policies) + APP_B
APP_NAMES = {d: ['mud-59776-v4%s' % s, 'mud-59776-v6%s' % s] for d, s in (('from', 'fr'), ('to', 'to'))}
case('published: appendix B with policies, no site table', 0, with_header(policy('from', APP_NAMES['from']) + ',' + policy('to', APP_NAMES['to'])), '', [])
case('published: appendix B with policies is what the defaults are', 0, with_header(policy('from', APP_NAMES['from']) + ',' + policy('to', APP_NAMES['to'])), DNS + NTP, [D53, D123])
case('published: appendix B, lists of the other direction', 0, with_header(policy('from', APP_NAMES['to']) + ',' + policy('to', APP_NAMES['from'])), DNS, [
    line('0-1 17-17 0-0 192.0.2.53-192.0.2.53 %s' % x) for x in ('0-52 53-53', '53-53 0-65535', '54-65535 53-53')])
rule('published entries in a file of their own; RFC 8519 decides on `"operator":"range"`: it does not stand beside `lower-port` and `upper-port`')
FOO = 'host\tfoo.com\t203.0.113.7\nlocal\t-\t224.0.0.0/4\nlocal\t-\t255.255.255.255\n'
def wrapped(t):
    v = json.loads(t)
    return mud([json.dumps(e) for e in (v['ace'] if 'ace' in v else [v])])
def no_range(t): return t.replace('"operator": "range",', '')
assert '"range"' not in no_range(published('thesis_l4_9_conflict'))
def foo(*runs): return [line('0-0 6-6 0-1 203.0.113.7-203.0.113.7 %s 0-65535' % r) for r in runs]
for n, runs in (('thesis_l4_7_overlap_same_action', ['15000-55000']), ('thesis_l4_8_merged', ['15000-55000']), ('thesis_l4_9_conflict', ['15000-35000']), ('thesis_l4_10_resolved_atp_CUT', ['15000-35000']), ('thesis_l4_11_resolved_dtp', ['15000-25000'])):
    case('published: %s in a file' % n, 10, wrapped(published(n)), FOO)
    case('published: %s in a file, without range' % n, 0, wrapped(no_range(published(n))), FOO, foo(*runs))
case('published: thesis_l3_4_ace in a file', 10, wrapped(published('thesis_l3_4_ace')), FOO)
def multicast(a, r): return [line('0-0 17-17 0-0 %s-%s %s 0-65535' % (a, a, r))]
for n in ('thesis_l5_1_exact_a', 'thesis_l5_2_exact_b'):
    case('published: %s in a file' % n, 0, wrapped(published(n)), FOO, multicast('224.0.0.251', '5353-5353'))
    case('published: %s in a file, no local networks' % n, 0, wrapped(published(n)), '', [])
case('published: thesis_l5_1 and 5_2 in one file', 0, mud([published('thesis_l5_1_exact_a'), published('thesis_l5_2_exact_b')]), FOO, multicast('224.0.0.251', '5353-5353'))
def no_eth(t):
    v = json.loads(t); del v['matches']['eth']
    return json.dumps(v)
R50, A70 = published('thesis_l5_3_conflict_reject_gte50'), published('thesis_l5_4_conflict_accept_lte70')
for n, t in (('thesis_l5_3_conflict_reject_gte50', R50), ('thesis_l5_4_conflict_accept_lte70', A70)):
    case('published: %s in a file, with eth' % n, 9, wrapped(t), FOO)
case('published: thesis_l5_4 without eth', 0, wrapped(no_eth(A70)), FOO, multicast('255.255.255.255', '0-70'))
case('published: thesis_l5_3 without eth', 0, wrapped(no_eth(R50)), FOO, [])
case('published: thesis_l5_3, then 5_4, without eth', 0, mud([no_eth(R50), no_eth(A70)]), FOO, multicast('255.255.255.255', '0-49'))
case('published: thesis_l5_4, then 5_3, without eth', 0, mud([no_eth(A70), no_eth(R50)]), FOO, multicast('255.255.255.255', '0-70'))

# ## Published JSON files (crates/jsonfiles/data): alone, and as the value of an ignored member
rule('published JSON files: y_ must be read, n_ must not, and document 01 decides the rest (tools/jsonfiles.py)')
SUITE = 'crates/jsonfiles/data/'
for n in jsonfiles.names:
    b, number = open(SUITE + n, 'rb').read(), jsonfiles.answer(n)
    if len(b) > 32768:
        continue                     # far too long: 4, as others are above
    run_if(n[0] == 'i')('suite: %s' % n[:-5], 7 if number == 0 else number, b)
    if number != 5 or n[0] == 'n':
        run_if(n[0] == 'i')('suite, inside: %s' % n[:-5], number, MIN[:-1].encode() + b',"x":' + b + b'}', '', None if number else [])

# ## By chance, the same for every run: entries over few values, so that they meet and touch
rule('the definition: first match over the entries and defaults, and the table of the flows let through')
SITES = ['class\tc\t10.0.0.%d/%d\n' % (a, l) for a, l in ((0, 30), (4, 31), (6, 32), (7, 32), (9, 32))] + ['host\th\t10.0.0.%d/%d\n' % (a, l) for a, l in ((2, 31), (3, 32), (8, 29), (0, 0))] + \
    ['local\t-\t10.0.0.%d/%d\n' % (a, l) for a, l in ((0, 29), (5, 32), (10, 31))] + ['mine\t%s\t10.0.0.5\n' % URL, 'thing\t%s\t10.0.0.6/31\n' % URL, 'thing\thttps://b.example/y\t10.0.0.0/30\n', DNS.replace('192.0.2.53', '10.0.0.4/30'), NTP.replace('192.0.2.123', '10.0.0.6/31'), DNS]
def some_port():
    a, b = sorted(chance.choice((0, 1, 52, 53, 54, 123, 124, 65534, 65535)) for _ in range(2))
    return chance.choice(('{"lower-port":%d,"upper-port":%d}' % (a, b), '{"port":%d}' % a, '{"operator":"%s","port":%d}' % (chance.choice(('eq', 'neq', 'lte', 'gte')), b)))
def some_entry(d):
    m = []
    if chance.random() < 0.35:
        m.append(of_mud(','.join(chance.sample(['"controller":"c"', '"local-networks":[null]', '"my-controller":[null]', '"manufacturer":"b.example"', '"model":"%s"' % URL, '"same-manufacturer":[null]', '"controller":"nobody"'][:6], chance.choice((1, 1, 1, 2, 0))))))
    t = chance.choice(('tcp', 'udp', 'udp', None))
    ip = []
    if chance.random() < 0.3:
        ip.append('"protocol":%s' % ({'tcp': 6, 'udp': 17}.get(t) or chance.choice((0, 1, 5, 6, 7, 16, 17, 18, 255))))
    if chance.random() < 0.3:
        ip.append('"%s-ipv4-network":"10.0.0.%d/%d"' % (('destination', 'source')[d], chance.randrange(12), chance.choice((0, 24, 28, 29, 30, 31, 32))))
    if chance.random() < 0.2:
        ip.append('"ietf-acldns:%s-dnsname":"%s"' % (('dst', 'src')[d], chance.choice(('h', 'h', 'nobody'))))
    if ip or chance.random() < 0.1:
        m.append(ipv4(','.join(ip)))
    if t:
        inner = ['"%s-port":%s' % (s, some_port()) for s in ('source', 'destination') if chance.random() < 0.5]
        if t == 'tcp' and chance.random() < 0.4:
            inner.append('"ietf-mud:direction-initiated":"%s-device"' % chance.choice(('from', 'to')))
        m.append('"%s":{%s}' % (t, ','.join(inner)))
    chance.shuffle(m)
    return entry(','.join(m) if m or chance.random() < 0.5 else None, chance.choice(('accept', 'accept', 'accept', 'drop', 'reject')))
def some_file(least, most):
    lists, policies = [], []
    for d, way in enumerate(('from', 'to')):
        names = ['%s%d' % (way, i) for i in range(chance.choice((0, 1, 1, 2, 3)))]
        lists += [a_list(n, [some_entry(d) for _ in range(chance.randint(least, most))], chance.choice(('ipv4-acl-type',) * 5 + ('ipv6-acl-type',))) for n in names]
        chance.shuffle(names)
        policies.append(policy(way, names))
    chance.shuffle(lists)
    return whole(','.join(policies), lists)
def some_site(): return ''.join(chance.sample(SITES, chance.randint(0, len(SITES))))
for k in range(240):
    f, s = some_file(0, 4 if k < 200 else 9), some_site()
    number = mudmeaning.judge(f.encode(), s.encode())[0]
    assert number in (0, 12)
    run_if(k < 70 or 200 <= k < 216)('by chance %d' % k, number, f, s)

for k in range(12):
    d = [k % 3 == 0, k % 3 == 1]
    n = 64 if any(d) else 32
    f, s = mud(*([some_entry(way) for _ in range(n)] if d[way] or not any(d) else None for way in (0, 1))), some_site()
    run_if(k < 6)('by chance, 64 entries %d' % k, mudmeaning.judge(f.encode(), s.encode())[0], f, s)

def main():
    if '--rules' in sys.argv:
        for n, name, r in told:
            print('%d\t%s\t%s' % (n, name, r))
        return
    crate = 'crates/gatewaycases/'
    cases, stdout, left = crate + 'data/cases', crate + 'stdout', twins
    if '--all' in sys.argv:
        folder = sys.argv[sys.argv.index('--all') + 1]
        cases, stdout, left = os.path.join(folder, 'cases'), os.path.join(folder, 'stdout'), set()
    run = [i for i in range(len(data)) if i not in left]
    open(cases, 'wb').write(b''.join(data[i] for i in run))
    open(stdout, 'w', encoding='utf-8').write(''.join(expected[i] for i in run))
    print(len(run), 'cases; by number:', ', '.join('%d: %d' % (n, sum(told[i][0] == n for i in run)) for n in range(13)))
if __name__ == '__main__':
    main()
