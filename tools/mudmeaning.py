# Document 01 once more, in Python: the number that a build gives, and the lines of its table. Written from the document's sentences, with sets and
# strings and no regard for time; tools/gatewaycases.py holds the cases against it, and the cases hold the gateway against both.
import re

class Refused(Exception):
    pass

def refuse(number):
    raise Refused(number)

# ## Site table
KINDS = ('host', 'class', 'mine', 'local', 'thing')

def plain(b, low, high):
    return low <= len(b) and len(b) <= high and all(0x21 <= c <= 0x7E for c in b)

# "begins with the eight bytes `https://` and has a non-empty authority, which runs to the first `/`, `?`, `#` or the end"
def authority(url):
    return re.split(b'[/?#]', url[8:], maxsplit=1)[0]

def is_url(b):
    return plain(b, 0, 255) and b[:8] == b'https://' and authority(b) != b''

# a decimal number to `top`, "no number written with extra zeros in front"
def number(t, top):
    if not re.fullmatch(b'0|[1-9][0-9]*', t) or int(t) > top:
        return None
    return int(t)

# the addresses of a dotted quad with or without `/n`; None if it is none. "Host bits are cleared"
def network(t, needs_length):
    parts = t.split(b'/')
    if len(parts) == 1 and not needs_length:
        parts.append(b'32')
    if len(parts) != 2:
        return None
    quad = [number(x, 255) for x in parts[0].split(b'.')]
    length = number(parts[1], 32)
    if len(quad) != 4 or None in quad or length is None:
        return None
    a = ((quad[0] * 256 + quad[1]) * 256 + quad[2]) * 256 + quad[3]
    size = 2 ** (32 - length)
    return (a - a % size, a - a % size + size - 1)

# kind, name and addresses of each line
def site_lines(b):
    if len(b) > 8192 or b.count(b'\n') > 64:
        refuse(2)
    lines = b.split(b'\n')
    if lines.pop() != b'':
        refuse(3)
    found = []
    for line in lines:
        parts = line.split(b'\t')
        if len(parts) != 3 or parts[0].decode('latin1') not in KINDS or not plain(parts[1], 1, 255):
            refuse(3)
        kind, name, net = parts[0].decode(), parts[1], network(parts[2], False)
        if net is None or kind in ('mine', 'thing') and not is_url(name) or kind == 'local' and name != b'-':
            refuse(3)
        found.append((kind, name, net))
    return found

# ## The file as JSON: null, true and false are Python's, strings are str, arrays are lists
class Number(str):
    pass

class Object:
    def __init__(self, members):
        self.members = members
        self.names = {n: v for n, v in members}
    def has(self, name):
        return name in self.names
    def get(self, name):
        return self.names.get(name, ABSENT)

class Absent:
    pass
ABSENT = Absent()

NUMBER = re.compile(r'-?(0|[1-9][0-9]*)(\.[0-9]+)?([eE][+-]?[0-9]+)?')
PLAIN = re.compile('[^"\\\\\x00-\x1f]*')
ESCAPES = {'"': '"', '\\': '\\', '/': '/', 'b': '\b', 'f': '\f', 'n': '\n', 'r': '\r', 't': '\t'}

class Json:
    def __init__(self, b):
        try:
            self.t = b.decode('utf-8')
        except UnicodeDecodeError:
            refuse(5)
        self.at = 0
        self.twice = self.lone = False
        self.value = self.read(0)
        self.skip()
        if self.at < len(self.t):
            refuse(5)
        if self.twice or self.lone:
            refuse(6)

    def skip(self):
        while self.t[self.at:self.at + 1] in (' ', '\t', '\n', '\r'):
            self.at += 1

    # the byte after white space, which stays
    def look(self):
        self.skip()
        return self.t[self.at:self.at + 1]

    def take(self, c):
        if self.look() != c:
            refuse(5)
        self.at += 1

    def read(self, depth):
        c = self.look()
        if c == '{' or c == '[':
            if depth == 16:
                refuse(5)
            self.at += 1
            return self.object(depth + 1) if c == '{' else self.array(depth + 1)
        if c == '"':
            return self.string()
        for word, value in (('null', None), ('true', True), ('false', False)):
            if self.t.startswith(word, self.at):
                self.at += len(word)
                return value
        m = NUMBER.match(self.t, self.at)
        if not m:
            refuse(5)
        self.at = m.end()
        return Number(m.group())

    def array(self, depth):
        values = []
        if self.look() == ']':
            self.at += 1
            return values
        while True:
            values.append(self.read(depth))
            if self.look() == ',':
                self.at += 1
            else:
                self.take(']')
                return values

    def object(self, depth):
        members = []
        if self.look() == '}':
            self.at += 1
            return Object(members)
        while True:
            if self.look() != '"':
                refuse(5)
            name = self.string()
            self.take(':')
            members.append((name, self.read(depth)))
            if self.look() == ',':
                self.at += 1
            else:
                self.take('}')
                if len(set(n for n, v in members)) < len(members):
                    self.twice = True
                return Object(members)

    def hexadecimal(self):
        t = self.t[self.at:self.at + 4]
        if not re.fullmatch('[0-9a-fA-F]{4}', t):
            refuse(5)
        self.at += 4
        return int(t, 16)

    def string(self):
        self.at += 1
        out = []
        while True:
            m = PLAIN.match(self.t, self.at)
            out.append(m.group())
            self.at = m.end()
            c = self.t[self.at:self.at + 1]
            self.at += 1
            if c == '"':
                return ''.join(out)
            if c != '\\':
                refuse(5)
            c = self.t[self.at:self.at + 1]
            self.at += 1
            if c in ESCAPES and c:
                out.append(ESCAPES[c])
            elif c == 'u':
                n = self.hexadecimal()
                if 0xD800 <= n < 0xDC00 and self.t[self.at:self.at + 2] == '\\u':
                    back = self.at
                    self.at += 2
                    low = self.hexadecimal()
                    if 0xDC00 <= low < 0xE000:
                        n = 0x10000 + (n - 0xD800) * 0x400 + (low - 0xDC00)
                    else:
                        self.at = back
                if 0xD800 <= n < 0xE000:
                    self.lone = True
                out.append(chr(n))
            else:
                refuse(5)

# ## The MUD rules
def is_object(v):
    return isinstance(v, Object)

def is_text(v):
    return type(v) is str

def octets(v):
    return v.encode('utf-8')

# "An integer is `0`, or digits not beginning with 0; no sign, fraction or exponent."
def integer(v, low, high):
    if isinstance(v, Number) and re.fullmatch('0|[1-9][0-9]*', v) and low <= int(v) <= high:
        return int(v)
    return None

def member(v, name):
    return v.get(name) if is_object(v) else ABSENT

def header(file):
    mud = member(file, 'ietf-mud:mud')
    url = member(mud, 'mud-url')
    validity = member(mud, 'cache-validity')
    if not is_object(file) or not is_object(mud) or integer(member(mud, 'mud-version'), 1, 1) is None or not is_text(url) or not is_url(octets(url)) \
            or not is_text(member(mud, 'last-update')) or type(member(mud, 'is-supported')) is not bool \
            or validity is not ABSENT and integer(validity, 1, 168) is None:
        refuse(7)
    return octets(url)

# "either absent means none", of a wrong type is 8
def inside(v, name, kind):
    x = v.get(name)
    if x is not ABSENT and not isinstance(x, kind):
        refuse(8)
    return kind([]) if x is ABSENT else x

# "array of objects with a string `name`, no name twice"
def named(values):
    if not all(is_object(v) and is_text(v.get('name')) for v in values):
        refuse(8)
    names = [v.get('name') for v in values]
    if len(set(names)) < len(names):
        refuse(8)
    return names

# the entries read: direction and entry, lists in the order the policy names them
def entries(file):
    mud = file.get('ietf-mud:mud')
    lists = inside(inside(file, 'ietf-access-control-list:acls', Object), 'acl', list)
    lists = dict(zip(named(lists), lists))
    read = []
    for direction, policy in ((0, 'from-device-policy'), (1, 'to-device-policy')):
        for name in named(inside(inside(inside(mud, policy, Object), 'access-lists', Object), 'access-list', list)):
            if name not in lists:
                refuse(8)
            l = lists[name]
            if l.get('type') not in ('ipv4-acl-type', 'ipv6-acl-type'):
                refuse(8)
            if l.get('type') == 'ipv4-acl-type':
                found = inside(inside(l, 'aces', Object), 'ace', list)
                named(found)
                read += [(direction, e) for e in found]
    return read

STRINGS = ('manufacturer', 'model', 'controller')
NULLS = ('same-manufacturer', 'local-networks', 'my-controller')
SIDES = (('destination', 'dst', 'source', 'src'), ('source', 'src', 'destination', 'dst'))   # the remote's and the device's, by direction
PORTS = {'lower-port': None, 'upper-port': None, 'port': None, 'operator': None}
TRANSPORT = {'source-port': PORTS, 'destination-port': PORTS}
LISTED = {
    'ietf-mud:mud': {n: None for n in STRINGS + NULLS},
    'ipv4': {n: None for n in ('protocol', 'source-ipv4-network', 'destination-ipv4-network', 'ietf-acldns:src-dnsname', 'ietf-acldns:dst-dnsname')},
    'tcp': dict(TRANSPORT, **{'ietf-mud:direction-initiated': None}),
    'udp': TRANSPORT,
}

# 9: "a member not listed above, in `matches` or in an object that the list gives it"
def unlisted(v, listed):
    return is_object(v) and any(n not in listed or listed[n] is not None and unlisted(w, listed[n]) for n, w in v.members)

def need(holds):
    if not holds:
        refuse(10)

def sound_port(p):
    need(is_object(p))
    if p.has('port'):
        need(not p.has('lower-port') and not p.has('upper-port') and integer(p.get('port'), 0, 65535) is not None)
        need(p.get('operator') is ABSENT or p.get('operator') in ('eq', 'neq', 'lte', 'gte'))
    else:
        low, high = integer(p.get('lower-port'), 0, 65535), integer(p.get('upper-port'), 0, 65535)
        need(low is not None and high is not None and low <= high and not p.has('operator'))

# 10: "any other breach in `matches` or `actions`"
def sound(direction, e):
    remote, dns, device, own = SIDES[direction]
    actions = e.get('actions')
    need(is_object(actions) and actions.get('forwarding') in ('accept', 'drop', 'reject'))
    m = e.get('matches')
    if m is ABSENT:
        return
    need(is_object(m) and all(is_object(v) for n, v in m.members))
    for n, v in m.names.get('ietf-mud:mud', Object([])).members:
        need(is_text(v) if n in STRINGS else v == [None])
    ip = m.names.get('ipv4', Object([]))
    need(not ip.has(device + '-ipv4-network') and not ip.has('ietf-acldns:%s-dnsname' % own))
    for n, v in ip.members:
        if n == 'protocol':
            need(integer(v, 0, 255) is not None)
        else:
            need(is_text(v) and ('dnsname' in n or network(octets(v), True) is not None))
    need(not (m.has('tcp') and m.has('udp')))
    for name, p in (('tcp', 6), ('udp', 17)):
        if m.has(name):
            t = m.get(name)
            need(not ip.has('protocol') or integer(ip.get('protocol'), p, p) is not None)
            need(t.get('ietf-mud:direction-initiated') in (ABSENT, 'from-device', 'to-device'))
            for side in ('source-port', 'destination-port'):
                if t.has(side):
                    sound_port(t.get(side))

# ## First match: an entry as six conditions, one for each number of a flow
def port_holds(p, v):
    if p.has('port'):
        n = int(p.get('port'))
        return {'eq': v == n, 'neq': v != n, 'lte': v <= n, 'gte': v >= n}[p.get('operator') if p.has('operator') else 'eq']
    return int(p.get('lower-port')) <= v <= int(p.get('upper-port'))

def networks(lines, kind, test):
    return [net for k, name, net in lines if k == kind and test(name)]

class Rule:
    # the remote address must be in one of the networks, for each list of networks
    def __init__(self, accept, direction=None, protocols=(), opener=None, places=(), remote=None, device=None):
        self.accept, self.direction, self.protocols, self.opener, self.places, self.remote, self.device = accept, direction, protocols, opener, places, remote, device
    def holds(self, d, v):
        if d == 0:
            return self.direction in (None, v)
        if d == 1:
            return all(p == v for p in self.protocols)
        if d == 2:
            return self.opener in (None, v)
        if d == 3:
            return all(any(low <= v <= high for low, high in nets) for nets in self.places)
        p = self.remote if d == 4 else self.device
        return p is None or port_holds(p, v)
    # the values at which the answer may change
    def cuts(self, d):
        if d == 1:
            return {c for p in self.protocols for c in (p, p + 1)}
        if d == 3:
            return {c for nets in self.places for low, high in nets for c in (low, high + 1)}
        p = {4: self.remote, 5: self.device}.get(d)
        return set() if p is None else {c for n, v in p.members if n != 'operator' for c in (int(v), int(v) + 1)}

def rule_of(direction, e, lines, url):
    remote, dns, device, own = SIDES[direction]
    empty = Object([])
    m = e.names.get('matches', empty)
    mud, ip, tcp, udp = (m.names.get(n, empty) for n in ('ietf-mud:mud', 'ipv4', 'tcp', 'udp'))
    places = []
    for n, v in mud.members:
        places.append({
            'manufacturer': lambda: networks(lines, 'thing', lambda name: authority(name) == octets(v)),
            'model': lambda: networks(lines, 'thing', lambda name: name == octets(v)),
            'controller': lambda: networks(lines, 'class', lambda name: name == octets(v)),
            'same-manufacturer': lambda: networks(lines, 'thing', lambda name: authority(name) == authority(url)),
            'local-networks': lambda: networks(lines, 'local', lambda name: True),
            'my-controller': lambda: networks(lines, 'mine', lambda name: name == url)}[n]())
    if ip.has(remote + '-ipv4-network'):
        places.append([network(octets(ip.get(remote + '-ipv4-network')), True)])
    if ip.has('ietf-acldns:%s-dnsname' % dns):
        places.append(networks(lines, 'host', lambda name: name == octets(ip.get('ietf-acldns:%s-dnsname' % dns))))
    protocols = ([int(ip.get('protocol'))] if ip.has('protocol') else []) + ([6] if m.has('tcp') else []) + ([17] if m.has('udp') else [])
    ports = {s: t.get(s + '-port') for t in (tcp, udp) for s in ('source', 'destination') if t.has(s + '-port')}
    opener = {ABSENT: None, 'from-device': 0, 'to-device': 1}[tcp.get('ietf-mud:direction-initiated')]
    return Rule(e.get('actions').get('forwarding') == 'accept', direction, protocols, opener, places, ports.get(remote), ports.get(device))

# "After them, in both directions: accept protocol 17 with remote port 53 for class `urn:ietf:params:mud:dns`, and 123 for `urn:ietf:params:mud:ntp`."
def defaults(lines):
    return [Rule(True, None, [17], None, [networks(lines, 'class', lambda n: n == name)], Object([('port', port)]))
        for name, port in ((b'urn:ietf:params:mud:dns', 53), (b'urn:ietf:params:mud:ntp', 123))]

def is_flow(f):
    return (f[2] == 0 or f[1] == 6) and (f[1] in (6, 17) or f[4] == f[5] == 0)

# "The verdict is that of the first matching entry .. Then drop."
def lets(rules, flow):
    if not is_flow(flow):
        return False
    for r in rules:
        if all(r.holds(d, v) for d, v in enumerate(flow)):
            return r.accept
    return False

# ## The table: runs of alike values, in each dimension; values between two cuts are alike
TOP = (1, 255, 1, 2 ** 32 - 1, 65535, 65535)

def intervals(rules):
    always = ({0, 1}, {0, 6, 7, 17, 18}, {0, 1}, {0}, {0, 1}, {0, 1})
    found = []
    for d in range(6):
        starts = sorted(c for c in always[d].union(*(r.cuts(d) for r in rules)) if c <= TOP[d])
        found.append(list(zip(starts, [s - 1 for s in starts[1:]] + [TOP[d]])))
    return found

def table(rules):
    cells = [[(a, z, frozenset(i for i, r in enumerate(rules) if r.holds(d, a))) for a, z in row] for d, row in enumerate(intervals(rules))]
    known = {}
    # the lines of the flows that begin with `begun`, whose conditions so far hold in the rules `live`
    def rest(d, begun, live):
        if d > 1 and begun[1] != 6 and d > 2 and begun[2] > 0 or d > 4 and begun[1] not in (6, 17) and any(begun[4:]):
            return ()
        if d == 6:
            return ((),) if live and rules[min(live)].accept else ()
        key = (d, live, begun[1] if d > 1 and begun[1] in (6, 17) else None)
        if key not in known:
            runs = []
            for a, z, holds in cells[d]:
                t = rest(d + 1, begun + (a,), live & holds)
                if runs and runs[-1][2] == t:
                    runs[-1][1] = z
                else:
                    runs.append([a, z, t])
            known[key] = tuple(((a, z),) + line for a, z, t in runs for line in t)
        return known[key]
    return list(rest(0, (), frozenset(range(len(rules)))))

def quad(a):
    return '%d.%d.%d.%d' % (a >> 24, a >> 16 & 255, a >> 8 & 255, a & 255)

def text(line):
    return '\t'.join('%s-%s' % ((quad(low), quad(high)) if d == 3 else (low, high)) for d, (low, high) in enumerate(line)) + '\n'

# ## Answer numbers and their order
def judge(file, site, reply=36864, work=16290):
    try:
        if reply != 36864 or work != 16290:
            refuse(1)
        lines = site_lines(site)
        if len(file) > 32768:
            refuse(4)
        tree = Json(file).value
        url = header(tree)
        read = entries(tree)
        if any(unlisted(e.get('matches'), LISTED) for d, e in read):
            refuse(9)
        for d, e in read:
            sound(d, e)
        if len(read) > 64:
            refuse(11)
        rules = [rule_of(d, e, lines, url) for d, e in read] + defaults(lines)
        found = table(rules)
        if len(found) > 512:
            refuse(12)
        return 0, found, rules
    except Refused as r:
        return r.args[0], [], []
