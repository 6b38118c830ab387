//! The file as JSON: a strict reader of RFC 8259 that makes a tree.
//!
//! The nodes of the tree stand in one vector in the order of the text, each before what it holds,
//! and each knows where the next node beside it begins. So a tree costs one growing vector, and
//! stepping over a value costs nothing, however much it holds.

use std::borrow::Cow;

/// How deep arrays and objects may be nested; the outermost has depth 1.
pub const DEEPEST: usize = 16;
/// Up to this many members an object's names are compared each with each; above, they are sorted.
const FEW_MEMBERS: usize = 12;

/// Why a text has no tree.
#[derive(Clone, Copy, Debug, PartialEq, Eq)]
pub enum Fault {
    /// Not UTF-8, not JSON, or nested too deep.
    NotJson,
    /// JSON, with a member name twice in an object or half a surrogate pair.
    RepeatedOrLone,
}

/// What a node is.
#[derive(Debug)]
enum Kind<'a> {
    Null,
    /// `true` or `false`: no rule asks which.
    Bool,
    /// The digits and signs as written.
    Number(&'a [u8]),
    /// The bytes after decoding.
    String(Cow<'a, [u8]>),
    Array,
    Object,
}

#[derive(Debug)]
struct Node<'a> {
    /// The member's name after decoding; empty where the node is no member.
    name: Cow<'a, [u8]>,
    kind: Kind<'a>,
    /// The number of the first node that is not inside this one.
    end: usize,
}

/// A text's tree.
#[derive(Debug)]
pub struct Tree<'a> {
    nodes: Vec<Node<'a>>,
}

impl<'a> Tree<'a> {
    /// Reads a whole text.
    pub fn parse(text: &'a [u8]) -> Result<Tree<'a>, Fault> {
        if std::str::from_utf8(text).is_err() {
            return Err(Fault::NotJson);
        }
        let mut parser = Parser { text, at: 0, nodes: Vec::new(), repeated_or_lone: false };
        parser.whole().map_err(|NotJson| Fault::NotJson)?;
        // A fault of the second kind counts only when the whole text is JSON.
        if parser.repeated_or_lone {
            return Err(Fault::RepeatedOrLone);
        }
        Ok(Tree { nodes: parser.nodes })
    }

    /// The outermost value.
    pub fn root(&self) -> Value<'_> {
        Value { nodes: &self.nodes, at: 0 }
    }
}

/// A value of a tree.
#[derive(Clone, Copy, Debug)]
pub struct Value<'t> {
    nodes: &'t [Node<'t>],
    at: usize,
}

impl<'t> Value<'t> {
    fn node(self) -> &'t Node<'t> {
        &self.nodes[self.at]
    }

    /// The values directly inside this one, each with its name if it is a member.
    fn inside(self) -> Inside<'t> {
        Inside { nodes: self.nodes, at: self.at + 1, end: self.node().end }
    }

    /// The members of an object, in their order.
    pub fn object(self) -> Option<Members<'t>> {
        match self.node().kind {
            Kind::Object => Some(Members(self.inside())),
            _ => None,
        }
    }

    /// The elements of an array, in their order.
    pub fn array(self) -> Option<Inside<'t>> {
        match self.node().kind {
            Kind::Array => Some(self.inside()),
            _ => None,
        }
    }

    /// The bytes of a string, after decoding.
    pub fn string(self) -> Option<&'t [u8]> {
        match &self.node().kind {
            Kind::String(bytes) => Some(bytes),
            _ => None,
        }
    }

    /// Whether this is `true` or `false`.
    pub fn is_bool(self) -> bool {
        matches!(self.node().kind, Kind::Bool)
    }

    /// Whether this is `null`.
    pub fn is_null(self) -> bool {
        matches!(self.node().kind, Kind::Null)
    }

    /// An integer of at most `most`: `0`, or digits that do not begin with 0.
    pub fn integer(self, most: u32) -> Option<u32> {
        match self.node().kind {
            Kind::Number(text) => crate::network::decimal(text, most),
            _ => None,
        }
    }

    /// Whether this is `[null]`.
    pub fn is_list_of_null(self) -> bool {
        match self.array() {
            None => false,
            Some(mut elements) => elements.next().is_some_and(Value::is_null) && elements.next().is_none(),
        }
    }
}

/// The values directly inside a value.
#[derive(Clone, Debug)]
pub struct Inside<'t> {
    nodes: &'t [Node<'t>],
    at: usize,
    end: usize,
}

impl<'t> Iterator for Inside<'t> {
    type Item = Value<'t>;

    fn next(&mut self) -> Option<Value<'t>> {
        if self.at == self.end {
            return None;
        }
        let value = Value { nodes: self.nodes, at: self.at };
        self.at = value.node().end;
        Some(value)
    }
}

/// The members of an object.
#[derive(Clone, Debug)]
pub struct Members<'t>(Inside<'t>);

impl<'t> Members<'t> {
    /// The value of the member called `name`. No name stands twice in an object.
    pub fn get(&self, name: &str) -> Option<Value<'t>> {
        self.0.clone().find(|value| *value.node().name == *name.as_bytes())
    }
}

impl<'t> Iterator for Members<'t> {
    type Item = (&'t [u8], Value<'t>);

    fn next(&mut self) -> Option<Self::Item> {
        self.0.next().map(|value| (&*value.node().name, value))
    }
}

/// The text does not go on as JSON would.
struct NotJson;

type Step<T = ()> = Result<T, NotJson>;

struct Parser<'a> {
    text: &'a [u8],
    at: usize,
    nodes: Vec<Node<'a>>,
    repeated_or_lone: bool,
}

impl<'a> Parser<'a> {
    /// A text is one value, with white space before and after it.
    fn whole(&mut self) -> Step {
        self.skip_white_space();
        self.value(Cow::Borrowed(b""), DEEPEST)?;
        self.skip_white_space();
        match self.peek() {
            None => Ok(()),
            Some(_) => Err(NotJson),
        }
    }

    fn peek(&self) -> Option<u8> {
        self.text.get(self.at).copied()
    }

    /// Steps over `byte`, which must be next.
    fn expect(&mut self, byte: u8) -> Step {
        if self.peek() != Some(byte) {
            return Err(NotJson);
        }
        self.at += 1;
        Ok(())
    }

    fn skip_white_space(&mut self) {
        while matches!(self.peek(), Some(b' ' | b'\t' | b'\n' | b'\r')) {
            self.at += 1;
        }
    }

    /// Reads the value that begins here, where `levels` more arrays and objects may be nested.
    fn value(&mut self, name: Cow<'a, [u8]>, levels: usize) -> Step {
        match self.peek().ok_or(NotJson)? {
            b'{' => self.object(name, levels),
            b'[' => self.array(name, levels),
            b'"' => {
                let bytes = self.string()?;
                self.leaf(name, Kind::String(bytes))
            }
            b't' => {
                self.word(b"true")?;
                self.leaf(name, Kind::Bool)
            }
            b'f' => {
                self.word(b"false")?;
                self.leaf(name, Kind::Bool)
            }
            b'n' => {
                self.word(b"null")?;
                self.leaf(name, Kind::Null)
            }
            _ => {
                let text = self.number()?;
                self.leaf(name, Kind::Number(text))
            }
        }
    }

    /// Adds a node that holds no other.
    fn leaf(&mut self, name: Cow<'a, [u8]>, kind: Kind<'a>) -> Step {
        let end = self.nodes.len() + 1;
        self.nodes.push(Node { name, kind, end });
        Ok(())
    }

    fn word(&mut self, word: &[u8]) -> Step {
        if !self.text[self.at..].starts_with(word) {
            return Err(NotJson);
        }
        self.at += word.len();
        Ok(())
    }

    fn array(&mut self, name: Cow<'a, [u8]>, levels: usize) -> Step {
        let levels = levels.checked_sub(1).ok_or(NotJson)?;
        let opened = self.open(name, Kind::Array);
        if self.peek() == Some(b']') {
            return self.close(opened);
        }
        loop {
            self.value(Cow::Borrowed(b""), levels)?;
            self.skip_white_space();
            if self.peek() == Some(b']') {
                return self.close(opened);
            }
            self.expect(b',')?;
            self.skip_white_space();
        }
    }

    fn object(&mut self, name: Cow<'a, [u8]>, levels: usize) -> Step {
        let levels = levels.checked_sub(1).ok_or(NotJson)?;
        let opened = self.open(name, Kind::Object);
        if self.peek() == Some(b'}') {
            return self.close(opened);
        }
        loop {
            let name = self.string()?;
            self.skip_white_space();
            self.expect(b':')?;
            self.skip_white_space();
            self.value(name, levels)?;
            self.skip_white_space();
            if self.peek() == Some(b'}') {
                self.close(opened)?;
                self.look_for_repeated_names(opened);
                return Ok(());
            }
            self.expect(b',')?;
            self.skip_white_space();
        }
    }

    /// Steps over an opening bracket and the white space behind it; gives its node's number.
    fn open(&mut self, name: Cow<'a, [u8]>, kind: Kind<'a>) -> usize {
        self.at += 1;
        self.skip_white_space();
        self.nodes.push(Node { name, kind, end: 0 });
        self.nodes.len() - 1
    }

    /// Steps over a closing bracket.
    fn close(&mut self, opened: usize) -> Step {
        self.at += 1;
        self.nodes[opened].end = self.nodes.len();
        Ok(())
    }

    fn look_for_repeated_names(&mut self, opened: usize) {
        let members = Members(Value { nodes: &self.nodes, at: opened }.inside());
        self.repeated_or_lone |= has_repeated(members.map(|(name, _)| name));
    }

    /// Reads a string, escapes decoded.
    fn string(&mut self) -> Step<Cow<'a, [u8]>> {
        self.expect(b'"')?;
        let plain = self.plain_bytes();
        if self.peek() == Some(b'"') {
            self.at += 1;
            return Ok(Cow::Borrowed(plain));
        }
        let mut bytes = plain.to_vec();
        loop {
            match self.peek() {
                Some(b'"') => {
                    self.at += 1;
                    return Ok(Cow::Owned(bytes));
                }
                Some(b'\\') => {
                    self.at += 1;
                    self.escape(&mut bytes)?;
                }
                _ => return Err(NotJson),
            }
            let plain = self.plain_bytes();
            bytes.extend_from_slice(plain);
        }
    }

    /// Steps over the bytes that stand for themselves in a string.
    fn plain_bytes(&mut self) -> &'a [u8] {
        let rest = &self.text[self.at..];
        let length =
            rest.iter().position(|&byte| byte == b'"' || byte == b'\\' || byte < 0x20).unwrap_or(rest.len());
        self.at += length;
        &rest[..length]
    }

    /// Decodes what follows a backslash.
    fn escape(&mut self, bytes: &mut Vec<u8>) -> Step {
        let letter = self.peek().ok_or(NotJson)?;
        self.at += 1;
        bytes.push(match letter {
            b'"' | b'\\' | b'/' => letter,
            b'b' => 0x08,
            b'f' => 0x0C,
            b'n' => b'\n',
            b'r' => b'\r',
            b't' => b'\t',
            b'u' => return self.code_unit_escape(bytes),
            _ => return Err(NotJson),
        });
        Ok(())
    }

    /// Decodes `\u` and its four digits, and its partner if it begins a surrogate pair.
    fn code_unit_escape(&mut self, bytes: &mut Vec<u8>) -> Step {
        let unit = self.four_digits()?;
        let code = match unit {
            0xD800..=0xDBFF => match self.low_surrogate_escape() {
                Some(low) => 0x1_0000 + ((unit - 0xD800) << 10) + (low - 0xDC00),
                None => unit,
            },
            _ => unit,
        };
        match char::from_u32(code) {
            Some(character) => bytes.extend_from_slice(character.encode_utf8(&mut [0; 4]).as_bytes()),
            // Half a pair. What it would stand for does not matter, since the file is refused.
            None => self.repeated_or_lone = true,
        }
        Ok(())
    }

    /// Steps over the escape of a low surrogate, if that is what comes next.
    fn low_surrogate_escape(&mut self) -> Option<u32> {
        let before = self.at;
        if self.text[before..].starts_with(b"\\u") {
            self.at += 2;
            if let Ok(unit @ 0xDC00..=0xDFFF) = self.four_digits() {
                return Some(unit);
            }
        }
        self.at = before;
        None
    }

    fn four_digits(&mut self) -> Step<u32> {
        let digits = self.text.get(self.at..self.at + 4).ok_or(NotJson)?;
        let mut unit = 0;
        for &digit in digits {
            unit = unit << 4 | char::from(digit).to_digit(16).ok_or(NotJson)?;
        }
        self.at += 4;
        Ok(unit)
    }

    fn number(&mut self) -> Step<&'a [u8]> {
        let start = self.at;
        if self.peek() == Some(b'-') {
            self.at += 1;
        }
        if self.peek() == Some(b'0') {
            self.at += 1;
        } else {
            self.digits()?;
        }
        if self.peek() == Some(b'.') {
            self.at += 1;
            self.digits()?;
        }
        if let Some(b'e' | b'E') = self.peek() {
            self.at += 1;
            if let Some(b'+' | b'-') = self.peek() {
                self.at += 1;
            }
            self.digits()?;
        }
        Ok(&self.text[start..self.at])
    }

    /// Steps over one digit or more.
    fn digits(&mut self) -> Step {
        let start = self.at;
        while self.peek().is_some_and(|byte| byte.is_ascii_digit()) {
            self.at += 1;
        }
        if self.at == start {
            return Err(NotJson);
        }
        Ok(())
    }
}

/// Whether any name stands twice among `names`.
pub fn has_repeated<'n>(names: impl Iterator<Item = &'n [u8]> + Clone) -> bool {
    if names.clone().nth(FEW_MEMBERS).is_none() {
        let mut rest = names;
        while let Some(name) = rest.next() {
            if rest.clone().any(|other| other == name) {
                return true;
            }
        }
        return false;
    }
    let mut sorted: Vec<(u64, &[u8])> = names.map(sorting_key).collect();
    sorted.sort_unstable();
    sorted.windows(2).any(|pair| pair[0] == pair[1])
}

/// A key by which names sort as by their bytes. Its first part is the first eight bytes, zeros in
/// the place of missing ones, as one number: that settles most comparisons at once.
pub fn sorting_key(name: &[u8]) -> (u64, &[u8]) {
    let mut bytes = [0; 8];
    let length = name.len().min(8);
    bytes[..length].copy_from_slice(&name[..length]);
    (u64::from_be_bytes(bytes), name)
}

#[cfg(test)]
mod tests;
