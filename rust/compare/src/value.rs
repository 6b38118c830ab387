//! JSON values to be written: the generator's own, apart from both readers under comparison.

use crate::dice::Dice;

/// A value. Numbers are kept as written, so that odd ones can be made.
#[derive(Clone, Debug, PartialEq)]
pub enum Value {
    Null,
    Bool(bool),
    Number(String),
    Text(String),
    Array(Vec<Value>),
    Object(Vec<(String, Value)>),
}

/// A number.
pub fn number(value: impl ToString) -> Value {
    Value::Number(value.to_string())
}

/// A string.
pub fn text(value: impl ToString) -> Value {
    Value::Text(value.to_string())
}

/// An object with these members.
pub fn object<const N: usize>(members: [(&str, Value); N]) -> Value {
    Value::Object(members.map(|(name, value)| (name.to_owned(), value)).to_vec())
}

/// The list that holds just null.
pub fn list_of_null() -> Value {
    Value::Array(vec![Value::Null])
}

impl Value {
    /// Adds a member to an object.
    pub fn add(&mut self, name: &str, value: Value) {
        if let Value::Object(members) = self {
            members.push((name.to_owned(), value));
        }
    }

    /// Puts the members of an object into another order.
    pub fn shuffled(mut self, dice: &mut Dice) -> Value {
        if let Value::Object(members) = &mut self {
            dice.shuffle(members);
        }
        self
    }

    /// How many values there are, this one and all inside it, of those that are `wanted`.
    pub fn count(&self, wanted: fn(&Value) -> bool) -> usize {
        let inside: usize = match self {
            Value::Array(values) => values.iter().map(|value| value.count(wanted)).sum(),
            Value::Object(members) => members.iter().map(|(_, value)| value.count(wanted)).sum(),
            _ => 0,
        };
        inside + usize::from(wanted(self))
    }

    /// One of the values that are `wanted`, to be changed.
    pub fn pick(&mut self, dice: &mut Dice, wanted: fn(&Value) -> bool) -> Option<&mut Value> {
        let count = self.count(wanted);
        if count == 0 {
            return None;
        }
        let mut left = dice.below(count);
        self.nth(wanted, &mut left)
    }

    fn nth(&mut self, wanted: fn(&Value) -> bool, left: &mut usize) -> Option<&mut Value> {
        if wanted(self) {
            if *left == 0 {
                return Some(self);
            }
            *left -= 1;
        }
        match self {
            Value::Array(values) => values.iter_mut().find_map(|value| value.nth(wanted, left)),
            Value::Object(members) => members.iter_mut().find_map(|(_, value)| value.nth(wanted, left)),
            _ => None,
        }
    }

    /// Shows every member of every object to `visit`, which may change its value.
    pub fn each_member(&mut self, visit: &mut impl FnMut(&str, &mut Value)) {
        match self {
            Value::Array(values) => values.iter_mut().for_each(|value| value.each_member(visit)),
            Value::Object(members) => {
                for (name, value) in members {
                    visit(name, value);
                    value.each_member(visit);
                }
            }
            _ => {}
        }
    }

    /// Whether this is an object.
    pub fn is_object(&self) -> bool {
        matches!(self, Value::Object(_))
    }

    /// Whether this is an array or an object.
    pub fn holds_others(&self) -> bool {
        matches!(self, Value::Array(_) | Value::Object(_))
    }
}

/// How a value is written.
#[derive(Clone, Copy, Debug)]
pub struct Style {
    /// How often white space stands where it may, of 100.
    pub blanks: usize,
    /// How often a character is written as an escape, of 100.
    pub escapes: usize,
}

impl Style {
    /// The shortest form.
    pub const SHORT: Style = Style { blanks: 0, escapes: 0 };

    /// One of some styles.
    pub fn any(dice: &mut Dice) -> Style {
        Style { blanks: dice.one(&[0, 0, 10, 60]), escapes: dice.one(&[0, 0, 0, 5, 50]) }
    }
}

/// The text of a value.
pub fn write(value: &Value, style: Style, dice: &mut Dice) -> Vec<u8> {
    let mut writer = Writer { bytes: Vec::new(), style, dice };
    writer.blank();
    writer.value(value);
    writer.blank();
    writer.bytes
}

struct Writer<'d> {
    bytes: Vec<u8>,
    style: Style,
    dice: &'d mut Dice,
}

impl Writer<'_> {
    fn put(&mut self, text: &str) {
        self.bytes.extend_from_slice(text.as_bytes());
    }

    fn blank(&mut self) {
        if self.style.blanks > 0 && self.dice.chance(self.style.blanks) {
            let blank = self.dice.one(&[" ", "\n", "\t", "\r\n", "  "]);
            self.put(blank);
        }
    }

    /// A mark of the grammar, with room on both sides.
    fn mark(&mut self, mark: &str) {
        self.blank();
        self.put(mark);
        self.blank();
    }

    fn value(&mut self, value: &Value) {
        match value {
            Value::Null => self.put("null"),
            Value::Bool(true) => self.put("true"),
            Value::Bool(false) => self.put("false"),
            Value::Number(number) => self.put(number),
            Value::Text(text) => self.string(text),
            Value::Array(values) => self.array(values),
            Value::Object(members) => self.object(members),
        }
    }

    fn array(&mut self, values: &[Value]) {
        self.put("[");
        self.blank();
        for (number, value) in values.iter().enumerate() {
            if number > 0 {
                self.mark(",");
            }
            self.value(value);
        }
        self.blank();
        self.put("]");
    }

    fn object(&mut self, members: &[(String, Value)]) {
        self.put("{");
        self.blank();
        for (number, (name, value)) in members.iter().enumerate() {
            if number > 0 {
                self.mark(",");
            }
            self.string(name);
            self.mark(":");
            self.value(value);
        }
        self.blank();
        self.put("}");
    }

    fn string(&mut self, text: &str) {
        self.put("\"");
        for character in text.chars() {
            let must = character < ' ' || character == '"' || character == '\\';
            if must || (self.style.escapes > 0 && self.dice.chance(self.style.escapes)) {
                self.escape(character);
            } else {
                self.put(character.encode_utf8(&mut [0; 4]));
            }
        }
        self.put("\"");
    }

    fn escape(&mut self, character: char) {
        let short = match character {
            '"' => "\\\"",
            '\\' => "\\\\",
            '/' => "\\/",
            '\u{8}' => "\\b",
            '\u{c}' => "\\f",
            '\n' => "\\n",
            '\r' => "\\r",
            '\t' => "\\t",
            _ => "",
        };
        if !short.is_empty() && self.dice.chance(50) {
            return self.put(short);
        }
        for unit in character.encode_utf16(&mut [0; 2]) {
            let escape =
                if self.dice.chance(50) { format!("\\u{unit:04x}") } else { format!("\\u{unit:04X}") };
            self.put(&escape);
        }
    }
}
