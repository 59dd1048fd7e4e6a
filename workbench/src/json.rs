//! JSON: values read from a line and written on one. A number stays as it is written.

use std::fmt::{self, Write};

/// Lists and objects in each other beyond this are refused, so that no input takes more stack.
const MAX_DEPTH: usize = 16;

#[derive(Clone, Debug, PartialEq, Eq)]
pub enum Value {
    Null,
    Bool(bool),
    Number(String),
    Text(String),
    List(Vec<Value>),
    Object(Vec<(String, Value)>),
}

/// What is wrong with a text, and at which byte, counted from 1.
#[derive(Debug, PartialEq, Eq)]
pub struct Wrong {
    pub byte: usize,
    pub what: &'static str,
}

impl fmt::Display for Wrong {
    fn fmt(&self, formatter: &mut fmt::Formatter<'_>) -> fmt::Result {
        write!(formatter, "no JSON at byte {}: {}", self.byte, self.what)
    }
}

impl From<String> for Value {
    fn from(text: String) -> Value {
        Value::Text(text)
    }
}

impl From<&str> for Value {
    fn from(text: &str) -> Value {
        Value::Text(text.to_string())
    }
}

impl From<u64> for Value {
    fn from(number: u64) -> Value {
        Value::Number(number.to_string())
    }
}

impl From<u32> for Value {
    fn from(number: u32) -> Value {
        Value::from(u64::from(number))
    }
}

/// An object of these members.
pub fn object(members: Vec<(&str, Value)>) -> Value {
    let owned = members.into_iter().map(|(key, value)| (key.to_string(), value));
    Value::Object(owned.collect())
}

/// Reads a text that is one value.
pub fn read(text: &str) -> Result<Value, Wrong> {
    let mut reader = Reader { text, at: 0 };
    let value = reader.value(0)?;
    reader.skip_blanks();
    match reader.peek() {
        None => Ok(value),
        Some(_) => Err(reader.wrong("something stands behind the value")),
    }
}

struct Reader<'a> {
    text: &'a str,
    /// The next byte, counted from 0.
    at: usize,
}

impl Reader<'_> {
    fn peek(&self) -> Option<u8> {
        self.text.as_bytes().get(self.at).copied()
    }

    fn wrong(&self, what: &'static str) -> Wrong {
        Wrong {
            byte: self.at + 1,
            what,
        }
    }

    fn skip_blanks(&mut self) {
        while matches!(self.peek(), Some(b' ' | b'\t' | b'\n' | b'\r')) {
            self.at += 1;
        }
    }

    /// Takes a byte where it is the next.
    fn takes(&mut self, byte: u8) -> bool {
        let is_next = self.peek() == Some(byte);
        self.at += usize::from(is_next);
        is_next
    }

    fn value(&mut self, depth: usize) -> Result<Value, Wrong> {
        if depth > MAX_DEPTH {
            return Err(self.wrong("lists and objects stand too deep in each other"));
        }
        self.skip_blanks();
        match self.peek() {
            Some(b'{') => self.object(depth),
            Some(b'[') => self.list(depth),
            Some(b'"') => Ok(Value::Text(self.string()?)),
            Some(b'-' | b'0'..=b'9') => self.number(),
            Some(_) => self.word(),
            None => Err(self.wrong("a value is due, and the text ends")),
        }
    }

    fn word(&mut self) -> Result<Value, Wrong> {
        let words = [
            ("null", Value::Null),
            ("true", Value::Bool(true)),
            ("false", Value::Bool(false)),
        ];
        for (word, value) in words {
            if self.text.as_bytes()[self.at..].starts_with(word.as_bytes()) {
                self.at += word.len();
                return Ok(value);
            }
        }
        Err(self.wrong("a value is due"))
    }

    fn object(&mut self, depth: usize) -> Result<Value, Wrong> {
        let mut members: Vec<(String, Value)> = Vec::new();
        self.at += 1;
        self.skip_blanks();
        if self.takes(b'}') {
            return Ok(Value::Object(members));
        }
        loop {
            self.skip_blanks();
            let start = self.at;
            if self.peek() != Some(b'"') {
                return Err(self.wrong("a key in quotation marks is due"));
            }
            let key = self.string()?;
            if members.iter().any(|(other, _)| *other == key) {
                self.at = start;
                return Err(self.wrong("this key stands twice"));
            }
            self.skip_blanks();
            if !self.takes(b':') {
                return Err(self.wrong("a colon is due"));
            }
            members.push((key, self.value(depth + 1)?));
            self.skip_blanks();
            if self.takes(b'}') {
                return Ok(Value::Object(members));
            }
            if !self.takes(b',') {
                return Err(self.wrong("a comma or the object's end is due"));
            }
        }
    }

    fn list(&mut self, depth: usize) -> Result<Value, Wrong> {
        let mut values = Vec::new();
        self.at += 1;
        self.skip_blanks();
        if self.takes(b']') {
            return Ok(Value::List(values));
        }
        loop {
            values.push(self.value(depth + 1)?);
            self.skip_blanks();
            if self.takes(b']') {
                return Ok(Value::List(values));
            }
            if !self.takes(b',') {
                return Err(self.wrong("a comma or the list's end is due"));
            }
        }
    }

    fn number(&mut self) -> Result<Value, Wrong> {
        let start = self.at;
        self.takes(b'-');
        if !self.takes(b'0') {
            self.digits()?;
        }
        if self.takes(b'.') {
            self.digits()?;
        }
        if self.takes(b'e') || self.takes(b'E') {
            if !self.takes(b'-') {
                self.takes(b'+');
            }
            self.digits()?;
        }
        Ok(Value::Number(self.text[start..self.at].to_string()))
    }

    fn digits(&mut self) -> Result<(), Wrong> {
        let start = self.at;
        while matches!(self.peek(), Some(b'0'..=b'9')) {
            self.at += 1;
        }
        if self.at == start {
            return Err(self.wrong("a digit is due"));
        }
        Ok(())
    }

    fn string(&mut self) -> Result<String, Wrong> {
        let mut string = String::new();
        self.at += 1;
        loop {
            let start = self.at;
            while !matches!(self.peek(), None | Some(b'"' | b'\\' | 0..=0x1f)) {
                self.at += 1;
            }
            string.push_str(&self.text[start..self.at]);
            match self.peek() {
                Some(b'"') => {
                    self.at += 1;
                    return Ok(string);
                }
                Some(b'\\') => string.push(self.escaped()?),
                Some(_) => return Err(self.wrong("a control character stands in a string: \\t and \\n are due there")),
                None => return Err(self.wrong("a string has no end")),
            }
        }
    }

    fn escaped(&mut self) -> Result<char, Wrong> {
        self.at += 1;
        let escaped = match self.peek() {
            Some(b'"') => '"',
            Some(b'\\') => '\\',
            Some(b'/') => '/',
            Some(b'b') => '\u{8}',
            Some(b'f') => '\u{c}',
            Some(b'n') => '\n',
            Some(b'r') => '\r',
            Some(b't') => '\t',
            Some(b'u') => return self.unicode(),
            _ => return Err(self.wrong("no such escape")),
        };
        self.at += 1;
        Ok(escaped)
    }

    /// `\u` and four hexadecimal digits, from the `u` on, or two of them that are a surrogate pair.
    fn unicode(&mut self) -> Result<char, Wrong> {
        let start = self.at;
        let first = self.four_digits()?;
        let code = if (0xd800..0xdc00).contains(&first) && self.takes(b'\\') && self.peek() == Some(b'u') {
            let second = self.four_digits()?;
            let low = second.checked_sub(0xdc00).filter(|low| *low < 0x400);
            low.map(|low| 0x10000 + ((first - 0xd800) << 10) + low)
        } else {
            Some(first)
        };
        code.and_then(char::from_u32).ok_or(Wrong {
            byte: start,
            what: "half of a surrogate pair stands alone",
        })
    }

    fn four_digits(&mut self) -> Result<u32, Wrong> {
        self.at += 1;
        let mut code = 0;
        for _ in 0..4 {
            let digit = self.peek().and_then(|byte| char::from(byte).to_digit(16));
            code = 16 * code + digit.ok_or_else(|| self.wrong("four hexadecimal digits are due"))?;
            self.at += 1;
        }
        Ok(code)
    }
}

impl fmt::Display for Value {
    fn fmt(&self, formatter: &mut fmt::Formatter<'_>) -> fmt::Result {
        match self {
            Value::Null => formatter.write_str("null"),
            Value::Bool(is_true) => write!(formatter, "{is_true}"),
            Value::Number(digits) => formatter.write_str(digits),
            Value::Text(text) => write_string(formatter, text),
            Value::List(values) => {
                formatter.write_char('[')?;
                for (place, value) in values.iter().enumerate() {
                    formatter.write_str(if place == 0 { "" } else { "," })?;
                    write!(formatter, "{value}")?;
                }
                formatter.write_char(']')
            }
            Value::Object(members) => {
                formatter.write_char('{')?;
                for (place, (key, value)) in members.iter().enumerate() {
                    formatter.write_str(if place == 0 { "" } else { "," })?;
                    write_string(formatter, key)?;
                    write!(formatter, ":{value}")?;
                }
                formatter.write_char('}')
            }
        }
    }
}

fn write_string(formatter: &mut fmt::Formatter<'_>, text: &str) -> fmt::Result {
    formatter.write_char('"')?;
    for letter in text.chars() {
        match letter {
            '"' => formatter.write_str("\\\"")?,
            '\\' => formatter.write_str("\\\\")?,
            '\n' => formatter.write_str("\\n")?,
            '\r' => formatter.write_str("\\r")?,
            '\t' => formatter.write_str("\\t")?,
            '\0'..='\u{1f}' => write!(formatter, "\\u{:04x}", u32::from(letter))?,
            _ => formatter.write_char(letter)?,
        }
    }
    formatter.write_char('"')
}

#[cfg(test)]
mod tests {
    use super::*;

    fn text(words: &str) -> Value {
        Value::from(words)
    }

    #[test]
    fn values() {
        for (written, value) in [
            ("null", Value::Null),
            (" true\r\n", Value::Bool(true)),
            ("false", Value::Bool(false)),
            ("-0", Value::Number("-0".to_string())),
            ("12.50e+3", Value::Number("12.50e+3".to_string())),
            ("\"\"", text("")),
            ("[ ]", Value::List(vec![])),
            ("{ }", Value::Object(vec![])),
            (
                "[1,[\"a\"]]",
                Value::List(vec![1_u32.into(), Value::List(vec![text("a")])]),
            ),
            (
                "{\"a\" : 1 , \"b\":{}}",
                object(vec![("a", 1_u32.into()), ("b", object(vec![]))]),
            ),
        ] {
            assert_eq!(read(written), Ok(value), "{written}");
        }
    }

    #[test]
    fn escapes() {
        assert_eq!(
            read(r#""\"\\\/\b\f\n\r\t\u0041\u00e9\uD83D\ude00é""#),
            Ok(text("\"\\/\u{8}\u{c}\n\r\tAé\u{1f600}é"))
        );
        let whole: String = ('\0'..='\u{ff}').chain("\u{2028}\u{1f600}".chars()).collect();
        let value = object(vec![(&whole, Value::from(whole.as_str()))]);
        let written = value.to_string();
        assert!(written.bytes().all(|byte| byte >= b' '), "{written}");
        assert_eq!(read(&written), Ok(value));
    }

    #[test]
    fn what_is_no_json_is_told_with_its_byte() {
        for (written, byte, what) in [
            ("", 1, "a value is due, and the text ends"),
            ("x", 1, "a value is due"),
            ("nul", 1, "a value is due"),
            ("\u{feff}{}", 1, "a value is due"),
            ("{} x", 4, "something stands behind the value"),
            ("01", 2, "something stands behind the value"),
            ("-", 2, "a digit is due"),
            ("1.", 3, "a digit is due"),
            ("1e+", 4, "a digit is due"),
            ("[1", 3, "a comma or the list's end is due"),
            ("[1,]", 4, "a value is due"),
            ("{1:2}", 2, "a key in quotation marks is due"),
            ("{\"a\" 1}", 6, "a colon is due"),
            ("{\"a\":1", 7, "a comma or the object's end is due"),
            ("{\"a\":1,\"a\":2}", 8, "this key stands twice"),
            ("\"ab", 4, "a string has no end"),
            (
                "\"a\tb\"",
                3,
                "a control character stands in a string: \\t and \\n are due there",
            ),
            ("\"\\x\"", 3, "no such escape"),
            ("\"\\u12g4\"", 6, "four hexadecimal digits are due"),
            ("\"\\ud83d\"", 2, "half of a surrogate pair stands alone"),
            ("\"\\ud83dx\"", 2, "half of a surrogate pair stands alone"),
            ("\"\\ud83d\\n\"", 2, "half of a surrogate pair stands alone"),
            ("\"\\ud83d\\u0041\"", 2, "half of a surrogate pair stands alone"),
            ("\"\\ude00\"", 2, "half of a surrogate pair stands alone"),
        ] {
            assert_eq!(read(written), Err(Wrong { byte, what }), "{written}");
        }
    }

    /// Each byte of a line replaced: it is read or it is not, and what is read is written and read again as it is.
    #[test]
    fn damaged_lines() {
        let line = r#"{"id":[-1.5e3,null,{"a":true}],"plan":"P\t1\u00e9\ud83d\ude00\n"}"#;
        let (mut read_ones, mut wrong_ones) = (0, 0);
        for place in 0..line.len() {
            for byte in 0..=0x7f {
                let mut bytes = line.as_bytes().to_vec();
                bytes[place] = byte;
                match read(std::str::from_utf8(&bytes).unwrap()) {
                    Ok(value) => {
                        read_ones += 1;
                        assert_eq!(read(&value.to_string()), Ok(value));
                    }
                    Err(wrong) => {
                        wrong_ones += 1;
                        assert!((1..=line.len() + 1).contains(&wrong.byte), "{wrong}");
                    }
                }
            }
        }
        assert!(read_ones > 1000 && wrong_ones > 1000, "{read_ones} {wrong_ones}");
    }

    #[test]
    fn depth_is_limited() {
        let nested = |depth: usize| "[".repeat(depth) + &"]".repeat(depth);
        assert!(read(&nested(MAX_DEPTH + 1)).is_ok());
        assert_eq!(
            read(&nested(1_000_000)).unwrap_err().what,
            "lists and objects stand too deep in each other"
        );
    }
}
