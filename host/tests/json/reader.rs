//! A reader of JSON: all of it but fractions and exponents, which the command does not write.

use std::iter::Peekable;
use std::str::Chars;

#[derive(Clone, Debug, PartialEq, Eq)]
pub enum Value {
    Null,
    Bool(bool),
    Number(i128),
    Text(String),
    List(Vec<Value>),
    Object(Vec<(String, Value)>),
}

impl Value {
    /// The entry of an object.
    pub fn get(&self, name: &str) -> Option<&Value> {
        let entries = self.entries()?;
        let (_, value) = entries.iter().find(|(entry, _)| entry == name)?;
        Some(value)
    }

    pub fn entries(&self) -> Option<&[(String, Value)]> {
        match self {
            Self::Object(entries) => Some(entries),
            _ => None,
        }
    }

    pub fn list(&self) -> &[Value] {
        match self {
            Self::List(values) => values,
            other => panic!("no list: {other:?}"),
        }
    }

    pub fn text(&self) -> &str {
        match self {
            Self::Text(text) => text,
            other => panic!("no text: {other:?}"),
        }
    }
}

impl std::ops::Index<&str> for Value {
    type Output = Value;

    fn index(&self, name: &str) -> &Value {
        let value = self.get(name);
        value.unwrap_or_else(|| panic!("no {name} in {self:?}"))
    }
}

impl std::ops::Index<usize> for Value {
    type Output = Value;

    fn index(&self, index: usize) -> &Value {
        &self.list()[index]
    }
}

impl PartialEq<i128> for Value {
    fn eq(&self, number: &i128) -> bool {
        *self == Self::Number(*number)
    }
}

impl PartialEq<&str> for Value {
    fn eq(&self, text: &&str) -> bool {
        matches!(self, Self::Text(own) if own == text)
    }
}

/// Reads one value that is all of a text.
pub fn read(text: &str) -> Result<Value, String> {
    let mut reader = Reader {
        rest: text.chars().peekable(),
    };
    let value = reader.value()?;
    reader.blanks();
    match reader.rest.next() {
        None => Ok(value),
        Some(c) => Err(format!("{c:?} behind the value")),
    }
}

struct Reader<'a> {
    rest: Peekable<Chars<'a>>,
}

impl Reader<'_> {
    fn blanks(&mut self) {
        while self.rest.next_if(|c| " \t\r\n".contains(*c)).is_some() {}
    }

    fn take(&mut self, wanted: char) -> Result<(), String> {
        self.blanks();
        match self.rest.next() {
            Some(c) if c == wanted => Ok(()),
            other => Err(format!("{other:?} for {wanted:?}")),
        }
    }

    fn value(&mut self) -> Result<Value, String> {
        self.blanks();
        match self.rest.peek() {
            Some('{') => self.object(),
            Some('[') => self.list(),
            Some('"') => self.text().map(Value::Text),
            Some('-' | '0'..='9') => self.number(),
            Some('a'..='z') => self.word(),
            other => Err(format!("{other:?} for a value")),
        }
    }

    /// Values up to an end, with commas between.
    fn items(
        &mut self,
        ends: [char; 2],
        mut item: impl FnMut(&mut Self) -> Result<(), String>,
    ) -> Result<(), String> {
        self.take(ends[0])?;
        self.blanks();
        if self.rest.next_if_eq(&ends[1]).is_some() {
            return Ok(());
        }
        loop {
            item(self)?;
            self.blanks();
            match self.rest.next() {
                Some(',') => {}
                Some(c) if c == ends[1] => return Ok(()),
                other => return Err(format!("{other:?} behind an item")),
            }
        }
    }

    fn list(&mut self) -> Result<Value, String> {
        let mut values = Vec::new();
        self.items(['[', ']'], |reader| {
            values.push(reader.value()?);
            Ok(())
        })?;
        Ok(Value::List(values))
    }

    fn object(&mut self) -> Result<Value, String> {
        let mut entries: Vec<(String, Value)> = Vec::new();
        self.items(['{', '}'], |reader| {
            reader.blanks();
            let name = reader.text()?;
            if entries.iter().any(|(other, _)| *other == name) {
                return Err(format!("{name} stands twice"));
            }
            reader.take(':')?;
            entries.push((name, reader.value()?));
            Ok(())
        })?;
        Ok(Value::Object(entries))
    }

    fn text(&mut self) -> Result<String, String> {
        self.take('"')?;
        let mut units = Vec::new();
        loop {
            match self.rest.next() {
                Some('"') => break,
                Some('\\') => units.push(self.escape()?),
                Some(c) if c >= ' ' => units.extend_from_slice(c.encode_utf16(&mut [0; 2])),
                other => return Err(format!("{other:?} in a string")),
            }
        }
        String::from_utf16(&units).map_err(|error| error.to_string())
    }

    fn escape(&mut self) -> Result<u16, String> {
        let c = self.rest.next().ok_or("an escape without an end")?;
        Ok(match c {
            '"' | '\\' | '/' => c as u16,
            'b' => 8,
            'f' => 12,
            'n' => 10,
            'r' => 13,
            't' => 9,
            'u' => {
                let digits: String = self.rest.by_ref().take(4).collect();
                u16::from_str_radix(&digits, 16).map_err(|error| error.to_string())?
            }
            other => return Err(format!("no escape: {other:?}")),
        })
    }

    fn number(&mut self) -> Result<Value, String> {
        let mut digits = String::new();
        while let Some(c) = self.rest.next_if(|c| "+-.eE0123456789".contains(*c)) {
            digits.push(c);
        }
        let plain = digits.strip_prefix('-').unwrap_or(&digits);
        if plain.len() > 1 && plain.starts_with('0') {
            return Err(format!("a zero in front: {digits}"));
        }
        let number = digits.parse().map(Value::Number);
        number.map_err(|error| format!("{digits}: {error}"))
    }

    fn word(&mut self) -> Result<Value, String> {
        let mut word = String::new();
        while let Some(c) = self.rest.next_if(char::is_ascii_lowercase) {
            word.push(c);
        }
        match word.as_str() {
            "null" => Ok(Value::Null),
            "true" => Ok(Value::Bool(true)),
            "false" => Ok(Value::Bool(false)),
            _ => Err(format!("no value: {word}")),
        }
    }
}

#[test]
fn reads_what_is_json_and_nothing_else() {
    let value = read(r#" {"a": [1, -2, true, null], "b\n\u00e9\ud83d\ude00": "x\"y"} "#).unwrap();
    assert_eq!(value["a"][1], -2);
    assert_eq!(value["b\n\u{e9}\u{1f600}"], "x\"y");
    for wrong in [
        "",
        "{",
        "[1,]",
        "{\"a\" 1}",
        "1 2",
        "01",
        "\"\n\"",
        "\"\\x\"",
        "nul",
        "1.5",
        "'a'",
        "{\"a\":1,\"a\":2}",
        "\"\\ud83d\"",
        "[1 2]",
    ] {
        assert!(read(wrong).is_err(), "{wrong}");
    }
}
