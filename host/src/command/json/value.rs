//! Values in JSON.

use std::fmt::Write;

/// A value, written out.
pub struct Json(String);

/// The entries of an object.
pub type Entries = Vec<(&'static str, Json)>;

impl Json {
    pub fn null() -> Self {
        Self("null".into())
    }

    pub fn list(values: impl IntoIterator<Item = Self>) -> Self {
        let values: Vec<String> = values.into_iter().map(|value| value.0).collect();
        Self(format!("[{}]", values.join(", ")))
    }

    pub fn object(entries: impl IntoIterator<Item = (&'static str, Self)>) -> Self {
        let entries: Vec<String> = entries.into_iter().map(Self::entry).collect();
        Self(format!("{{{}}}", entries.join(", ")))
    }

    /// An object with a line for each entry.
    pub fn object_in_lines(entries: Entries) -> Self {
        let entries: Vec<String> = entries.into_iter().map(Self::entry).collect();
        Self(format!("{{\n  {}\n}}", entries.join(",\n  ")))
    }

    /// Bytes as hexadecimal digits.
    pub fn hex(bytes: &[u8]) -> Self {
        let mut digits = String::with_capacity(2 * bytes.len() + 2);
        for byte in bytes {
            let _ = write!(digits, "{byte:02X}");
        }
        Self(format!("\"{digits}\""))
    }

    pub fn text(&self) -> &str {
        &self.0
    }

    fn entry((name, value): (&'static str, Self)) -> String {
        format!("\"{name}\": {}", value.0)
    }
}

impl From<&str> for Json {
    fn from(text: &str) -> Self {
        let mut quoted = String::with_capacity(text.len() + 2);
        quoted.push('"');
        for c in text.chars() {
            match c {
                '"' | '\\' => quoted.extend(['\\', c]),
                _ if c.is_control() => {
                    let _ = write!(quoted, "\\u{:04x}", u32::from(c));
                }
                _ => quoted.push(c),
            }
        }
        quoted.push('"');
        Self(quoted)
    }
}

impl From<String> for Json {
    fn from(text: String) -> Self {
        text.as_str().into()
    }
}

macro_rules! written_as_it_is {
    ($($kind:ty),*) => {$(
        impl From<$kind> for Json {
            fn from(value: $kind) -> Self {
                Self(value.to_string())
            }
        }
    )*};
}

written_as_it_is!(bool, i32, i64, u32, usize);

impl<T: Into<Json>> From<Option<T>> for Json {
    fn from(value: Option<T>) -> Self {
        value.map_or_else(Self::null, Into::into)
    }
}

#[cfg(test)]
mod tests {
    use super::*;

    #[test]
    fn strings_are_quoted_and_their_controls_escaped() {
        let quoted = |text: &str| Json::from(text).0;
        assert_eq!(quoted("a\"b\\c"), r#""a\"b\\c""#);
        assert_eq!(
            quoted("\n\t\u{1b}\u{7f}\0"),
            r#""\u000a\u0009\u001b\u007f\u0000""#
        );
        assert_eq!(quoted("caf\u{e9} \u{1f600}"), "\"caf\u{e9} \u{1f600}\"");
    }

    #[test]
    fn numbers_are_exact() {
        assert_eq!(Json::from(i64::MIN).0, "-9223372036854775808");
        assert_eq!(Json::from(i64::MAX).0, "9223372036854775807");
        assert_eq!(Json::from(None::<u32>).0, "null");
    }

    #[test]
    fn objects_and_lists() {
        let list = Json::list([1_u32, 2].map(Json::from));
        let object = Json::object([("a", list), ("b", Json::hex(&[0, 0xAB]))]);
        assert_eq!(object.0, r#"{"a": [1, 2], "b": "00AB"}"#);
        let lines = Json::object_in_lines(vec![("a", true.into()), ("b", Json::null())]);
        assert_eq!(lines.0, "{\n  \"a\": true,\n  \"b\": null\n}");
        assert_eq!(Json::list([]).0, "[]");
    }
}
