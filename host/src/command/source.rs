//! What a sheet was read from: a text whose words have places, or the bytes of a binary sheet.

use sheet_text::{plain_lines, words_in};
use wargnifla::{Call, Sheet, Span};

use super::diagnostic::Columns;
use super::options::Form;

/// Where calls come from.
pub enum Source {
    Text(TextSource),
    /// A binary sheet.
    Binary(Vec<u8>),
}

/// A text, the statement of each call, and where statements stand.
pub struct TextSource {
    pub text: String,
    pub sources: Vec<u32>,
    pub statements: Vec<Span>,
}

impl TextSource {
    pub fn statement(&self, call: usize) -> Span {
        self.statements[self.sources[call] as usize]
    }

    /// The words of the statement that makes a call.
    pub fn words(&self, call: usize) -> Vec<Span> {
        let statement = self.statement(call);
        let line = self.text.lines().nth(statement.line as usize - 1);
        line.map_or(Vec::new(), |line| words_in(line, statement))
    }

    /// The line of each call, and the statement there that makes it.
    pub fn lines_and_statements(&self) -> Vec<(usize, Option<&str>)> {
        let lines: Vec<&str> = self.text.lines().collect();
        let calls = (0..self.sources.len()).map(|call| {
            let place = self.statement(call);
            let line = lines.get(place.line as usize - 1);
            let statement = line.and_then(|line| line.get(place.columns()));
            (place.line as usize, Some(statement.unwrap_or_default()))
        });
        calls.collect()
    }

    /// The line of each call, and its text.
    pub fn lines(&self) -> Vec<(usize, &str)> {
        let lines: Vec<&str> = self.text.lines().collect();
        let calls = (0..self.sources.len()).map(|call| {
            let line = self.statement(call).line as usize;
            (line, lines.get(line - 1).copied().unwrap_or_default())
        });
        calls.collect()
    }

    pub fn word(&self, place: Span) -> &str {
        let line = self.text.lines().nth(place.line as usize - 1);
        let word = line.and_then(|line| line.get(place.columns()));
        word.unwrap_or_default()
    }

    /// Where a word of a call's statement stands, its name being word 0. A jump by name and a label with `:` have fewer words than their calls.
    pub fn place(&self, call: usize, made: &Call, word: usize) -> Span {
        let words = self.words(call);
        let first = words.first().map_or("", |first| self.word(*first));
        let is_call = ["jump", "use"]
            .iter()
            .any(|call| first.eq_ignore_ascii_case(call));
        let is_named_jump = first.len() > 1 && !is_call;
        let word = match made {
            Call::Jump { .. } if is_named_jump => usize::from(word == 3),
            Call::Use { .. } if is_named_jump => usize::from(word == 2),
            _ => word,
        };
        let found = words.get(word).or(words.first());
        found.copied().unwrap_or_else(|| self.statement(call))
    }
}

/// Binary if it is a sheet by length and kinds, and text otherwise.
pub fn form_of(bytes: &[u8]) -> Form {
    match Sheet::read(bytes) {
        Ok(sheet) if sheet.has_known_kinds() => Form::Binary,
        _ => Form::Text,
    }
}

/// The text that some bytes are, or the place of the first byte that is in none, and what is wrong.
pub fn text_of(bytes: &[u8]) -> Result<String, (Columns, String)> {
    const UTF_16: [&[u8]; 2] = [&[0xFF, 0xFE], &[0xFE, 0xFF]];
    if UTF_16.iter().any(|mark| bytes.starts_with(mark)) {
        let sentence = "this text is UTF-16; save it as UTF-8".into();
        return Err((place_behind(""), sentence));
    }
    let valid = match str::from_utf8(bytes) {
        Ok(_) => bytes.len(),
        Err(error) => error.valid_up_to(),
    };
    let zero = bytes[..valid].iter().position(|byte| *byte == 0);
    let at = zero.unwrap_or(valid);
    let Some(byte) = bytes.get(at) else {
        let text = String::from_utf8_lossy(bytes);
        return Ok(plain_lines(&text).into_owned());
    };
    let before = String::from_utf8_lossy(&bytes[..at]);
    let help = if bytes.contains(&0) {
        "this is neither a text nor a binary sheet, which has 4 bytes, 17 more for each call, and kinds 1 to 10; \
         --binary says what is wrong with it as one"
    } else {
        "save the text as UTF-8"
    };
    let what = match byte {
        0 => "a zero byte stands in no text".into(),
        _ => format!("the byte {byte:02X} is no UTF-8"),
    };
    Err((place_behind(&before), format!("{what}: {help}")))
}

/// The place of the character behind the start of a text.
fn place_behind(start: &str) -> Columns {
    let lines = plain_lines(start);
    let last = lines.rsplit('\n').next().unwrap_or_default();
    let column = last.chars().count() + 1;
    Columns {
        line: lines.matches('\n').count() + 1,
        start: column,
        end: column + 1,
    }
}

#[cfg(test)]
mod tests {
    use super::*;

    #[test]
    fn forms_are_told_apart() {
        assert_eq!(form_of(b""), Form::Text);
        assert_eq!(form_of(b"n; l 0\r\n\tb 00"), Form::Text);
        assert_eq!(form_of("n # \u{e9}".as_bytes()), Form::Text);
        assert_eq!(form_of(&[0; 4]), Form::Binary);
        assert_eq!(form_of(b"n\0"), Form::Text);
        assert_eq!(form_of(b"n \xFF"), Form::Text);
        let mut sheet = vec![1, 0, 0, 0, 2];
        sheet.extend([0; 16]);
        assert_eq!(form_of(&sheet), Form::Binary);
        sheet[4] = 11;
        assert_eq!(form_of(&sheet), Form::Text);
    }

    #[test]
    fn bytes_that_are_no_text_are_named_by_line_and_column() {
        let wrong = |bytes: &[u8]| text_of(bytes).unwrap_err();
        let at = |bytes: &[u8]| (wrong(bytes).0.line, wrong(bytes).0.start);
        assert_eq!(
            wrong(b"n\n# caf\xE9\n").1,
            "the byte E9 is no UTF-8: save the text as UTF-8"
        );
        assert_eq!(at(b"n\n# caf\xE9\n"), (2, 6));
        assert_eq!(at("\u{e9}\0".as_bytes()), (1, 2));
        assert_eq!(at(b"n\n\nb 00\0"), (3, 5));
        assert_eq!(at(b"n\rn\r\n\xFF"), (3, 1));
        assert!(wrong(b"n\0").1.contains("--binary"));
        assert!(wrong(b"\xFF\xFEn\0").1.contains("UTF-16"));
        assert_eq!(text_of("\u{FEFF}n".as_bytes()), Ok("n".into()));
    }
}
