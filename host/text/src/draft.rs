//! A text that may be half typed: what it says up to its first wrong statement, and what is wrong with all of it.

use std::collections::BTreeSet;

use crate::placing::Placing;
use crate::reader::{check_count, read_steps};
use crate::text_call::Step;
use crate::tokens::{Token, tokens};
use crate::{Arch, Script, Span, TextCall, TextError, plain_lines};

/// The most errors that a draft has.
pub const MOST_ERRORS: usize = 20;

/// What a text says that may be wrong.
#[derive(Clone, Debug, PartialEq, Eq)]
pub struct Draft<C> {
    /// What the text says up to its first wrong statement: all of it where none is wrong. A group that is wrong inside stands here once, up to there.
    /// A definition by a label that is made after that statement is left out.
    pub script: Script<C>,
    /// What is wrong, in order of place: of each wrong statement the first error, and at most [`MOST_ERRORS`]. A note without a place stands beside
    /// the first error that has it.
    pub errors: Vec<TextError>,
    /// Whether the text has more errors.
    pub has_more_errors: bool,
}

impl<C> Draft<C> {
    /// The script of a text in which nothing is wrong.
    ///
    /// # Errors
    ///
    /// The first error of the text.
    pub fn into_script(self) -> Result<Script<C>, TextError> {
        match self.errors.into_iter().next() {
            None => Ok(self.script),
            Some(first) => Err(first),
        }
    }
}

/// Reads a text that may be half typed. After a wrong statement it reads on at the next one, as if the wrong one had made its labels and symbols.
/// `arch` and `append` are those of [`read_text`](crate::read_text).
pub fn read_draft<C>(
    text: &str,
    arch: Option<Arch>,
    append: impl Fn(TextCall, &mut Vec<C>) -> Result<(), String>,
) -> Draft<C> {
    let text = plain_lines(text);
    let tokens = tokens(&text);
    let (script, mut errors) = read_tokens(&tokens, tokens.len(), arch, &append);
    errors.sort_by_key(|error| start(error.place));
    errors.dedup_by_key(|error| statement_at(&tokens, error.place));
    let Some(first) = errors.first() else {
        return Draft {
            script,
            errors,
            has_more_errors: false,
        };
    };
    drop(script);
    let (script, _) = read_tokens(&tokens, statement_at(&tokens, first.place), arch, &append);
    let has_more_errors = errors.len() > MOST_ERRORS;
    errors.truncate(MOST_ERRORS);
    say_notes_once(&mut errors);
    Draft {
        script,
        errors,
        has_more_errors,
    }
}

/// Leaves out notes without a place that an earlier error has.
fn say_notes_once(errors: &mut [TextError]) {
    let mut said = BTreeSet::new();
    for error in errors {
        let notes = &mut error.notes;
        notes.retain(|note| note.place.is_some() || said.insert(note.sentence.clone()));
    }
}

fn start(place: Span) -> (u32, u32) {
    (place.line, place.start)
}

/// The first token of the statement that a place stands in.
fn statement_at(tokens: &[Token<'_>], place: Span) -> usize {
    let after = tokens.partition_point(|token| start(token.place) <= start(place));
    let mut at = after.saturating_sub(1);
    let is_argument = |at: usize| {
        let follows_word = tokens[at - 1].is_word() && !tokens[at - 1].text.ends_with(':');
        tokens[at].is_word() && follows_word
    };
    while at > 0 && is_argument(at) {
        at -= 1;
    }
    at
}

/// What the tokens before `end` say, and what is wrong with them.
fn read_tokens<C>(
    tokens: &[Token<'_>],
    end: usize,
    arch: Option<Arch>,
    append: impl Fn(TextCall, &mut Vec<C>) -> Result<(), String>,
) -> (Script<C>, Vec<TextError>) {
    let (read, mut errors) = read_steps(tokens, end);
    let arch = arch.or(read.arch).unwrap_or(Arch::X64);
    let (calls, sources, unplaced) = place_steps(read.steps, &read.statements, arch, append);
    errors.extend(unplaced);
    let script = Script {
        arch: read.arch,
        symbols: read.symbols,
        calls,
        sources,
        statements: read.statements,
        names: read.names,
        symbol_names: read.symbol_names,
        definitions: read.definitions,
    };
    (script, errors)
}

/// The calls that steps make, the statement of each, and the errors of statements that make none: one for each, however often it is repeated.
fn place_steps<C>(
    steps: Vec<(Step, u32)>,
    statements: &[Span],
    arch: Arch,
    append: impl Fn(TextCall, &mut Vec<C>) -> Result<(), String>,
) -> (Vec<C>, Vec<u32>, Vec<TextError>) {
    let mut placing = Placing::new(arch, append);
    let mut sources = Vec::new();
    let mut errors = Vec::new();
    let mut wrong = BTreeSet::new();
    for (step, statement) in steps {
        let place = statements[statement as usize];
        if let Err(sentence) = placing.step(step)
            && wrong.insert(statement)
        {
            errors.push(TextError::new(place, sentence));
        }
        sources.resize(placing.calls.len(), statement);
        if let Err(error) = check_count(placing.calls.len(), place) {
            errors.push(error);
            break;
        }
        if errors.len() > MOST_ERRORS {
            break;
        }
    }
    (placing.calls, sources, errors)
}

#[cfg(test)]
mod tests {
    use super::*;

    fn draft(text: &str) -> Draft<TextCall> {
        read_draft(text, None, |call, calls| {
            calls.push(call);
            match calls.last() {
                Some(TextCall::Finish) => Err("finish is no call".into()),
                _ => Ok(()),
            }
        })
    }

    /// The errors of a text: line, and what is marked there.
    fn marked(text: &str) -> Vec<(u32, &str)> {
        let lines: Vec<&str> = text.lines().collect();
        let draft = draft(text);
        let places = draft.errors.iter().map(|error| error.place);
        let marked =
            places.map(|place| (place.line, &lines[place.line as usize - 1][place.columns()]));
        marked.collect()
    }

    /// Checks that a text says, up to its first wrong statement, what another text says.
    fn says(text: &str, before: &str) {
        let script = draft(text).script;
        let expected = draft(before);
        assert_eq!(expected.errors, [], "{before}");
        assert_eq!(script.calls, expected.script.calls, "{text}");
        assert_eq!(script.names, expected.script.names, "{text}");
        assert_eq!(script.symbol_names, expected.script.symbol_names, "{text}");
        assert_eq!(script.definitions, expected.script.definitions, "{text}");
        assert_eq!(script.sources.len(), script.calls.len(), "{text}");
    }

    #[test]
    fn a_text_without_errors_is_whole() {
        let text = "symbols puts\nend: 2 ( jmp end ) b C3\ndefine a end";
        let draft = draft(text);
        assert_eq!((draft.errors.len(), draft.has_more_errors), (0, false));
        let script = crate::read_text(text, None, |call, calls| {
            calls.push(call);
            Ok(())
        });
        assert_eq!(Ok(draft.script), script);
    }

    #[test]
    fn a_draft_says_what_stands_before_its_first_wrong_statement() {
        says("b 90\nend: jmp\nb 91\nother:", "b 90\nend:");
        says("b 90; jump 0 5x end; b 91", "b 90");
        says("symbols a b; n; x; b 91", "symbols a b; n");
        says("define a 0; n; define b ent; n", "define a 0; n");
        says("n; f; b 90", "n");
        says("x", "");
        says("n; b 0", "n");
        says("n; )", "n");
    }

    #[test]
    fn a_group_that_is_wrong_inside_stands_once_up_to_there() {
        says("n; 3 ( b 90; x; b 91 ); b 92", "n; b 90");
        says("2 ( 2 ( b 90 ) 3 ( b 91; x ) )", "b 90; b 90; b 91");
        says("0 ( b 90; x )", "");
        says("b 90; 3 ( b 91", "b 90");
        let script = draft("2 ( n; jmp end; l 1; x; jmp out )").script;
        let names = [(0, "end".to_owned()), (1, "out".to_owned())];
        assert_eq!(script.names, names);
    }

    #[test]
    fn a_definition_by_a_label_that_is_made_later_is_left_out() {
        let script = draft("define a end; define b start; start:\nx\nend:").script;
        let symbols = script.definitions.iter().map(|found| &found.symbol);
        assert!(symbols.eq([&"b".into()]));
    }

    #[test]
    fn definitions_after_many_that_are_left_out_stand() {
        let many: String = (0..50).map(|i| format!("define a{i} end\n")).collect();
        let script = draft(&format!("{many}start: define b start\nx\nend:")).script;
        assert_eq!(script.definitions.len(), 1);
    }

    #[test]
    fn all_errors_are_found_in_order_of_place() {
        let text = "define a ent\nx\nb 0g; zeros; b 90\nfinish\ny\nend: o 0 0 s0 z";
        let expected = [
            (2, "x"),
            (3, "0g"),
            (3, "zeros"),
            (4, "finish"),
            (5, "y"),
            (6, "z"),
        ];
        assert_eq!(marked(text), expected);
        let text = "define a ent; zeros\nend: l1: o 0 0 l1\narch aarch64";
        assert_eq!(
            marked(text),
            [(1, "ent"), (1, "zeros"), (2, "l1"), (3, "arch")]
        );
        assert_eq!(
            marked("arch aarch64; 9 ( jmp a; je a )"),
            [(1, "jmp a"), (1, "je a")]
        );
    }

    #[test]
    fn a_draft_has_so_many_errors() {
        for (wrong, has_more) in [(19, false), (20, false), (21, true), (500, true)] {
            let draft = draft(&"b 9\n".repeat(wrong));
            assert_eq!(draft.errors.len(), wrong.min(MOST_ERRORS));
            assert_eq!(draft.has_more_errors, has_more);
            assert_eq!(
                draft.errors.last().unwrap().place.line,
                wrong.min(20) as u32
            );
        }
        for late in ["jmp a\n", "define x y\n", "l1: o 0 0 l1\n"] {
            let text = format!("arch aarch64\n{}", late.repeat(30));
            let draft = draft(&text);
            assert_eq!(draft.errors.len(), MOST_ERRORS, "{late}");
            assert!(draft.has_more_errors, "{late}");
        }
        let deep = "2 ( x ".repeat(10) + &") ".repeat(10) + &"x;".repeat(30);
        assert!(draft(&deep).has_more_errors);
    }

    #[test]
    fn notes_without_a_place_are_said_once() {
        let errors = draft("x\ny\nlabel a; label a; label a").errors;
        let notes: Vec<usize> = errors.iter().map(|error| error.notes.len()).collect();
        assert_eq!(notes, [1, 0, 1, 1]);
    }

    #[test]
    fn labels_of_wrong_statements_count_as_made() {
        assert_eq!(marked("label a b\nbind 0\ndefine s0 a"), [(1, "b")]);
        assert_eq!(marked("n; label 9x\ndefine s0 1"), [(1, "9x")]);
        assert_eq!(marked("label a\nlabel a\ndefine s0 1"), [(2, "a")]);
        assert_eq!(marked("constant-label x pi\ndefine s0 pi"), [(1, "x")]);
        assert_eq!(marked("jump 0 5x end\ndefine s0 end"), [(1, "5x")]);
        assert_eq!(marked("labl; jmp end\nbind 0\ndefine s0 x"), [(1, "labl")]);
        assert_eq!(marked("2 ( label a )\ndefine s0 a"), [(1, "a")]);
        assert_eq!(marked("jmp a; define s0 0\nx"), [(1, "0"), (2, "x")]);
    }

    #[test]
    fn symbols_of_wrong_statements_count_as_named() {
        assert_eq!(
            marked("symbols a 9x b\no 0 0 b\njmp b"),
            [(1, "9x"), (3, "b")]
        );
        assert_eq!(marked("n\nsymbols a\no 0 0 a"), [(2, "symbols")]);
        assert_eq!(marked("symbols 3\nsymbols a b c\no 0 0 c"), [(2, "a")]);
        assert_eq!(marked("arch mips\njmp end"), [(1, "mips")]);
    }

    #[test]
    fn a_wrong_group_is_one_error() {
        for (text, wrong) in [
            ("3 ( b 90\nlabel x\ndefine s0 x\n2 ( b 91 )", "3"),
            ("3 ( 2 ( b 90", "3"),
            ("3x ( n; b 90 ) b 91", "3x"),
            ("( n; b 90 ) b 91", "("),
            ("n ( b 90 ) b 91", "("),
            ("90 90 90; b 91", "90"),
            ("3 n; l 0", "3"),
            ("2 ( n ) ) b 91", ")"),
            ("see (below) or (there); b 90", "see"),
            ("see (\nb 90\n) b 91", "see"),
        ] {
            let marked = marked(text);
            assert_eq!(marked, [(1, wrong)], "{text}");
        }
        let deep = "1 ( ".repeat(17) + &")".repeat(17);
        assert_eq!(marked(&deep), [(1, "1")]);
        assert_eq!(draft(&deep).errors[0].place.start, 64);
    }

    #[test]
    fn deep_and_long_texts_end() {
        for part in [
            "1 ( ", "( ", ") ", "x ( ", "x (\n", "( ) ", "1 ( x ) ", "a!: ",
        ] {
            let text = part.repeat(20_000);
            assert!(!draft(&text).errors.is_empty(), "{part}");
        }
        let deep = "1 ( ".repeat(20_000) + &") ".repeat(20_000);
        assert_eq!(draft(&deep).errors.len(), 1);
        let deep = "( ".repeat(20_000) + &") ".repeat(20_000);
        assert!(draft(&deep).has_more_errors || draft(&deep).errors.len() == 17);
    }

    #[test]
    fn too_many_calls_are_one_error() {
        let text = "b 90\n4194304 ( b 91 )\nb 92; b 93; x";
        assert_eq!(marked(text), [(2, "4194304"), (3, "x")]);
        says(text, "b 90");
        let text = "4194304 ( b 91 )\nb 92; b 93; x";
        assert_eq!(marked(text), [(2, "b 92"), (2, "x")]);
    }
}
