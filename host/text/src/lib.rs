//! Sheets as text: read into calls, each with its place, and the names that stand there for document 01's numbers.
//!
//! Calls are separated by `;` or a line's end, and `#` starts a comment. host/README.md has the table of calls; every long word has a one-letter
//! abbreviation.
//!
//! The host and the driver of the Rust reference both read texts by this crate. Each says what becomes of the [`TextCall`]s that it reads: the driver
//! has calls of its own, and takes a finish amid them.

#![forbid(unsafe_code)]
#![warn(missing_docs)]

mod call;
mod definitions;
mod draft;
mod groups;
mod instructions;
mod kinds;
mod labels;
mod padding;
mod place;
mod placing;
mod reader;
mod shown;
mod suggest;
mod symbols;
mod text_call;
mod tokens;
mod unknown;
mod words;

use std::borrow::Cow;

pub use call::{CALL_NAMES, Call};
pub use definitions::{Definition, ExternalName};
pub use draft::{Draft, MOST_ERRORS, read_draft};
pub use kinds::{Arch, Condition, LabelUse, Reach, Reloc};
pub use padding::{DEFAULT_MOST, Padding, most_of_word};
pub use place::{Note, Span, TextError};
pub use placing::long_jump;
pub use shown::{counted, escaped, shown};
pub use suggest::nearest;
pub use text_call::TextCall;
pub use tokens::words_in;
pub use unknown::{NoSuchName, NoSuchNumber};

/// What a text says.
#[derive(Clone, Debug, PartialEq, Eq)]
pub struct Script<C> {
    /// The architecture, if the text names one.
    pub arch: Option<Arch>,
    /// The number of symbols, if the text says it or names them.
    pub symbols: Option<u32>,
    /// The calls, groups written out.
    pub calls: Vec<C>,
    /// For each call, the index of the statement that makes it.
    pub sources: Vec<u32>,
    /// Where each statement stands.
    pub statements: Vec<Span>,
    /// The labels that have names, by number.
    pub names: Vec<(u32, String)>,
    /// The symbols' names, by number from 0; none where the text counts its symbols.
    pub symbol_names: Vec<String>,
    /// The symbols that labels define, each once. They stand beside the calls, as names do.
    pub definitions: Vec<Definition>,
}

impl<C> Script<C> {
    /// Where the statement stands that makes a call.
    pub fn place(&self, call: usize) -> Span {
        self.statements[self.sources[call] as usize]
    }
}

/// A text without its byte order mark, every line ended by a line feed; places are those of this text.
pub fn plain_lines(text: &str) -> Cow<'_, str> {
    let text = text.trim_start_matches('\u{FEFF}');
    if text.contains('\r') {
        return text.replace("\r\n", "\n").replace('\r', "\n").into();
    }
    text.into()
}

/// Reads a text. `arch` goes before the architecture that the text names; X64 is taken if neither says. `append` appends what a text's call becomes,
/// or says why it can't be made.
///
/// # Errors
///
/// Says what is wrong with the first statement that is.
pub fn read_text<C>(
    text: &str,
    arch: Option<Arch>,
    append: impl Fn(TextCall, &mut Vec<C>) -> Result<(), String>,
) -> Result<Script<C>, TextError> {
    read_draft(text, arch, append).into_script()
}

#[cfg(test)]
mod tests {
    use super::*;
    use crate::text_call::COMMENT;

    fn read(text: &str) -> Result<Script<TextCall>, TextError> {
        read_text(text, None, |call, calls| {
            calls.push(call);
            Ok(())
        })
    }

    fn calls(text: &str) -> Vec<TextCall> {
        read(text).unwrap().calls
    }

    fn lines(script: &Script<TextCall>) -> Vec<u32> {
        let calls = 0..script.calls.len();
        calls.map(|call| script.place(call).line).collect()
    }

    fn fails(text: &str, line: u32, expected: &str) {
        let error = read(text).unwrap_err();
        assert!(error.sentence.contains(expected), "{error}");
        assert_eq!(error.place.line, line, "{error}");
    }

    #[test]
    fn long_and_short_words_are_the_same_calls() {
        let long = "label\nbind 0\nbytes 0F 1f 00\nzeros 3\nalign 16\nuse 1 2 X86JmpRel32\n\
                    ref 1 2 x86branchrel8 -4\njump 0 5 0 ne\nconstant 01 02\nconstant-label 0\n\
                    relocation 4 X86PCRel4 s1 -4\nrelocation 4 Abs8 l2\nfinish";
        let short = "n; l 0; b 0F1F00; z 3; a 0x10; u 1 2 0; r 1 2 1 -4; j 0 5 0 5; c 0102; k 0; \
                     o 4 2 s1 -4; o 4 1 l2 0; f";
        assert_eq!(calls(long), calls(short));
        assert_eq!(calls(long).len(), 13);
    }

    #[test]
    fn conditions_have_names() {
        let condition = |word: &str| match calls(&format!("j 0 2 0 {word}"))[..] {
            [TextCall::Call(Call::Jump { condition, .. })] => condition,
            _ => panic!("one jump"),
        };
        let names = "o no b ae e ne be a s ns p np l ge le g always";
        for (number, name) in (0..).zip(names.split(' ')) {
            assert_eq!(condition(name), number);
        }
        assert_eq!(condition("jge"), 13);
        assert_eq!(condition("none"), 16);
        assert_eq!(condition("99"), 99);
        assert_eq!(condition(""), 16);
    }

    #[test]
    fn groups_are_written_out_with_their_lines() {
        let script = read("n\n2 ( b 01\n 3 ( b 02 ) ; )\nl 0").unwrap();
        assert_eq!(script.calls.len(), 1 + 2 * 4 + 1);
        assert_eq!(lines(&script), [1, 2, 3, 3, 3, 2, 3, 3, 3, 4]);
        assert_eq!(calls("0 ( n )"), []);
        assert_eq!(calls("4294967295 ( )"), []);
        assert_eq!(calls("2(n)").len(), 2);
    }

    #[test]
    fn lines_may_end_as_on_any_system() {
        for end in ["\n", "\r\n", "\r"] {
            let script = read(&format!("\u{FEFF}# comment{end}n{end}{end}l 0")).unwrap();
            assert_eq!(lines(&script), [2, 4], "{end:?}");
        }
    }

    #[test]
    fn directives_stand_first() {
        let script = read("# comment\narch aarch64; symbols 3\nn").unwrap();
        assert_eq!(script.arch, Some(Arch::AArch64));
        assert_eq!(script.symbols, Some(3));
        assert_eq!(lines(&script), [3]);
        fails("n\narch x64", 2, "before the first call");
        fails("arch mips", 1, "'mips'");
        fails("symbols", 1, "symbols takes COUNT or NAME ..");
        fails("symbols 3 puts", 1, "and 2 words stand here");
    }

    #[test]
    fn symbols_may_have_names() {
        let text =
            "symbols puts exit\nsymbols .x$1\no 1 4 exit -4; o 5 4 puts; o 9 1 .x$1; o 17 1 s0";
        let script = read(text).unwrap();
        assert_eq!(
            script.calls,
            calls("o 1 4 s1 -4; o 5 4 s0; o 9 1 s2; o 17 1 s0")
        );
        assert_eq!(script.symbols, Some(3));
        assert_eq!(script.symbol_names, ["puts", "exit", ".x$1"]);
        assert_eq!(script.names, []);
        assert_eq!(calls("symbols puts; 2 ( o 1 4 puts )").len(), 2);
        let counted = read("symbols 3").unwrap();
        assert_eq!(counted.symbol_names, [""; 0]);
    }

    #[test]
    fn names_of_symbols_are_given_once_and_to_no_label() {
        let error = read("symbols a b\nsymbols c a").unwrap_err();
        assert_eq!(error.sentence, "the symbol 'a' is named already");
        assert_eq!(error.place.line, 2);
        assert_eq!(error.notes[0].place.unwrap().line, 1);
        fails("symbols a 9x", 1, "'9x' is no name");
        fails("symbols s0", 1, "'s0' is a number's spelling");
        fails("symbols l99999999999", 1, "is a number's spelling");
        fails("symbols 3; symbols a", 1, "counted or named");
        fails("symbols a\nsymbols 3", 2, "counted or named");
        for label in [
            "a:",
            "label a",
            "bind a",
            "jmp a",
            "use 0 a 0",
            "c 01; constant-label 0 a",
        ] {
            let error = read(&format!("symbols a\n{label}")).unwrap_err();
            assert!(error.sentence.starts_with("'a' is a symbol"), "{error}");
            assert_eq!(
                (error.place.line, error.notes[0].place.unwrap().line),
                (2, 1)
            );
        }
    }

    #[test]
    fn malformed_lines_are_named() {
        fails("n\n\nx 1", 3, "'x' is no call");
        fails("f 0", 1, "finish takes no arguments");
        fails("# c\nl", 2, "bind takes LABEL, and nothing stands here");
        fails("l 1 2", 1, "bind takes LABEL, and 2 words stand here");
        fails("n 3", 1, "'3' is no name");
        fails(
            "n a b",
            1,
            "label takes a NAME or nothing, and 2 words stand here",
        );
        fails("l 12x", 1, "'12x' is no number");
        fails("l 0x", 1, "'0x' is no number");
        fails("l -1", 1, "'-1' is no label");
        fails("l 4294967296", 1, "above 4294967295");
        fails("a 99999999999999999999", 1, "too large");
        fails("b 0", 1, "whole number of bytes");
        fails("b 0x90", 1, "'x' is no hexadecimal digit");
        fails("b 9\u{e9}", 1, "no hexadecimal digit");
        fails("u 0 0", 1, "OFFSET LABEL CODE");
        fails("u 0 0 Jmp", 1, "'Jmp' is no code");
        fails("r 0 0 0 2147483648", 1, "32 bits");
        fails("j 0 5", 1, "START LENGTH LABEL");
        fails("j 0 5 0 xx", 1, "'xx' is no condition");
        fails("o 0 Abs s0", 1, "'Abs' is no kind");
        fails("o 0 0 7", 1, "'7' is no target");
        fails("o 0 0 s2147483648", 1, "can't be named");
        fails("o 0 0 l2147483648", 1, "can't be named");
        fails("o 0 0 s0 9223372036854775808", 1, "64 bits");
        fails("z", 1, "zeros takes COUNT");
    }

    #[test]
    fn an_alignment_may_have_a_ceiling() {
        let most = |text: &str| match calls(text)[..] {
            [TextCall::Call(Call::Align { multiple: 16, most })] => most,
            _ => panic!("one alignment to 16"),
        };
        assert_eq!(most("align 16"), 0);
        assert_eq!(most("align 16 1"), 1);
        assert_eq!(most("a 0x10 0xF"), 15);
        assert_eq!(most("align 16 4095"), 4095);
        assert_eq!(most("align 16 4294967295"), u32::MAX);
    }

    #[test]
    fn ceilings_that_are_none_are_named() {
        let fails = |text: &str, marked: &str, expected: &str| {
            let error = read(text).unwrap_err();
            assert_eq!(error.sentence, expected);
            assert_eq!(&text[error.place.columns()], marked, "{error}");
        };
        let sentence = "an align that may spend 0 bytes fits no sheet, whose 0 is the default, 4095: \
                        leave MOST out for the default, or leave the align out";
        fails("b 90; align 16 0", "0", sentence);
        fails("a 16 0x00", "0x00", sentence);
        let sentence = "'-1' is no number; one is decimal, or hexadecimal after 0x";
        fails("align 16 -1", "-1", sentence);
        let sentence = "'all' is no number; one is decimal, or hexadecimal after 0x";
        fails("align 16 all", "all", sentence);
        let sentence = "'4294967296' is above 4294967295";
        fails("align 16 4294967296", "4294967296", sentence);
        let sentence = "align takes MULTIPLE and perhaps MOST, and 3 words stand here";
        fails("align 16 3 7", "7", sentence);
        let sentence = "align takes MULTIPLE and perhaps MOST, and nothing stands here";
        fails("align", "align", sentence);
    }

    #[test]
    fn malformed_groups_are_named() {
        fails("n\n3 n", 2, "'3' starts no call");
        fails("n\n3 ( n", 2, "not closed");
        fails("n )", 1, "closes no group");
        fails("( n )", 1, "count is missing");
        fails("n ( l 0 )", 1, "follows a call");
        fails("3x ( n )", 1, "'3x' is no number");
        let deep = "1 ( ".repeat(17) + &")".repeat(17);
        fails(&deep, 1, "nested deeper than 16");
        fails("n\n4294967295 ( n )", 2, "more than 4194304 calls");
        fails("65536 ( 65536 ( n ) )", 1, "more than 4194304 calls");
    }

    #[test]
    fn addends_may_have_64_bits() {
        let text = "o 0 0 s0 -9223372036854775808";
        assert!(matches!(
            calls(text)[..],
            [TextCall::Call(Call::Relocation {
                addend: i64::MIN,
                ..
            })]
        ));
    }

    #[test]
    fn the_wrong_word_is_marked() {
        let marked = |text: &str| {
            let error = read(text).unwrap_err();
            let line = text.lines().nth(error.place.line as usize - 1).unwrap();
            line[error.place.columns()].to_owned()
        };
        assert_eq!(marked("n\n  jump 0 5x 0 # c"), "5x");
        assert_eq!(marked("n; labl; n"), "labl");
        assert_eq!(marked("n; l 0 1 2"), "1");
        assert_eq!(marked("u 0 0"), "u");
        assert_eq!(marked("b 00 1 00"), "1");
        assert_eq!(marked("jmp a b"), "b");
        assert_eq!(marked("2 ( n ) )"), ")");
    }

    #[test]
    fn what_is_no_call_is_told_what_is() {
        let error = read("labl").unwrap_err();
        assert_eq!(error.sentence, "'labl' is no call; did you mean 'label'?");
        assert!(
            error.notes[0]
                .sentence
                .starts_with("the calls are label, bind")
        );
        fails("jmpp end", 1, "did you mean 'jmp'?");
        fails("hop 3", 1, "'hop' is no call");
        let error = read("mov rax, 1").unwrap_err();
        let expected = "'mov' is an instruction, and a sheet has none but jumps: \
                        write its bytes; on x86, 'bytes C3' is a ret";
        assert_eq!(error.sentence, expected);
        let error = read(&"x".repeat(1000)).unwrap_err();
        assert!(error.sentence.len() < 60, "{error}");
        fails("\u{1b}[31m", 1, "'\\u{1b}[31m' is no call");
    }

    #[test]
    fn what_looks_like_a_comment_is_told_how_one_starts() {
        let note = |text: &str| {
            let notes = read(text).unwrap_err().notes;
            notes.iter().any(|note| note.sentence == COMMENT)
        };
        assert!(note("; this is a comment"));
        assert!(note("bytes 90 ; then add one"));
        assert!(note("// this"));
        assert!(!note("bytes 90\nthen"));
        assert!(!note("bytes 90; zeros x"));
    }

    #[test]
    fn words_are_read_in_any_case() {
        let lower = "arch x64; symbols puts; define a End\nlabel End; bind End; bytes 0f; zeros 3; align 16; \
                     use 1 End x86jmprel32; ref 1 End x86branchrel8; jump 0 5 End ne; jne End; constant 01; \
                     constant-label 0 pi; relocation 4 abs8 puts; jump 0 5 End always; finish";
        let upper = "ARCH X64; SYMBOLS puts; DEFINE a End\nLABEL End; BIND End; BYTES 0F; ZEROS 3; ALIGN 16; \
                     USE 1 End X86JMPREL32; REF 1 End X86BRANCHREL8; JUMP 0 5 End NE; JNE End; CONSTANT 01; \
                     CONSTANT-LABEL 0 pi; RELOCATION 4 ABS8 puts; JUMP 0 5 End ALWAYS; FINISH";
        assert_eq!(read(upper), read(lower));
        assert_eq!(calls(upper).len(), 15);
        assert_eq!(
            calls("N; L 0; B 0F; Z 3; A 4; U 0 0 0; R 0 0 0; J 0 5 0; C 01; K 0; O 0 0 l0"),
            calls("n; l 0; b 0F; z 3; a 4; u 0 0 0; r 0 0 0; j 0 5 0; c 01; k 0; o 0 0 l0")
        );
        assert_eq!(calls("n; label End; bind end"), calls("n; n; n; l 2"));
    }

    #[test]
    fn words_that_are_nearly_right_are_suggested() {
        fails(
            "u 0 0 X86JmpRel3",
            1,
            "'X86JmpRel3' is no code; did you mean 'X86JmpRel32'?",
        );
        fails("r 0 0 a64adr12", 1, "did you mean 'A64Adr21'?");
        fails(
            "o 0 X86PCRel s0",
            1,
            "'X86PCRel' is no kind; did you mean 'X86PCRel4'?",
        );
        fails(
            "j 0 5 0 alwais",
            1,
            "'alwais' is no condition; did you mean 'always'?",
        );
        fails("j 0 5 0 nnz", 1, "did you mean 'nz'?");
        fails(
            "arch arch64",
            1,
            "'arch64' is none of x86, x64, aarch64; did you mean 'aarch64'?",
        );
        fails("arch amd46", 1, "did you mean 'amd64'?");
        fails("arch mips", 1, "'mips' is none of x86, x64, aarch64");
    }

    #[test]
    fn labels_may_have_names() {
        let named = "label end; label other; zeros 5; jump 0 5 end; use 1 other 0; ref 1 end 0; \
                     relocation 0 Abs8 other; bind end; other:";
        let numbered = "n; n; z 5; j 0 5 0; u 1 1 0; r 1 0 0; o 0 1 l1; l 0; l 1";
        assert_eq!(calls(named), calls(numbered));
        let names = read(named).unwrap().names;
        assert_eq!(names, [(0, "end".into()), (1, "other".into())]);
        assert_eq!(calls("label end; bind 0"), calls("n; l 0"));
        assert_eq!(
            calls("c 01; n; k 0 pi; jump 0 2 pi"),
            calls("c 01; n; k 0; j 0 2 1")
        );
        assert_eq!(
            calls("c 01; k 0; n; k 0 pi; l pi"),
            calls("c 01; k 0; n; k 0; l 0")
        );
        assert_eq!(calls("n; 0: b 00"), calls("n; l 0; b 00"));
    }

    #[test]
    fn a_name_makes_its_label_where_it_stands_first() {
        assert_eq!(calls("label; bind end; bind 0"), calls("n; n; l 1; l 0"));
        assert_eq!(calls("l1: l1b: bind l1"), calls("n; l 0; n; l 1; l 0"));
        let error = read("end:\nlabel\nbind 0").unwrap_err();
        assert!(error.sentence.contains("label 0 is 'end'"), "{error}");
        assert_eq!(
            (error.place.line, error.notes[0].place.unwrap().line),
            (3, 1)
        );
        fails("end: ; o 0 0 l0", 1, "label 0 is 'end'");
    }

    #[test]
    fn names_are_given_once() {
        let error = read("label end\nlabel end").unwrap_err();
        assert!(error.sentence.contains("'end' is made already"), "{error}");
        assert_eq!(
            (error.place.line, error.notes[0].place.unwrap().line),
            (2, 1)
        );
        fails("jmp end; label end", 1, "'end' is made already");
        fails("2 ( label end )", 1, "as often as it is repeated");
        fails("label 9x", 1, "'9x' is no name");
        fails("a!: ", 1, "'a!' is no name");
        fails(":", 1, "'' is no name");
        fails("bind a!", 1, "'a!' is no label");
        fails("l1: ; o 0 0 l1", 1, "and a label's name");
        fails("n; n; o 0 0 l1; l1:", 1, "and a label's name");
    }

    #[test]
    fn jumps_by_name_make_room_and_record_themselves() {
        let expected = "n; b E900000000; j 0 5 0; b 90; b 0F8400000000; j 6 6 0 e; l 0";
        assert_eq!(calls("jmp end; b 90; je end; end:"), calls(expected));
        let conditions = "o no b ae e ne be a s ns p np l ge le g z nz c nc";
        for condition in conditions.split(' ') {
            let short = calls(&format!("n; j{condition} 0"));
            let [
                _,
                _,
                TextCall::Call(Call::Jump {
                    condition: number, ..
                }),
            ] = short[..]
            else {
                panic!("{short:?}");
            };
            let code = 0x80 + number as u8;
            let room = TextCall::Call(Call::Bytes([0x0F, code, 0, 0, 0, 0].into()));
            assert_eq!(short[1], room, "{condition}");
            assert_eq!(Condition::from_name(condition).unwrap().number(), number);
        }
        assert_eq!(calls("n; z 3; a 8; JMP 0")[4], calls("n; j 8 5 0")[1]);
        assert_eq!(calls("n; z 3; a 8 5; jmp 0")[4], calls("n; j 8 5 0")[1]);
        assert_eq!(calls("n; z 3; a 8 4; jmp 0")[4], calls("n; j 3 5 0")[1]);
        fails("jmp", 1, "jmp takes LABEL, and nothing stands here");
        fails("arch aarch64\njmp end", 2, "a jump of x86");
    }

    #[test]
    fn jumps_in_groups_start_where_they_stand() {
        let expected = "n; b E900000000; j 0 5 0; b 90; b E900000000; j 6 5 0; b 90; l 0";
        assert_eq!(calls("2 ( jmp end; b 90 ) end:"), calls(expected));
        assert_eq!(calls("2 ( 1 ( jmp end ; b 90 ) ) end:"), calls(expected));
        assert_eq!(
            calls("0 ( n; jmp end ) label x; bind x"),
            calls("n; n; l 1")
        );
        assert_eq!(
            calls("3 ( n; c; k 0 ) bind x; bind 3")[9..],
            calls("n; l 4; l 3")
        );
    }

    #[test]
    fn jumps_on_x86_are_long_with_a_use() {
        let read = |text| {
            let push = |call, calls: &mut Vec<TextCall>| {
                calls.push(call);
                Ok(())
            };
            read_text(text, Some(Arch::X86), push).unwrap().calls
        };
        let expected = "n; b E900000000; u 1 0 0; b 0F8500000000; u 7 0 0; l 0";
        assert_eq!(read("jmp end; jne end; end:"), read(expected));
    }
}
