//! What the command says of texts.

use super::{err, fails, out, run};

#[test]
fn all_errors_of_a_text_are_shown() {
    let output = run(&["-"], b"bytes 9\nfoo\nn\nbar 1\nlabel a\nlabel a\n");
    let expected = "standard input:1:7: error: 1 hexadecimal digit is no whole number of bytes
    bytes 9
          ^
standard input:2:1: error: 'foo' is no call
    foo
    ^^^
note: the calls are label, bind (or NAME:), bytes, zeros, align, use, ref, jump, jmp, je and the other conditions, \
constant, constant-label, relocation
standard input:4:1: error: 'bar' is no call
    bar 1
    ^^^
standard input:6:7: error: the label 'a' is made already
    label a
          ^
standard input:5:7: note: it is made where it is first named, here
    label a
          ^";
    fails(&output, 2, expected);
}

#[test]
fn of_many_errors_the_first_are_shown() {
    let output = run(&["-"], "b 9\n".repeat(20).as_bytes());
    assert!(err(&output).ends_with("    b 9\n      ^\n"));
    assert_eq!(err(&output).lines().count(), 60);
    let output = run(&["-"], "b 9\n".repeat(21).as_bytes());
    assert!(err(&output).ends_with("    b 9\n      ^\nnote: there are further errors\n"));
    assert_eq!(err(&output).lines().count(), 61);
}

#[test]
fn open_entries_are_shown_up_to_a_half_typed_line() {
    let output = run(&["--open", "-"], b"jmp end\nbytes 90\nju\nend:\n");
    let expected = "open
    line  call              open  statement
       1  label                0  end
       1  bytes                0  jmp end
       1  jump                 1  jmp end
       2  bytes                1  bytes 90

open labels
    open  label
       1  label end: line 1
";
    assert_eq!(out(&output), expected);
    assert!(err(&output).starts_with("standard input:3:1: error: 'ju' is no call"));
    assert_eq!(output.status.code(), Some(2));
}

#[test]
fn open_labels_are_shown_with_the_lines_that_name_them() {
    let text = "jmp end\nje end; zeros 4\nref 7 out 0\n2 ( relocation 7 Abs4 end )\nrelocation 7 Abs4 in\nin:\n";
    let output = run(&["--open", "-"], text.as_bytes());
    let expected = "

open labels
    open  label
       4  label end: lines 1, 2, 4
       1  label out: line 3
";
    assert!(out(&output).ends_with(expected), "{}", out(&output));
    assert!(err(&output).contains("error[15]: "), "{}", err(&output));
    assert_eq!(output.status.code(), Some(1));
}

#[test]
fn a_constant_that_no_call_asks_for_is_said_with_its_line() {
    let output = run(&["-"], b"bytes 90\nconstant 00 00\n");
    let note = "standard input:2:1: note: 1 constant is not in the code, since no constant-label asks for it (line 2)\n";
    assert_eq!(err(&output), note);
    assert_eq!(output.status.code(), Some(0));
    let text = b"constant 01\nconstant 02; constant-label 1\n2 ( constant 03 )\n\nconstant 04";
    let output = run(&["-"], text);
    let note = "standard input:1:1: note: 4 constants are not in the code, since no constant-label asks for them (lines 1, 3, 5)\n";
    assert_eq!(err(&output), note);
    let output = run(&["--join", "-"], b"c 01");
    assert!(err(&output).starts_with("standard input:1:1: note: 1 constant is"));
}

/// Checks that a text is wrong by one sentence, with a note at a second place.
fn is_wrong(text: &str, expected: &str) {
    fails(&run(&["-"], text.as_bytes()), 2, expected);
}

#[test]
fn a_second_name_of_a_constant_is_an_error() {
    is_wrong(
        "constant 01\nconstant-label 0 one\nconstant-label 0 eins\ndefine s0 eins\n",
        "standard input:3:18: error: the label of constant 0 has the name 'one' already, and can't have 'eins' too
    constant-label 0 eins
                     ^^^^
standard input:2:18: note: the name is given here
    constant-label 0 one
                     ^^^",
    );
    let again = b"constant 01\nconstant-label 0 one\nconstant-label 0 one\nconstant-label 0\n";
    assert_eq!(run(&["-"], again).status.code(), Some(0));
}

#[test]
fn architecture_and_count_of_symbols_are_said_once() {
    is_wrong(
        "arch x64\nsymbols a; arch aarch64\njmp end\nend:",
        "standard input:2:12: error: the architecture is said already
    symbols a; arch aarch64
               ^^^^
standard input:1:1: note: it is said here
    arch x64
    ^^^^",
    );
    is_wrong(
        "symbols 3; symbols 3",
        "standard input:1:20: error: the symbols are counted already
    symbols 3; symbols 3
                       ^
standard input:1:9: note: they are counted here
    symbols 3; symbols 3
            ^",
    );
    is_wrong(
        "symbols puts\nsymbols 5",
        "standard input:2:9: error: symbols are counted or named, and a text can't do both
    symbols 5
            ^
standard input:1:9: note: the first is here
    symbols puts
            ^^^^",
    );
}

#[test]
fn instructions_and_comments_of_other_assemblers_are_understood() {
    let text = "push rbp ; save it\ncall puts\n; this is a comment\nbytes 90 # this is\nb.eq end\n";
    let output = run(&["-"], text.as_bytes());
    let is_instruction = "is an instruction, and a sheet has none but jumps: write its bytes";
    for expected in [
        format!(
            ":1:1: error: 'push' {is_instruction}; on x86, 'bytes C3' is a ret\n    push rbp ; save it\n    ^^^^\n"
        ),
        ":1:12: error: 'save' is no call\n    push rbp ; save it\n               ^^^^\n\
         note: ';' separates calls, and '#' starts a comment\n"
            .into(),
        format!(":2:1: error: 'call' {is_instruction}"),
        ":3:3: error: 'this' is no call\n".into(),
        format!(":5:1: error: 'b.eq' {is_instruction}; on AArch64, 'bytes C0 03 5F D6' is a ret\n"),
    ] {
        assert!(err(&output).contains(&expected), "{}", err(&output));
    }
    assert_eq!(err(&output).matches("standard input:").count(), 5);
    assert_eq!(output.status.code(), Some(2));
}

#[test]
fn a_relocation_to_an_unknown_name_asks_for_its_symbol() {
    let asks = |text: &str| {
        let output = run(&["-"], text.as_bytes());
        assert!(err(&output).contains("error[15]: "), "{}", err(&output));
        err(&output).ends_with("\nnote: is 'symbols puts' missing?\n")
    };
    let call = "bytes E8 00 00 00 00\nrelocation 1 X86CallPLTRel4 puts -4\n";
    assert!(asks(call));
    assert!(asks(&format!("symbols exit\n2 ( {call} )")));
    assert!(
        !asks(&format!("symbols put\n{call}")),
        "did you mean 'put'?"
    );
    assert!(!asks(&format!("label puts\n{call}")));
    assert!(!asks(&format!("{call}jmp puts\n")));
}

#[test]
fn words_in_capitals_are_marked_as_others_are() {
    let output = run(&["-"], b"ARCH AMD64\nLABEL end; BYTES 90 90\nJUMP 0 2 7\n");
    let marked = "    JUMP 0 2 7\n             ^\n";
    assert!(err(&output).ends_with(marked), "{}", err(&output));
    let output = run(&["--arch", "X86_64", "-"], b"ZEROS 0xFFFFFFFF\n");
    assert!(
        err(&output).contains("error[12]: zeros: "),
        "{}",
        err(&output)
    );
}
