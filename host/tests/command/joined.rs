//! Several sheets, joined.

use std::fs;
use std::process::Output;

use super::{err, fails, out, path, run};

/// A file of its own for each test, with some text: its name.
fn file(name: &str, text: &str) -> String {
    let path = path(name);
    fs::write(&path, text).unwrap();
    path.to_str().unwrap().into()
}

/// Runs with files, each under a name of its own for the test.
fn run_files(test: &str, options: &[&str], texts: &[&str]) -> (Output, Vec<String>) {
    let names = (0..).zip(texts);
    let names: Vec<String> = names
        .map(|(i, text)| file(&format!("{test}-{i}.txt"), text))
        .collect();
    let files = names.iter().map(String::as_str);
    let arguments: Vec<&str> = options.iter().copied().chain(files).collect();
    (run(&arguments, b""), names)
}

const CALLER: &str = "symbols sort\nb E8; z 4\no 1 X86CallPLTRel4 sort -4\njmp end; z 130; end:\n";
const CALLEE: &str = "define sort entry\nb 90\nentry: b C3; z 8; o 2 Abs8 entry\n";

#[test]
fn shows_the_whole() {
    let (output, names) = run_files("whole", &["--rounds", "--open"], &[CALLER, CALLEE]);
    let [caller, callee] = &names[..] else {
        panic!("two files");
    };
    assert_eq!(err(&output), "");
    let expected = format!(
        "  offset  bytes                       what
       0                              piece 0: {caller}
       0  E8                          1 byte
       1  9C 00 00 00                 relocation X86CallPLTRel4: symbol sort at 161, addend -4, filled with 156
       5  E9 82 00 00 00              jmp near to label end at 140, distance 130
      10  00 00 00 00 00 00 00 00     130 bytes
      18  00 00 00 00 00 00 00 00
          ... 114 more bytes
     140                              label end
     140  00 00 00 00 00 00 00 00     20 bytes up to the next piece
     148  00 00 00 00 00 00 00 00
     156  00 00 00 00
     160                              piece 1: {callee}
     160  90                          1 byte
     161                              label entry
     161  C3                          1 byte
     162  00 00 00 00 00 00 00 00     relocation Abs8: label entry

labels
   label     piece  recorded     final  name
       0         0       140       140  end
       1         1         1       161  entry

definitions
   final  symbol and label
     161  symbol sort: label entry

relocations that remain
   piece  recorded     final  what
       1         2       162  Abs8 (R_X86_64_64): label entry, addend 0

open, piece 0
    line  call              open  statement
       2  bytes                0  b E8
       2  bytes                0  z 4
       3  relocation           0  o 1 X86CallPLTRel4 sort -4
       4  label                0  end
       4  bytes                0  jmp end
       4  jump                 1  jmp end
       4  bytes                1  z 130
       4  bind                 0  end:
          finish               0

rounds, piece 0
       1  137 bytes; 1 jump becomes long
          jmp recorded at 5 (line 4): label end at 137 less its own end at 7 is 130, outside -128..127
       2  140 bytes; every short jump reaches: settled

open, piece 1
    line  call              open  statement
       2  bytes                0  b 90
       3  label                0  entry
       3  bind                 0  entry:
       3  bytes                0  b C3
       3  bytes                0  z 8
       3  relocation           0  o 2 Abs8 entry
          finish               0

rounds, piece 1
          none: there is no jump to relax

piece 0 finished for X64: 140 bytes, alignment 32, layouts 2, long jumps 1 of 1
piece 1 finished for X64: 10 bytes, alignment 32, layouts 0, long jumps 0 of 0
joined for X64: 170 bytes, alignment 32, pieces 2, relocations filled 1, remaining 1
"
    );
    assert_eq!(out(&output), expected);
    assert_eq!(output.status.code(), Some(0));
}

#[test]
fn writes_the_joined_code_and_object() {
    let (code, object) = (path("joined.bin"), path("joined.o"));
    let options = [
        "-o",
        code.to_str().unwrap(),
        "--object",
        object.to_str().unwrap(),
    ];
    let (output, names) = run_files("written", &options, &[CALLER, CALLEE]);
    assert_eq!(output.status.code(), Some(0), "{}", err(&output));
    let code = fs::read(code).unwrap();
    assert_eq!(code.len(), 170);
    assert_eq!(code[..5], [0xE8, 0x9C, 0, 0, 0]);
    let object = fs::read(object).unwrap();
    assert!(object.starts_with(b"\x7fELF"));
    let strings = b"\0end\0entry\0sort\0";
    assert!(object.windows(strings.len()).any(|bytes| bytes == strings));
    let dash = run(&["-o", "-", &names[0], &names[1]], b"");
    assert_eq!(dash.stdout, code);
}

#[test]
fn one_of_several_may_be_standard_input() {
    let callee = file("beside-input.txt", CALLEE);
    let output = run(&["-", &callee], CALLER.as_bytes());
    assert!(
        out(&output).contains("piece 0: standard input\n"),
        "{}",
        err(&output)
    );
    let output = run(&["-", "-"], b"");
    fails(
        &output,
        2,
        "error: standard input, -, can be one FILE alone; see wargnifla --help",
    );
}

#[test]
fn one_sheet_is_joined_where_that_is_asked_for() {
    let text = b"symbols me\ndefine me start\nstart: b E8; z 4\no 1 X86CallPLTRel4 me -4\n";
    let plain = run(&["-"], text);
    let relocations =
        "       1  00 00 00 00                 relocation X86CallPLTRel4: symbol me, addend -4\n";
    assert!(out(&plain).contains(relocations), "{}", out(&plain));
    let definitions =
        "\ndefinitions\n   final  symbol and label\n       0  symbol me: label start\n";
    assert!(out(&plain).contains(definitions), "{}", out(&plain));
    assert!(out(&plain).contains("\nfinished for X64: 5 bytes"));
    let joined = run(&["--join", "-"], text);
    let filled = "       1  FB FF FF FF                 relocation X86CallPLTRel4: symbol me at 0, addend -4, filled with -5\n";
    assert!(out(&joined).contains(filled), "{}", err(&joined));
    assert!(out(&joined).ends_with(
        "\njoined for X64: 5 bytes, alignment 32, pieces 1, relocations filled 1, remaining 0\n"
    ));
}

#[test]
fn definitions_do_not_go_into_a_binary_sheet() {
    let sheet = |text: &[u8]| run(&["--write-sheet", "-", "-"], text).stdout;
    let with = sheet(b"define sort entry\nb 90; entry: define s9 entry\nb C3");
    assert_eq!(with, sheet(b"b 90; entry: b C3"));
    assert_eq!(with.len(), 4 + 17 * 4);
}

#[test]
fn what_is_about_one_sheet_is_not_joined() {
    let written = path("joined-sheet");
    let arguments = ["--write-sheet", written.to_str().unwrap(), "a", "b"];
    let sentence = "error: --write-sheet is about one sheet, and can't be given where sheets are joined; see wargnifla --help";
    fails(&run(&arguments, b""), 2, sentence);
    assert!(!written.exists());
}

#[test]
fn binary_sheets_share_numbers() {
    let callee = file("numbers.txt", "n; l 0; b C3; define s3 0");
    let calls = wargnifla::read_text("b E8; z 4; o 1 X86CallPLTRel4 s3 -4").unwrap();
    let sheet = wargnifla::write_sheet(&calls.calls).unwrap();
    let output = run(&["-", &callee], &sheet);
    assert!(out(&output).contains("symbol 3 at 32, addend -4, filled with 27\n"));
}

#[test]
fn an_undefined_symbol_is_marked_where_it_is_named() {
    let (output, names) = run_files("undefined", &[], &["b 90", CALLER, "sorts:"]);
    let message = format!(
        "{}:3:20: error[29]: join: UnboundSymbol: \
         relocation 0 of piece 1, at 1 there, names symbol sort, which no piece defines
    o 1 X86CallPLTRel4 sort -4
                       ^^^^
note: did you mean 'sorts'?
note: 'define SYMBOL LABEL' in one of the sheets defines a symbol, as does a label of its name; \
         what is left to the system's linker is named by another kind, such as X86GOTPCRel4",
        names[1]
    );
    fails(&output, 1, &message);
    let unbound = "label end\nb 90; define sort end\n";
    let (output, names) = run_files("unbound", &[], &[CALLER, unbound]);
    let message = format!(
        "{}:3:20: error[29]: join: UnboundSymbol: relocation 0 of piece 0, at 1 there, \
         names symbol sort, which piece 1 defines by label end, which is not bound
    o 1 X86CallPLTRel4 sort -4
                       ^^^^
{}:2:14: note: symbol sort is defined here
    b 90; define sort end
                 ^^^^",
        names[0], names[1]
    );
    fails(&output, 1, &message);
}

#[test]
fn two_definitions_are_both_shown() {
    let (output, names) = run_files("twice", &[], &["b 90", CALLEE, "n\ndefine sort 0\n"]);
    let message = format!(
        "{}:2:8: error[28]: join: DuplicateSymbol: \
         symbol sort is defined twice, by label entry of piece 1 and by label 0 of piece 2
    define sort 0
           ^^^^
{}:1:8: note: symbol sort is defined here
    define sort entry
           ^^^^",
        names[2], names[1]
    );
    fails(&output, 1, &message);
    let (output, names) = run_files("named-twice", &[], &[CALLER, "sort:", "sort:"]);
    let message = format!(
        "{}: error[28]: join: DuplicateSymbol: \
         symbol sort is defined twice, by label sort of piece 1 and by label sort of piece 2
note: a label defines the symbol of its name where nothing else does: \
         give one of the labels another name, or define the symbol",
        names[2]
    );
    fails(&output, 1, &message);
}

#[test]
fn other_refusals_name_their_file_and_line() {
    let (output, names) = run_files("archs", &[], &["b 90", "arch aarch64\nz 4"]);
    let message = format!(
        "{}: error[27]: join: IncompatibleArch: piece 1 is for AArch64, and piece 0 for X64
note: --arch names one architecture for all sheets",
        names[1]
    );
    fails(&output, 1, &message);
    let past_end = "z 4\no 1 X86PCRel4 s0\n";
    let callee = "n; l 0; define s0 0";
    let (output, names) = run_files("past-end", &[], &[past_end, callee]);
    let message = format!(
        "{}:2:3: error[17]: join: InvalidArgument: relocation 0 of piece 0, at 1 there, \
         has a field of 4 bytes, which passes the end of the piece, 4
    o 1 X86PCRel4 s0
      ^",
        names[0]
    );
    fails(&output, 1, &message);
    let far = "z 4\no 0 X86PCRel4 s0 4294967296\n";
    let (output, names) = run_files("far", &[], &[far, callee]);
    let start = format!("{}:2:15: error[18]: join: TooLarge: ", names[0]);
    assert!(err(&output).starts_with(&start), "{}", err(&output));
    assert!(err(&output).ends_with("    o 0 X86PCRel4 s0 4294967296\n                  ^^\n"));
    let many = file("many.txt", "b 90");
    let output = run(&vec![many.as_str(); 257], b"");
    let message =
        "error[1]: join: InvalidArgument: there are 257 pieces, and at most 256 are joined";
    fails(&output, 1, message);
}

#[test]
fn a_sheet_that_is_refused_is_named() {
    let (output, names) = run_files("refused", &["--open"], &["b 90", "n; u 0 0 0\n"]);
    assert!(
        err(&output).starts_with(&format!("{}:1:8: error[15]: finish: ", names[1])),
        "{}",
        err(&output)
    );
    assert!(
        out(&output).starts_with("open\n    line"),
        "{}",
        out(&output)
    );
    let (output, names) = run_files("noted", &[], &["n; l 0; z 4; r 0 0 0", "b 90"]);
    let note = format!(
        "{}:1:14: note: 1 ref is not patched, since no jump stands (line 1)\n",
        names[0]
    );
    assert_eq!(err(&output), note);
    assert_eq!(output.status.code(), Some(0));
}

#[test]
fn what_no_object_holds_names_its_file() {
    let object = path("no-joined.o");
    let options = ["--object", object.to_str().unwrap()];
    let (output, _) = run_files("ends", &options, &["end:", "b 90; end:"]);
    let message =
        "error: label 0 and label 1 are both named 'end', and an object has one symbol of a name
note: a name that starts with '.' stays within its piece, and may stand in several";
    fails(&output, 2, message);
    let (output, names) = run_files("sec-rel", &options, &["b 90", "z 4\no 0 X86SecRel s0\n"]);
    let message = format!(
        "{}:2:5: error[24]: write_relas: InvalidArch: \
         relocation 0, at 32 in the finished code, is of kind X86SecRel, which has no ELF type on X64
    o 0 X86SecRel s0
        ^^^^^^^^^",
        names[1]
    );
    fails(&output, 1, &message);
    let (output, names) = run_files("field", &options, &["b 90", "z 4\no 1 Abs4 s0\n"]);
    let message = format!(
        "{}:2:3: error: relocation 0, at 33 in the finished code, \
         has a field of 4 bytes, which passes the end of the code, 36
    o 1 Abs4 s0
      ^",
        names[1]
    );
    fails(&output, 2, &message);
    assert!(!object.exists());
    let locals = run_files("locals", &options, &[".end:", "b 90; .end:"]).0;
    assert_eq!(locals.status.code(), Some(0), "{}", err(&locals));
}

#[test]
fn wrong_definitions_are_marked() {
    let wrong = |text: &str, message: &str| {
        let output = run(&["-"], text.as_bytes());
        fails(&output, 2, message);
    };
    wrong(
        "define sort entr\nentry:",
        "standard input:1:13: error: there is no label 'entr'; did you mean 'entry'?
    define sort entr
                ^^^^",
    );
    wrong(
        "symbols 3; n\ndefine s3 0",
        "standard input:2:8: error: symbol 3 is out of range: there are 3 symbols
    define s3 0
           ^^",
    );
    wrong(
        "n; define 7 0\ndefine s7 0",
        "standard input:2:8: error: symbol 7 is defined already
    define s7 0
           ^^
standard input:1:11: note: it is defined here
    n; define 7 0
              ^",
    );
    let output = run(&["--symbols", "9", "-"], b"symbols 3; n; define s3 0");
    assert_eq!(output.status.code(), Some(0), "{}", err(&output));
}
