//! The command, run as a process.

#[path = "command/ceilings.rs"]
mod ceilings;
#[path = "command/joined.rs"]
mod joined;
#[path = "command/mistake.rs"]
mod mistake;
#[cfg(unix)]
#[path = "command/names.rs"]
mod names;
#[path = "command/source.rs"]
mod source;
#[path = "command/texts.rs"]
mod texts;

use std::fs;
use std::io::Write;
use std::path::PathBuf;
use std::process::{Command, Output, Stdio};

use wargnifla::{read_text, write_sheet};

const CASE_C: &str =
    "label; label; zeros 5; jump 0 5 0\nzeros 5; jump 5 5 1\nzeros 125\nbind 0; zeros 3; bind 1\n";

fn command(arguments: &[&str]) -> Command {
    let mut command = Command::new(env!("CARGO_BIN_EXE_wargnifla"));
    command.args(arguments).env_remove("WARGNIFLA_COMMAND");
    command
}

/// Runs with some bytes as standard input.
fn run(arguments: &[&str], input: &[u8]) -> Output {
    let mut child = command(arguments)
        .stdin(Stdio::piped())
        .stdout(Stdio::piped())
        .stderr(Stdio::piped())
        .spawn()
        .unwrap();
    // A command that ends without reading closes the pipe.
    let _ = child.stdin.take().unwrap().write_all(input);
    child.wait_with_output().unwrap()
}

/// A path of its own for each test's file.
fn path(name: &str) -> PathBuf {
    let path = PathBuf::from(env!("CARGO_TARGET_TMPDIR")).join(name);
    let _ = fs::remove_file(&path);
    path
}

fn out(output: &Output) -> &str {
    str::from_utf8(&output.stdout).unwrap()
}

fn err(output: &Output) -> &str {
    str::from_utf8(&output.stderr).unwrap()
}

/// Checks that nothing is printed but one sentence, and the exit status.
fn fails(output: &Output, status: i32, sentence: &str) {
    assert_eq!(err(output), format!("{sentence}\n"));
    assert_eq!(out(output), "");
    assert_eq!(output.status.code(), Some(status));
}

#[test]
fn shows_listing_labels_rounds_and_record() {
    let output = run(&["--rounds", "-"], CASE_C.as_bytes());
    assert_eq!(err(&output), "");
    let expected = "  offset  bytes                       what
       0  E9 82 00 00 00              jmp near to label 0 at 135, distance 130
       5  E9 80 00 00 00              jmp near to label 1 at 138, distance 128
      10  00 00 00 00 00 00 00 00     125 bytes
      18  00 00 00 00 00 00 00 00
          ... 109 more bytes
     135                              label 0
     135  00 00 00                    3 bytes
     138                              label 1

labels
   label  recorded     final
       0       135       135
       1       138       138

rounds
       1  132 bytes; 1 jump becomes long
          jmp recorded at 5 (line 2): label 1 at 132 less its own end at 4 is 128, outside -128..127
       2  135 bytes; 1 jump becomes long
          jmp recorded at 0 (line 1): label 0 at 132 less its own end at 2 is 130, outside -128..127
            127 in round 1; since then, between the jump and its label,
              jmp recorded at 5 (line 2) grew by 3 after round 1
       3  138 bytes; every short jump reaches: settled

finished for X64: 138 bytes, alignment 32, layouts 3, long jumps 2 of 2
";
    assert_eq!(out(&output), expected);
    assert_eq!(output.status.code(), Some(0));
}

#[test]
fn shows_relocations_and_unbound_labels() {
    let output = run(&["-"], b"n; o 3 Abs8 s1 -7; z 9; o 5 X86SecRel s0");
    let text = out(&output);
    assert!(text.contains("\n       0   unbound   unbound\n"), "{text}");
    let relocations = "\nrelocations\nrecorded     final  what\n\
                       \x20      3         3  Abs8 (R_X86_64_64): symbol 1, addend -7\n\
                       \x20      5         5  X86SecRel: symbol 0, addend 0\n";
    assert!(text.contains(relocations), "{text}");
    assert!(!text.contains("rounds"), "{text}");
}

#[test]
fn symbols_are_shown_by_name() {
    let output = run(
        &["-"],
        b"symbols puts\nb E8; z 4\no 1 X86CallPLTRel4 puts -4\n",
    );
    let text = out(&output);
    assert!(
        text.contains("relocation X86CallPLTRel4: symbol puts, addend -4\n"),
        "{text}"
    );
    assert!(!text.contains("labels"), "{text}");
    let output = run(&["--symbols", "0", "-"], b"symbols puts\no 0 Abs8 puts\n");
    let sentence = "standard input:2:10: error[8]: relocation: InvalidArgument: \
                    symbol puts is unknown: the recording has 0 symbols
    o 0 Abs8 puts
             ^^^^";
    fails(&output, 1, sentence);
    let output = run(&["-"], b"symbols puts\nz 8; o 0 Abs8 put\n");
    let sentence = "standard input:2:15: error[15]: finish: UnboundLabel: \
                    label put is not bound, and the relocation at 0 names it, the only entry that is open
    z 8; o 0 Abs8 put
                  ^^^
note: did you mean 'puts'?";
    fails(&output, 1, sentence);
}

#[test]
fn long_tables_are_cut_unless_all_is_asked_for() {
    let brief = run(&["-"], b"100 ( n )");
    assert!(out(&brief).contains("... 84 more\n"), "{}", out(&brief));
    let full = run(&["--full", "-"], b"100 ( n )");
    assert!(
        out(&full).contains("\n      99   unbound"),
        "{}",
        out(&full)
    );
}

#[test]
fn writes_the_code() {
    let file = path("code.bin");
    let output = run(
        &["-o", file.to_str().unwrap(), "-"],
        b"n; z 5; j 0 5 0; a 8; l 0",
    );
    assert_eq!(output.status.code(), Some(0), "{}", err(&output));
    let code = fs::read(file).unwrap();
    assert_eq!(code, [0xEB, 6, 0x66, 0x0F, 0x1F, 0x44, 0, 0]);
}

/// A rule that goes to a function of another file.
const CALLER: &[u8] =
    b"symbols puts\nrule: bytes E9 00 00 00 00\nrelocation 1 X86CallPLTRel4 puts -4\n";

#[test]
fn writes_an_object() {
    let file = path("rule.o");
    let output = run(&["--object", file.to_str().unwrap(), "-"], CALLER);
    assert_eq!(output.status.code(), Some(0), "{}", err(&output));
    assert!(out(&output).contains("finished for X64: 5 bytes"));
    let object = fs::read(&file).unwrap();
    assert_eq!(object[..4], *b"\x7fELF");
    let names = b"\0puts\0rule\0";
    assert!(object.windows(names.len()).any(|bytes| bytes == names));
    let output = run(&["--object", "-", "-"], CALLER);
    assert_eq!(output.stdout, object);
    assert_eq!(err(&output), "");
    let code = path("rule.bin");
    let output = run(
        &["-o", code.to_str().unwrap(), "--object", "-", "-"],
        CALLER,
    );
    assert_eq!(output.stdout, object);
    assert_eq!(fs::read(code).unwrap(), [0xE9, 0, 0, 0, 0]);
}

#[test]
fn what_no_object_holds_names_its_line_and_leaves_no_file() {
    let (code, object) = (path("no-object.bin"), path("no-object.o"));
    let arguments = [
        "-o",
        code.to_str().unwrap(),
        "--object",
        object.to_str().unwrap(),
        "-",
    ];
    let refused = |text: &[u8], status, sentence| {
        fails(&run(&arguments, text), status, sentence);
        assert!(!code.exists() && !object.exists());
    };
    let sentence = "standard input:2:18: error[24]: write_relas: InvalidArch: \
                    relocation 1, at 8 in the finished code, is of kind X86SecRel, which has no ELF type on X64
    o 0 Abs8 s0; o 8 X86SecRel s0
                     ^^^^^^^^^";
    refused(b"z 12\no 0 Abs8 s0; o 8 X86SecRel s0", 1, sentence);
    let sentence = "standard input:3:14: error[25]: write_relas: TooLarge: \
                    relocation 0, at 0 in the finished code, has the addend 9223372036854775807, and with label end at 8 it passes 9223372036854775807
    o 0 Abs8 end 9223372036854775807
                 ^^^^^^^^^^^^^^^^^^^
standard input:2:1: note: label end is bound here
    end:
    ^^^^";
    refused(b"z 8\nend:\no 0 Abs8 end 9223372036854775807", 1, sentence);
    let sentence = "standard input: error[24]: write_relas: InvalidArch: \
                    relocations are written as ELF for X64 and AArch64, and this code is for X86";
    refused(b"arch x86; b 90", 1, sentence);
    let sentence = "standard input: error: symbol 1 and label 0 are both named 's1', and an object has one symbol of a name";
    refused(b"z 8; o 0 Abs8 s01; s1:", 2, sentence);
    let sentence = "standard input:2:3: error: \
                    relocation 1, at 6 in the finished code, has a field of 4 bytes, which passes the end of the code, 8
    o 9 Abs4 s0
      ^";
    refused(b"jmp end; end: z 6; o 5 Abs4 s0\no 9 Abs4 s0", 2, sentence);
    let sentence = "standard input:2:18: error: \
                    relocation 1, at 6 in the finished code, is of kind X86GOTPCRel4 and names label end, \
                    but a linker makes GOT entries for symbols alone: name a symbol instead
    o 9 X86GOTPCRel4 end -4
                     ^^^";
    let text = b"jmp end; z 8; o 5 X86GOTPCRel4 s0 -4\no 9 X86GOTPCRel4 end -4\nend:";
    refused(text, 2, sentence);
    let sheet = write_sheet(&read_text("z 4; o 0 X86SecRel s0").unwrap().calls).unwrap();
    let sentence = "standard input: error[24]: call 1: write_relas: InvalidArch: \
                    relocation 0, at 0 in the finished code, is of kind X86SecRel, which has no ELF type on X64";
    refused(&sheet, 1, sentence);
}

#[test]
fn writes_and_reads_a_binary_sheet() {
    let file = path("sheet.bin");
    let name = file.to_str().unwrap();
    let from_text = run(&["--write-sheet", name, "-"], CASE_C.as_bytes());
    let sheet = fs::read(&file).unwrap();
    assert_eq!(
        sheet,
        write_sheet(&read_text(CASE_C).unwrap().calls).unwrap()
    );
    let from_file = run(&[name], b"");
    assert_eq!(from_file.status.code(), Some(0), "{}", err(&from_file));
    assert_eq!(out(&from_file), out(&from_text));
    let from_input = run(&["--binary", "-"], &sheet);
    assert_eq!(out(&from_input), out(&from_text));
}

#[test]
fn says_which_call_fits_no_binary_sheet() {
    let (sheet, code) = (path("no-sheet.bin"), path("no-code.bin"));
    let arguments = [
        "-o",
        code.to_str().unwrap(),
        "--write-sheet",
        sheet.to_str().unwrap(),
        "-",
    ];
    let output = run(&arguments, b"n\nc 000102030405060708090A0B0C\n");
    let sentence = "standard input:2:3: error: a constant of 13 bytes fits no binary sheet, whose calls carry at most 12
    c 000102030405060708090A0B0C
      ^^^^^^^^^^^^^^^^^^^^^^^^^^";
    fails(&output, 2, sentence);
    assert!(!sheet.exists() && !code.exists());
}

#[test]
fn a_refused_call_names_its_line_and_leaves_no_file() {
    let file = path("refused.bin");
    let output = run(
        &["-o", file.to_str().unwrap(), "-"],
        b"label\nzeros 12\njump 4 5 0\n",
    );
    let sentence = "standard input:3:6: error[10]: jump: InvalidArgument: \
                    the jump at 4 is 5 bytes long and ends at 9, but the current offset is 12
    jump 4 5 0
         ^";
    fails(&output, 1, sentence);
    assert!(!file.exists());
}

#[test]
fn a_refused_finish_names_the_line_that_it_goes_back_to() {
    let output = run(&["-"], b"n\nn; l 0\nz 5\nj 0 5 1 # never bound\n");
    let sentence = "standard input:4:7: error[15]: finish: UnboundLabel: \
                    label 1 is not bound, and the jump at 0 names it, the only entry that is open
    j 0 5 1 # never bound
          ^
standard input:2:1: note: label 1 is made here, and nothing binds it
    n; l 0
    ^";
    fails(&output, 1, sentence);
    let output = run(&["-"], b"z 16777216; c 00; k 0");
    assert!(err(&output).starts_with("standard input: error[14]: finish: OutOfMemory"));
}

#[test]
fn a_refused_call_of_a_binary_sheet_names_its_index() {
    let calls = read_text("n; l 0; z 30; l 0").unwrap().calls;
    let output = run(&["-"], &write_sheet(&calls).unwrap());
    let sentence =
        "standard input: error[9]: call 5: bind: InvalidState: label 0 is bound already, to 0";
    fails(&output, 1, sentence);
    let calls = read_text("n; z 13; u 0 0 0").unwrap().calls;
    let output = run(&["-"], &write_sheet(&calls).unwrap());
    let sentence = "standard input: error[15]: call 3: finish: UnboundLabel: \
                    label 0 is not bound, and the use at 0 names it, the only entry that is open
standard input: note: call 0: label 0 is made here, and nothing binds it";
    fails(&output, 1, sentence);
}

#[test]
fn a_broken_binary_sheet_is_refused() {
    let output = run(&["--binary", "-"], &[2, 0, 0, 0, 1]);
    fails(
        &output,
        1,
        "standard input: error[1]: sheet: InvalidArgument: a sheet of 2 calls has 38 bytes, not 5",
    );
}

#[test]
fn malformed_text_shows_its_line_and_marks_the_word() {
    let output = run(&["-"], b"label\n\n  labl 3 # one\n");
    let message = "standard input:3:3: error: 'labl' is no call; did you mean 'label'?
    labl 3 # one
    ^^^^
note: the calls are label, bind (or NAME:), bytes, zeros, align, use, ref, jump, jmp, je and the other conditions, \
constant, constant-label, relocation";
    fails(&output, 2, message);
    let output = run(&["-"], b"label end\nbind end; label end\n");
    let message = "standard input:2:17: error: the label 'end' is made already
    bind end; label end
                    ^^^
standard input:1:7: note: it is made where it is first named, here
    label end
          ^^^";
    fails(&output, 2, message);
}

#[test]
fn words_are_cut_and_escaped() {
    let text = format!("{}\x1b[2J", "x".repeat(5000));
    let output = run(&["-"], text.as_bytes());
    assert!(err(&output).len() < 500, "{}", err(&output));
    let output = run(&["-"], b"b \x1b[31m\n");
    let message =
        "standard input:1:3: error: '\\u{1b}' is no hexadecimal digit; bytes are written like 0F 1F 00
    b \\u{1b}[31m
      ^^^^^^^^^^";
    fails(&output, 2, message);
    let output = run(&["--\x1b[31m"], b"");
    fails(
        &output,
        2,
        "error: there is no option --\\u{1b}[31m; see wargnifla --help",
    );
    let output = run(&["no/\x1bfile"], b"");
    assert!(err(&output).starts_with("no/\\u{1b}file: error: can't be read"));
}

#[test]
fn a_byte_that_is_no_text_is_named_by_line_and_taken_for_no_sheet() {
    let output = run(&["-"], b"label\nbind 0 # caf\xE9\n");
    fails(
        &output,
        2,
        "standard input:2:13: error: the byte E9 is no UTF-8: save the text as UTF-8",
    );
    let output = run(&["-"], &[2, 0, 0, 0, 1]);
    assert_eq!(output.status.code(), Some(2));
    assert!(err(&output).starts_with("standard input:1:2: error: a zero byte stands in no text"));
    assert!(err(&output).contains("--binary"));
}

#[test]
fn a_foreign_kind_hints_at_the_architecture() {
    let text = "n; l 0; z 4; u 0 0 A64Branch26";
    let sheet = write_sheet(&read_text(text).unwrap().calls).unwrap();
    let output = run(&["-"], &sheet);
    let message = "standard input: error[7]: call 3: use: InvalidArch: code 11 (A64Branch26) is foreign to X64
note: a binary sheet does not say its architecture: X64 is taken where --arch names none; try another --arch";
    fails(&output, 1, message);
    assert_eq!(
        run(&["--arch", "aarch64", "-"], &sheet).status.code(),
        Some(0)
    );
    let output = run(&["-"], text.as_bytes());
    assert!(err(&output).contains("the text names no architecture, so X64 is taken"));
    let output = run(&["--arch", "x86", "-"], text.as_bytes());
    assert!(!err(&output).contains("note"), "{}", err(&output));
}

/// What is said on standard error of a sheet that finishes.
fn notes(arch: &str, text: &str) -> String {
    let output = run(&["--arch", arch, "-"], text.as_bytes());
    assert_eq!(output.status.code(), Some(0), "{}", err(&output));
    err(&output).into()
}

#[test]
fn what_is_not_in_the_code_is_said_with_its_lines() {
    let jumps = "n; l 0\nz 5\nj 0 5 0\nz 5\nj 5 5 0\n";
    assert_eq!(
        notes("x86", jumps),
        "standard input:3:1: note: 2 jumps are not kept on X86 (lines 3, 5)\n"
    );
    assert_eq!(
        notes("aarch64", jumps),
        "standard input:3:1: note: 2 jumps are not kept on AArch64 (lines 3, 5)\n"
    );
    assert_eq!(notes("x64", jumps), "");
    let refs = "n; l 0; z 8\nr 0 0 0\nr 4 0 0\nu 4 0 0\n";
    assert_eq!(
        notes("x64", refs),
        "standard input:2:1: note: 1 ref is not patched, since no jump stands (line 2)\n\
         standard input:3:1: note: 1 ref is not patched, since no jump stands, but a use fills its field (line 3)\n"
    );
    assert_eq!(
        notes("x86", refs),
        "standard input:2:1: note: 1 ref is not kept on X86 (line 2)\n\
         standard input:3:1: note: 1 ref is not kept on X86, but a use fills its field (line 3)\n"
    );
    let uses = "n; l 0; z 9; j 4 5 0\n2 ( u 0 0 0\n)";
    assert_eq!(
        notes("x64", uses),
        "standard input:2:5: note: 2 uses are dropped, since a jump stands (line 2)\n"
    );
    let sheet = write_sheet(&read_text(jumps).unwrap().calls).unwrap();
    let output = run(&["--arch", "x86", "-"], &sheet);
    assert_eq!(
        err(&output),
        "standard input: note: call 3: 2 jumps are not kept on X86 (calls 3, 5)\n\
         standard input: note: a binary sheet does not say its architecture: X86 was asked for; try another --arch\n"
    );
    assert!(out(&output).contains("jump to label 0: not kept on X86"));
}

#[test]
fn many_lines_are_cut_in_a_note() {
    let text: String = (0..40).map(|i| format!("z 5\nj {} 5 0\n", 5 * i)).collect();
    let said = notes("x86", &format!("n; l 0\n{text}"));
    assert!(
        said.starts_with("standard input:3:1: note: 40 jumps are not kept on X86 (lines 3, 5, 7,"),
        "{said}"
    );
    assert!(said.ends_with(", 33 and 24 more)\n"), "{said}");
}

#[test]
fn an_output_that_is_the_sheet_or_another_output_is_refused() {
    let sheet = path("same.txt");
    fs::write(&sheet, "b 90").unwrap();
    let name = sheet.to_str().unwrap();
    let output = run(&["-o", name, name], b"");
    fails(
        &output,
        2,
        &format!("error: -o names {name}, which is the sheet itself; nothing is written"),
    );
    let folder = sheet.parent().unwrap().to_str().unwrap();
    let other = format!("{folder}/./same.txt");
    assert_eq!(
        run(&["--write-sheet", &other, name], b"").status.code(),
        Some(2)
    );
    let link = path("same-link.txt");
    fs::hard_link(&sheet, &link).unwrap();
    assert_eq!(
        run(&["-o", link.to_str().unwrap(), name], b"")
            .status
            .code(),
        Some(2)
    );
    assert_eq!(fs::read(&sheet).unwrap(), b"b 90");
    let out = path("twice.bin");
    let both = out.to_str().unwrap();
    let output = run(
        &[
            "-o",
            both,
            "--write-sheet",
            &format!(
                "{folder}/../{}/twice.bin",
                folder.rsplit('/').next().unwrap()
            ),
            name,
        ],
        b"",
    );
    assert_eq!(output.status.code(), Some(2), "{}", err(&output));
    assert!(
        err(&output).contains("-o and --write-sheet both name"),
        "{}",
        err(&output)
    );
    assert!(!out.exists());
    fails(
        &run(&["-o", both, "--object", both, name], b""),
        2,
        &format!("error: -o and --object both name {both}; nothing is written"),
    );
    assert!(!out.exists());
}

#[test]
fn files_are_replaced_whole_or_not_at_all() {
    let (code, folder) = (path("whole.bin"), path("whole-folder"));
    fs::write(&code, "before").unwrap();
    let _ = fs::create_dir(&folder);
    let arguments = [
        "-o",
        code.to_str().unwrap(),
        "--write-sheet",
        folder.to_str().unwrap(),
        "-",
    ];
    let output = run(&arguments, b"b 90");
    assert_eq!(output.status.code(), Some(2));
    assert!(
        err(&output).contains("whole-folder: error: can't be written"),
        "{}",
        err(&output)
    );
    assert_eq!(fs::read(&code).unwrap(), b"before");
    let beside = fs::read_dir(code.parent().unwrap()).unwrap();
    let drafts = beside.filter(|entry| {
        let name = entry.as_ref().unwrap().file_name();
        name.to_string_lossy().starts_with(".whole.bin")
    });
    assert_eq!(drafts.count(), 0);
    assert_eq!(
        run(&["-o", code.to_str().unwrap(), "-"], b"b 90")
            .status
            .code(),
        Some(0)
    );
    assert_eq!(fs::read(&code).unwrap(), [0x90]);
}

#[cfg(unix)]
#[test]
fn a_link_is_followed_and_a_device_is_written_in_place() {
    let (code, link) = (path("linked.bin"), path("link.bin"));
    fs::write(&code, "before").unwrap();
    std::os::unix::fs::symlink(&code, &link).unwrap();
    assert_eq!(
        run(&["-o", link.to_str().unwrap(), "-"], b"b 90")
            .status
            .code(),
        Some(0)
    );
    assert_eq!(fs::read(&code).unwrap(), [0x90]);
    assert!(fs::symlink_metadata(&link).unwrap().is_symlink());
    assert_eq!(
        run(&["-o", "/dev/null", "-"], b"b 90").status.code(),
        Some(0)
    );
    assert!(!fs::metadata("/dev/null").unwrap().is_file());
}

#[test]
fn a_dash_is_standard_output() {
    let output = run(&["-o", "-", "-"], b"n; l 0; b 90 C3; r 0 0 1");
    assert_eq!(output.stdout, [0x90, 0xC3]);
    assert!(err(&output).starts_with("standard input:1:18: note: 1 ref is not patched"));
    let output = run(&["--write-sheet", "-", "-"], b"n");
    assert_eq!(
        output.stdout,
        write_sheet(&read_text("n").unwrap().calls).unwrap()
    );
    let output = run(&["-o", "-", "--write-sheet", "-", "-"], b"n");
    fails(
        &output,
        2,
        "error: -o and --write-sheet both name -; nothing is written",
    );
}

#[test]
fn a_bound_constant_is_shown_where_it_is_bound() {
    let output = run(
        &["-"],
        b"constant 01\nconstant-label 0 pi\nzeros 3\nbind pi\n",
    );
    let message = "standard input:4:6: error[13]: finish: InvalidState: \
                   label pi belongs to constant 0, whose place finish decides, but a call bound it to 3
    bind pi
         ^^
standard input:2:1: note: finish binds the label that is asked for here
    constant-label 0 pi
    ^^^^^^^^^^^^^^";
    fails(&output, 1, message);
}

#[test]
fn zeros_are_refused_as_they_are_written() {
    let output = run(&["-"], b"bytes 90\nzeros 99999999\n");
    let message = "standard input:2:7: error[12]: zeros: OutOfMemory: \
                   99999999 zeros at 1 pass the end of the code, which has at most 16,777,216 bytes
    zeros 99999999
          ^^^^^^^^";
    fails(&output, 1, message);
    let output = run(&["-"], b"3 ( z 0x900000 )");
    assert!(
        err(&output).contains("0x900000 zeros at 9437184 pass"),
        "{}",
        err(&output)
    );
    let output = run(&["-"], b"z 16777216; b 90");
    assert!(
        err(&output).contains("1 more byte at 16777216 passes"),
        "{}",
        err(&output)
    );
}

#[test]
fn refusals_show_the_second_place_that_they_speak_of() {
    let note = |text: &str, expected: &str| {
        let output = run(&["-"], text.as_bytes());
        assert_eq!(output.status.code(), Some(1));
        assert!(
            err(&output).ends_with(&format!("{expected}\n")),
            "{}",
            err(&output)
        );
    };
    note(
        "end:\nbytes 90\nend:",
        "standard input:1:1: note: label end is bound here\n    end:\n    ^^^^",
    );
    note("2 ( end: b 90 )", "note: a group repeats this call");
    note(
        "label\nzeros 3; bind 0\nzeros 2\njump 0 5 0",
        "standard input:2:10: note: label 0 is bound here\n    zeros 3; bind 0\n             ^^^^",
    );
    note(
        "label; zeros 1\nalign 2\njump 0 2 0",
        "standard input:2:1: note: the alignment to 2 stands here\n    align 2\n    ^^^^^",
    );
    note(
        "a: jmp a\nzeros 3\nref 4 a X86JmpRel32",
        "standard input:1:4: note: the jump comes from here\n    a: jmp a\n       ^^^",
    );
    note(
        "a: jmp a; constant 01\nconstant-label 0\nref 6 a X86BranchRel8",
        "standard input:2:1: note: the alignment to 8 for constant 0 comes from here\n    constant-label 0\n    ^^^^^^^^^^^^^^",
    );
    note(
        "a:\njmp a\nbytes AA\nref 5 a X86BranchRel8 1000",
        "standard input:1:1: note: label a is bound here\n    a:\n    ^^",
    );
    note(
        "jmp ende\nend:",
        "the only entry that is open\n    jmp ende\n        ^^^^\nnote: did you mean 'end'?",
    );
}

#[test]
fn names_and_jumps_need_no_numbers() {
    let text = "start:\n  bytes 48 85 C0\n  je end\n  bytes 48 FF C8\n  jmp start\nend: bytes C3\n";
    let output = run(&["--hex", "-"], text.as_bytes());
    let expected = "  offset  bytes                       what
     0x0                              label start
     0x0  48 85 C0                    3 bytes
     0x3  74 05                       je short to label end at 0xA, distance 5
     0x5  48 FF C8                    3 bytes
     0x8  EB F6                       jmp short to label start at 0x0, distance -10
     0xA                              label end
     0xA  C3                          1 byte

labels
   label  recorded     final  name
       0       0x0       0x0  start
       1      0x11       0xA  end

finished for X64: 11 bytes, alignment 32, layouts 1, long jumps 0 of 2
";
    assert_eq!(out(&output), expected);
    let output = run(&["--arch", "x86", "-o", "-", "-"], text.as_bytes());
    let code = [
        0x48, 0x85, 0xC0, 0x0F, 0x84, 8, 0, 0, 0, 0x48, 0xFF, 0xC8, 0xE9, 0xEF, 0xFF, 0xFF, 0xFF,
        0xC3,
    ];
    assert_eq!(output.stdout, code);
    assert_eq!(err(&output), "");
}

/// Jumps of which each, once it is long, pushes the one before it out of reach.
fn chain(jumps: usize) -> String {
    let all: String = (0..jumps).map(|i| format!("jmp t{i}\n")).collect();
    let labels: String = (0..jumps).map(|i| format!("t{i}: zeros 5\n")).collect();
    format!("{all}zeros {}\n{labels}", 133 - 5 * jumps)
}

#[test]
fn rounds_say_what_grew_and_are_cut() {
    let output = run(&["--rounds", "-"], chain(4).as_bytes());
    let expected = "          jmp recorded at 0 (line 1): label t0 at 130 less its own end at 2 is 128, outside -128..127
            119 in round 1; since then, between the jump and its label,
              jmp recorded at 5 (line 2) grew by 3 after round 3
              jmp recorded at 10 (line 3) grew by 3 after round 2
              jmp recorded at 15 (line 4) grew by 3 after round 1
       5  ";
    assert!(out(&output).contains(expected), "{}", out(&output));
    let long = "label far\n".to_owned() + &"jmp far\n".repeat(40) + "zeros 200\nbind far\n";
    let brief = run(&["--rounds", "-"], long.as_bytes());
    assert!(
        out(&brief).contains("          ... 24 more jumps\n"),
        "{}",
        out(&brief)
    );
    let full = run(&["--rounds", "--full", "-"], long.as_bytes());
    assert!(!out(&full).contains("more jump"), "{}", out(&full));
}

#[test]
fn many_rounds_are_cut_unless_all_are_asked_for() {
    // Each jump crosses the next alone, so that one grows in every round, from the last to the first.
    let mut text = String::from("jmp t1\nzeros 70\n");
    for i in 2..=40 {
        text += &format!("jmp t{i}\nzeros 55\nt{}: zeros 15\n", i - 1);
    }
    text += "zeros 58\nt40:\n";
    let brief = run(&["--rounds", "-"], text.as_bytes());
    let full = run(&["--rounds", "--full", "-"], text.as_bytes());
    let rounds = |output: &Output| {
        out(output).matches("become long").count() + out(output).matches("becomes long").count()
    };
    assert_eq!(rounds(&full), 40, "{}", out(&full));
    assert_eq!(rounds(&brief), 16, "{}", out(&brief));
    assert!(out(&brief).contains("          ... 24 more rounds\n      41  "));
    assert!(out(&brief).contains("settled"), "{}", out(&brief));
}

#[test]
fn open_entries_are_counted_after_each_call() {
    let text =
        "jmp end\nconstant 07; constant-label 0 seven\nuse 0 seven 0\n2 ( ref 0 end 1 )\nend:\n";
    let output = run(&["--open", "-"], text.as_bytes());
    let expected = "
open
    line  call              open  statement
       1  label                0  end
       1  bytes                0  jmp end
       1  jump                 1  jmp end
       2  constant             1  constant 07
       2  constant-label       1  constant-label 0 seven
       3  use                  2  use 0 seven 0
       4  ref                  3  ref 0 end 1
       4  ref                  4  ref 0 end 1
       5  bind                 1  end:
          finish               0
";
    assert_eq!(output.status.code(), Some(1), "a ref touches the jump");
    let finish = "          finish               0\n";
    let labels = "\nopen labels\n    open  label\n       1  label seven: line 3; finish binds it, as a constant's\n";
    assert_eq!(out(&output), expected.trim_start().replace(finish, labels));
    assert!(err(&output).contains("error[17]: "), "{}", err(&output));

    let text = text.replace("ref 0 end 1", "relocation 0 0 end");
    let output = run(&["--open", "-"], text.as_bytes());
    assert_eq!(output.status.code(), Some(0), "{}", err(&output));
    let shown = out(&output);
    assert!(
        shown.contains("       4  relocation           4  relocation 0 0 end\n"),
        "{shown}"
    );
    let ending = "       5  bind                 1  end:\n          finish               0\n\nfinished for X64: ";
    assert!(shown.contains(ending), "{shown}");
    // Without the option the last line says what pooled constants settled.
    let plain = run(&["-"], text.as_bytes());
    assert_eq!(out(&plain).matches("open").count(), 1, "{}", out(&plain));
    let last = "long jumps 0 of 1, open until pooled 1\n";
    assert!(out(&plain).ends_with(last), "{}", out(&plain));
}

#[test]
fn open_entries_are_shown_up_to_a_refusal() {
    let output = run(&["--open", "-"], b"n; u 0 0 0\nu 4 1 0\nl 0\n");
    let expected = "open
    line  call              open  statement
       1  label                0  n
       1  use                  1  u 0 0 0

open labels
    open  label
       1  label 0: line 1
";
    assert_eq!(out(&output), expected);
    assert!(
        err(&output).contains(":2:5: error[8]: use: "),
        "{}",
        err(&output)
    );
    assert_eq!(output.status.code(), Some(1));
    let output = run(&["--open", "--write-sheet", "-", "-"], b"n; u 0 0 0");
    assert_eq!(out(&output), "");
    assert!(err(&output).contains("error[15]: "), "{}", err(&output));
}

#[test]
fn open_entries_of_a_binary_sheet_are_shown_by_call() {
    let calls = read_text("n; u 0 0 1; l 0; b 90").unwrap().calls;
    let mut sheet = write_sheet(&calls).unwrap();
    let output = run(&["--open", "-"], &sheet);
    let expected = "open
    call  name              open
       0  label                0
       1  use                  1
       2  bind                 0
       3  bytes                0
          finish               0
";
    assert!(out(&output).contains(expected), "{}", out(&output));
    sheet[4 + 4 + 3 * 16] = 13;
    let output = run(&["--binary", "--open", "-"], &sheet);
    assert_eq!(out(&output), "", "no call of it is made");
    assert!(err(&output).contains("error[1]: "), "{}", err(&output));
    let calls = read_text("n; n; u 0 1 1; b 9090; j 0 2 1; o 0 0 l0; l 0").unwrap();
    let output = run(&["--open", "-"], &write_sheet(&calls.calls).unwrap());
    let expected = "\n\nopen labels\n    open  label\n       2  label 1: calls 2, 4\n";
    assert!(out(&output).ends_with(expected), "{}", out(&output));
}

#[test]
fn many_open_entries_are_cut_unless_all_are_asked_for() {
    let text = b"n; 100 ( u 0 0 1 ); l 0; b 90";
    let brief = run(&["--open", "-"], text);
    let expected = "          ... 86 more\n       1  bytes                0  b 90\n";
    assert!(out(&brief).contains(expected), "{}", out(&brief));
    let full = run(&["--open", "--full", "-"], text);
    let expected =
        "       1  use                100  u 0 0 1\n       1  bind                 0  l 0\n";
    assert!(out(&full).contains(expected), "{}", out(&full));
}

#[test]
fn options_come_before_what_a_sheet_says() {
    let text = b"arch aarch64; symbols 1; o 0 0 s0; b 01; a 2";
    let output = run(&["-"], text);
    assert!(
        out(&output).contains("finished for AArch64"),
        "{}",
        err(&output)
    );
    let output = run(&["--arch", "x86", "-"], text);
    assert!(
        out(&output).contains("finished for X86"),
        "{}",
        err(&output)
    );
    let output = run(&["--symbols", "0", "-"], text);
    assert!(
        err(&output).contains("symbol 0 is unknown"),
        "{}",
        err(&output)
    );
    assert_eq!(output.status.code(), Some(1));
}

#[test]
fn bad_usage_is_status_2() {
    fails(
        &run(&[], b""),
        2,
        "error: a FILE is missing; - is standard input; see wargnifla --help",
    );
    fails(
        &run(&["--fast", "-"], b""),
        2,
        "error: there is no option --fast; see wargnifla --help",
    );
    let output = run(&["no/such/file"], b"");
    assert_eq!(output.status.code(), Some(2));
    assert!(
        err(&output).starts_with("no/such/file: error: can't be read: "),
        "{}",
        err(&output)
    );
    let output = run(&["-o", "no/such/folder/file", "-"], b"b 90");
    assert_eq!(output.status.code(), Some(2));
    assert!(
        err(&output).contains("can't be written"),
        "{}",
        err(&output)
    );
}

#[test]
fn help_and_version() {
    let output = run(&["--help"], b"");
    assert!(out(&output).starts_with("usage: wargnifla [OPTIONS] FILE ..\n"));
    assert_eq!(output.status.code(), Some(0));
    let output = run(&["--version"], b"");
    assert_eq!(
        out(&output),
        concat!("wargnifla ", env!("CARGO_PKG_VERSION"), "\n")
    );
}

#[test]
fn options_take_values_in_several_forms_and_each_once() {
    let file = path("forms.bin");
    let name = file.to_str().unwrap();
    let output = run(&[&format!("-o{name}"), "--arch=x86", "-"], b"b 90");
    assert!(
        out(&output).contains("finished for X86"),
        "{}",
        err(&output)
    );
    assert_eq!(fs::read(&file).unwrap(), [0x90]);
    fails(
        &run(&["-o", "a", "-o", "b", "-"], b""),
        2,
        "error: -o is given twice, with different values; see wargnifla --help",
    );
    fails(
        &run(&["--ful", "-"], b""),
        2,
        "error: there is no option --ful (did you mean --full?); see wargnifla --help",
    );
}

#[test]
fn kinds_are_listed() {
    let output = run(&["--list-kinds"], b"");
    assert_eq!(err(&output), "");
    assert_eq!(output.status.code(), Some(0));
    let text = out(&output);
    let lines = "label uses
    code  name                         bytes  architectures
       0  X86JmpRel32                      4  X86, X64
       1  X86BranchRel8                    1  X86, X64
       2  RVJal20                          -  none
";
    assert!(text.starts_with(lines), "{text}");
    let lines = "
relocations
    kind  name                         bytes  architectures and ELF types
       0  Abs4                             4  X86, X64 (R_X86_64_32), AArch64 (R_AARCH64_ABS32)
       1  Abs8                             8  X86, X64 (R_X86_64_64), AArch64 (R_AARCH64_ABS64)
       2  X86PCRel4                        4  X86, X64 (R_X86_64_PC32)
";
    assert!(text.contains(lines), "{text}");
    assert!(
        text.contains("      11  MachOAarch64TlsAdrPage21         4  AArch64\n"),
        "{text}"
    );
    assert_eq!(text.lines().count(), 17 + 28 + 5);
}

#[test]
fn a_reader_that_goes_away_is_no_error() {
    let mut child = command(&["--full", "-"])
        .stdin(Stdio::piped())
        .stdout(Stdio::piped())
        .stderr(Stdio::piped())
        .spawn()
        .unwrap();
    // The reader goes away before the command can print, which it does once its input ends.
    drop(child.stdout.take());
    child.stdin.take().unwrap().write_all(b"z 1000000").unwrap();
    let output = child.wait_with_output().unwrap();
    assert_eq!(err(&output), "");
    assert_eq!(output.status.code(), Some(0));
}

#[test]
fn marks_stand_under_what_is_wrong_behind_wide_characters() {
    let output = run(
        &["-"],
        "n # \u{6f22}\nb 90; b \u{6f22}\u{5b57} # x".as_bytes(),
    );
    let message = "standard input:2:9: error: '\u{6f22}' is no hexadecimal digit; bytes are written like 0F 1F 00
    b 90; b \u{6f22}\u{5b57} # x
            ^^^^";
    fails(&output, 2, message);
}

/// Runs where nothing can be written to standard error.
#[cfg(target_os = "linux")]
fn status_with_full_errors(arguments: &[&str]) -> Option<i32> {
    let full = fs::OpenOptions::new()
        .write(true)
        .open("/dev/full")
        .unwrap();
    let output = command(arguments)
        .stdin(Stdio::null())
        .stderr(full)
        .output()
        .unwrap();
    output.status.code()
}

#[cfg(target_os = "linux")]
#[test]
fn standard_error_that_cannot_be_written_changes_no_status() {
    let refused = path("full-refused.txt");
    fs::write(&refused, "bind 3").unwrap();
    let noted = path("full-noted.txt");
    fs::write(&noted, "n; l 0; z 4; r 0 0 0").unwrap();
    let noted = noted.to_str().unwrap();
    assert_eq!(
        status_with_full_errors(&[refused.to_str().unwrap()]),
        Some(1)
    );
    assert_eq!(status_with_full_errors(&["--fast"]), Some(2));
    assert_eq!(status_with_full_errors(&["no/such/file"]), Some(2));
    assert_eq!(status_with_full_errors(&[noted]), Some(0));
    assert_eq!(status_with_full_errors(&[noted, noted]), Some(0));
}
