//! `--mistake`: what a classic mistake writes, beside what is right.

use crate::{err, fails, out, path, run};

/// The rule of docs/TOUR.md, whose jump goes over one byte.
const BILL: &[u8] =
    b"bytes 89 F0\nbytes 85 FF\njne packed\nbytes C3\npacked: bytes 89 F8\nbytes C3\n";

fn shows(arguments: &[&str], input: &[u8], expected: &str) {
    let output = run(arguments, input);
    assert_eq!(err(&output), "");
    assert_eq!(out(&output), expected);
    assert_eq!(output.status.code(), Some(0));
}

#[test]
fn shows_right_and_wrong_side_by_side() {
    let expected = "\
wrong on purpose, --mistake from-start: distances are measured from a jump's start; the processor counts from its end

jumps and alignments, right and wrong on purpose
  jne recorded at 4 (line 3)
    right: at 4, 75 01 lands at 7, on label packed
    wrong: at 4, 75 03 lands at 9; label packed is at 7

bytes, right and wrong on purpose
  offset  right                    wrong on purpose
       0  89 F0 85 FF 75 01 C3 89  89 F0 85 FF 75 03 C3 89  differs

right: finished for X64: 10 bytes, alignment 32, layouts 1, long jumps 0 of 1
wrong on purpose: 10 bytes, jumps that miss their labels 1 of 1, alignments with wrong padding 0 of 0
";
    shows(&["--mistake", "from-start", "-"], BILL, expected);
}

#[test]
fn says_where_a_sheet_does_not_show_the_mistake() {
    let expected = "\
wrong on purpose, --mistake one-round: jumps become long in round 1 alone; each round has to look at every short jump again

jumps and alignments, right and wrong on purpose
  jne recorded at 4 (line 3)
    right and wrong alike: at 4, 75 01 lands at 7, on label packed

bytes, right and wrong on purpose: the same; this sheet does not show the mistake

right: finished for X64: 10 bytes, alignment 32, layouts 1, long jumps 0 of 1
wrong on purpose: 10 bytes, jumps that miss their labels 0 of 1, alignments with wrong padding 0 of 0
";
    shows(&["--mistake", "one-round", "-"], BILL, expected);
    shows(&["--mistake", "one-round", "--full", "-"], BILL, expected);
}

/// A part of what is shown.
fn shows_part(arguments: &[&str], input: &[u8], expected: &str) {
    let output = run(arguments, input);
    assert!(out(&output).contains(expected), "{}", out(&output));
    assert_eq!(output.status.code(), Some(0));
}

#[test]
fn landings_outside_the_code_are_named() {
    let crossing = b"jmp first; jmp second; zeros 125; first: zeros 3; second:";
    let before = "    wrong: at 0, EB 82 lands at -124, before the code; label first is at 132\n";
    shows_part(&["--mistake", "one-round", "-"], crossing, before);
    let on = b"jmp end; zeros 127; end:";
    let past = "    wrong: at 0x0, E9 84 00 00 00 lands at 0x89, past the code, which has 132 bytes; label end is at 0x84\n";
    shows_part(&["--mistake", "from-start", "--hex", "-"], on, past);
}

#[test]
fn padding_is_shown_with_where_it_ends() {
    let expected = "\
  align 16 recorded at 5 (line 1)
    right: at 2, 14 bytes of padding up to 16, a multiple of 16
    wrong: at 2, 11 bytes of padding up to 13, no multiple of 16
  align 8 2 recorded at 20 (line 1)
    right: at 20, skipped, 4 needed, at most 2
    wrong: at 17, skipped, 7 needed, at most 2

bytes, right and wrong on purpose
  offset  right                    wrong on purpose
       0  EB 12 66 0F 1F 84 00 00  EB 0F 66 0F 1F 84 00 00  differs
       8  00 00 00 0F 1F 44 00 00  00 00 00 66 90 01 02 03  differs
      16  01 02 03 04              04                       differs
";
    let table = b"jmp end; align 16; bytes 01020304; align 8 2; end:";
    shows_part(&["--mistake", "old-padding", "-"], table, expected);
}

#[test]
fn long_reports_are_cut_unless_all_is_asked_for() {
    let sheet = b"40 ( bytes 90; align 4 ); jmp end; zeros 300; end:";
    let brief = run(&["--mistake", "from-start", "-"], sheet);
    assert!(out(&brief).contains("\n  ... 25 more\n"), "{}", out(&brief));
    let full = run(&["--mistake", "from-start", "--full", "-"], sheet);
    assert!(!out(&full).contains("..."), "{}", out(&full));
    let same = "       0  90 0F 1F 00 90 0F 1F 00  90 0F 1F 00 90 0F 1F 00\n";
    assert!(out(&full).contains(same), "{}", out(&full));
}

#[test]
fn is_about_resized_jumps() {
    let refused = |text, sentence| {
        fails(&run(&["--mistake", "one-round", "-"], text), 2, sentence);
    };
    refused(
        b"bytes 90; align 8",
        "standard input: error: --mistake is about jumps that are resized, on X64, and this sheet has no jump",
    );
    refused(
        b"arch aarch64; zeros 4",
        "standard input: error: --mistake is about jumps that are resized, on X64, and this sheet is for AArch64",
    );
}

#[test]
fn goes_into_no_file() {
    let file = path("mistake.out");
    let name = file.to_str().unwrap();
    for option in ["-o", "--object", "--write-sheet", "--picture"] {
        let sentence = format!(
            "error: --mistake only shows code that is wrong on purpose, and can't be given with {option}; see wargnifla --help"
        );
        fails(
            &run(&["--mistake", "from-start", option, name, "-"], BILL),
            2,
            &sentence,
        );
        assert!(!file.exists());
    }
}

#[test]
fn what_is_not_in_the_code_is_said_here_too() {
    let output = run(
        &["--mistake", "from-start", "-"],
        b"jmp end; zeros 4; use 5 end X86JmpRel32; end:",
    );
    assert!(
        err(&output).starts_with("standard input:1:19: note: 1 use"),
        "{}",
        err(&output)
    );
}
