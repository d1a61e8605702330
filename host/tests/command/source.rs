//! The lines of texts in the listing.

use std::collections::BTreeSet;
use std::fs;
use std::path::Path;

use wargnifla::{read_text, write_sheet};

use super::{err, fails, out, path, run};

/// The listing of a text with its lines.
fn listed(options: &[&str], text: &str) -> String {
    let output = run(&[&["--source"], options, &["-"]].concat(), text.as_bytes());
    assert_eq!(output.status.code(), Some(0), "{}", err(&output));
    let (listing, _) = out(&output).split_once("\n\n").unwrap();
    format!("{listing}\n")
}

#[test]
fn lines_stand_above_what_they_made() {
    let expected = "  offset  bytes                       what
  line 5  start:
       0                              label start
  line 6  bytes 48 85 C0      # test rax, rax
       0  48 85 C0                    3 bytes
  line 7  je end
       3  74 05                       je short to label end at 10, distance 5
  line 8  bytes 48 FF C8      # dec rax
       5  48 FF C8                    3 bytes
  line 9  jmp start
       8  EB F6                       jmp short to label start at 0, distance -10
 line 10  end:
      10                              label end
 line 11  bytes C3            # ret
      10  C3                          1 byte
";
    let text = include_str!("../../../sheets/loop.txt");
    assert_eq!(listed(&[], text), expected);
}

#[test]
fn a_line_between_a_jump_and_its_bytes_stands_with_the_jump() {
    let text = "label end\nbytes 90 E9 00 00 00 00 # room\nuse 2 end 0\njump 1 5 end\n\
                align 4 1\nalign 8 # all\nend: bytes C3\nconstant 07; constant-label 0\n";
    let expected = "  offset  bytes                       what
  line 2  bytes 90 E9 00 00 00 00 # room
       0  90                          1 byte
  line 3  use 2 end 0
  line 4  jump 1 5 end
       1  EB 05                       jmp short to label end at 8, distance 5
       2                              use X86JmpRel32 of label end: dropped, since a jump stands; a ref or jump fills the field (overlaps the row above)
  line 5  align 4 1
       3  90                          align 4, at most 1: 1 byte of padding, skipped when recorded
  line 6  align 8 # all
       4  0F 1F 40 00                 align 8: 4 bytes of padding, 2 recorded
  line 7  end: bytes C3
       8                              label end
       8  C3                          1 byte
  line 8  constant 07; constant-label 0
       9  0F 1F 80 00 00 00 00        align 8 for constant 0: 7 bytes of padding
      16                              label 1
      16  07                          constant 0, label 1
";
    assert_eq!(listed(&[], text), expected);
}

#[test]
fn repeated_lines_are_shown_each_time_and_alignments_off_x64_too() {
    let text = "arch aarch64\n2 (\nbytes 00 00 00 14\n  align 8 # next\n)\nend:";
    let expected = "  offset  bytes                       what
  line 3  bytes 00 00 00 14
       0  00 00 00 14                 4 bytes
  line 4  align 8 # next
       4  00 00 00 00                 align 8: 4 bytes of padding
  line 3  bytes 00 00 00 14
       8  00 00 00 14                 4 bytes
  line 4  align 8 # next
      12  00 00 00 00                 align 8: 4 bytes of padding
  line 6  end:
      16                              label end
";
    assert_eq!(listed(&[], text), expected);
}

#[test]
fn long_lines_are_cut_unless_all_is_asked_for() {
    let text = format!("b 90 # {}\x1b\n;a: b 91", "x".repeat(200));
    let brief = listed(&[], &text);
    assert!(
        brief.contains(&format!("\n  line 1  b 90 # {}..\n", "x".repeat(93))),
        "{brief}"
    );
    let full = listed(&["--full"], &text);
    assert!(full.contains("xxx\\u{1b}\n"), "{full}");
}

#[test]
fn every_line_with_a_call_is_shown() {
    let sheets = Path::new(env!("CARGO_MANIFEST_DIR")).join("../sheets");
    for sheet in fs::read_dir(sheets).unwrap() {
        let text = fs::read_to_string(sheet.unwrap().path()).unwrap();
        let script = read_text(&text).unwrap();
        let calls = 0..script.calls.len();
        let lines = calls
            .filter(|call| script.calls[*call] != wargnifla::Call::NewLabel)
            .map(|call| script.place(call).line);
        let expected: BTreeSet<u32> = lines.collect();
        let shown = listed(&["--full"], &text);
        let shown = shown.lines().filter_map(|line| {
            let (number, _) = line.trim_start().strip_prefix("line ")?.split_once("  ")?;
            number.parse().ok()
        });
        let shown: Vec<u32> = shown.collect();
        assert_eq!(BTreeSet::from_iter(shown.iter().copied()), expected);
    }
}

#[test]
fn joined_sheets_show_the_lines_of_each() {
    let (caller, callee) = (path("source-a.txt"), path("source-b.txt"));
    fs::write(
        &caller,
        "symbols f\nb E8; z 4 # call\no 1 X86CallPLTRel4 f -4\n",
    )
    .unwrap();
    fs::write(&callee, "# f\njmp f; align 4\nf: b C3 # ret\n").unwrap();
    let (caller, callee) = (caller.to_str().unwrap(), callee.to_str().unwrap());
    let output = run(&["--source", caller, callee], b"");
    let expected = format!(
        "  offset  bytes                       what
       0                              piece 0: {caller}
  line 2  b E8; z 4 # call
       0  E8                          1 byte
       1  1F 00 00 00                 relocation X86CallPLTRel4: symbol f at 36, addend -4, filled with 31
  line 3  o 1 X86CallPLTRel4 f -4
       5  00 00 00 00 00 00 00 00     27 bytes up to the next piece
      13  00 00 00 00 00 00 00 00
      21  00 00 00 00 00 00 00 00
      29  00 00 00
      32                              piece 1: {callee}
  line 2  jmp f; align 4
      32  EB 02                       jmp short to label f at 36, distance 2
      34  66 90                       align 4: 2 bytes of padding, 3 recorded
  line 3  f: b C3 # ret
      36                              label f
      36  C3                          1 byte
"
    );
    assert!(out(&output).starts_with(&expected), "{}", out(&output));
}

#[test]
fn a_binary_sheet_has_no_lines() {
    let sheet = write_sheet(&read_text("b 90").unwrap().calls).unwrap();
    fails(
        &run(&["--source", "-"], &sheet),
        2,
        "standard input: error: this is a binary sheet, and --source shows the lines of a text",
    );
}
