//! Alignments with ceilings: how they are written, and what is shown of them.

use std::fs;

use super::{err, fails, out, path, run};

const SHEET: &str = include_str!("../../../sheets/ceiling.txt");

#[test]
fn shows_what_is_skipped_and_what_changes_from_round_to_round() {
    let output = run(&["--rounds", "-"], SHEET.as_bytes());
    assert_eq!(err(&output), "");
    let expected = "  offset  bytes                       what
       0  0F 84 B0 00 00 00           je near to label done at 182, distance 176
       6  0F 8E 7C 00 00 00           jle near to label second at 136, distance 124
      12  00 00 00 00 00 00 00 00     14 bytes
      20  00 00 00 00 00 00
      26  66 0F 1F 44 00 00           align 32, at most 10: 6 bytes of padding
      32                              label first
      32  00 00 00 00 00 00 00 00     102 bytes
      40  00 00 00 00 00 00 00 00
          ... 86 more bytes
     134  75 98                       jne short to label first at 32, distance -104
     136                              align 32 skipped: 24 needed, at most 10
     136                              label second
     136  00 00 00 00 00 00 00 00     16 bytes
     144  00 00 00 00 00 00 00 00
     152  75 EE                       jne short to label second at 136, distance -18
     154  66 0F 1F 44 00 00           align 32, at most 10: 6 bytes of padding, skipped when recorded
     160                              label third
     160  00 00 00 00 00 00 00 00     20 bytes
     168  00 00 00 00 00 00 00 00
     176  00 00 00 00
     180  75 EA                       jne short to label third at 160, distance -22
     182                              label done
     182  C3                          1 byte

labels
   label  recorded     final  name
       0       188       182  done
       1       140       136  second
       2        32        32  first
       3       162       160  third

rounds
       1  169 bytes; 1 jump becomes long
          align 32 10 recorded at 26 (line 15): skipped, 14 needed
            starts 8 earlier than recorded, since in front of it
              je recorded at 0 (line 12) shrank by 4
              jle recorded at 6 (line 13) shrank by 4
          align 32 10 recorded at 162 (line 23): skipped, 14 needed
            starts 16 earlier than recorded, since in front of it
              je recorded at 0 (line 12) shrank by 4
              jle recorded at 6 (line 13) shrank by 4
              align 32 10 recorded at 26 (line 15) shrank by 6
              jne recorded at 134 (line 18) shrank by 4
              align 32 10 recorded at 140 (line 19) grew by 6
              jne recorded at 156 (line 22) shrank by 4
          je recorded at 0 (line 12): label done at 168 less its own end at 2 is 166, outside -128..127
       2  183 bytes; 1 jump becomes long
          align 32 10 recorded at 26 (line 15): 10 bytes of padding; in round 1: skipped, 14 needed
            starts 4 later than in round 1, since in front of it
              je recorded at 0 (line 12) grew by 4
          align 32 10 recorded at 140 (line 19): skipped, 24 needed; in round 1: 6 bytes of padding
            starts 14 later than in round 1, since in front of it
              je recorded at 0 (line 12) grew by 4
              align 32 10 recorded at 26 (line 15) grew by 10
          align 32 10 recorded at 162 (line 23): 6 bytes of padding; in round 1: skipped, 14 needed
            starts 8 later than in round 1, since in front of it
              je recorded at 0 (line 12) grew by 4
              align 32 10 recorded at 26 (line 15) grew by 10
              align 32 10 recorded at 140 (line 19) shrank by 6
          jle recorded at 6 (line 13): label second at 136 less its own end at 8 is 128, outside -128..127
            124 in round 1; since then, between the jump and its label,
              align 32 10 recorded at 26 (line 15) grew by 10 after round 1
              align 32 10 recorded at 140 (line 19) shrank by 6 after round 1
       3  183 bytes; every short jump reaches: settled

finished for X64: 183 bytes, alignment 32, layouts 3, long jumps 2 of 5
";
    assert_eq!(out(&output), expected);
    assert_eq!(output.status.code(), Some(0));
}

#[test]
fn what_was_recorded_is_said_where_finish_decides_otherwise() {
    let shows = |text: &str, expected: &str| {
        let output = run(&["-"], text.as_bytes());
        assert!(out(&output).contains(expected), "{}", out(&output));
    };
    shows("b 90; a 8 3", "  align 8 skipped: 7 needed, at most 3\n");
    shows("b 90; a 8 4095", "  align 8: 7 bytes of padding\n");
    let behind_jump = |bytes, most| format!("jmp e; z {bytes}; a 8 {most}; e:");
    let row = "  align 8, at most 5: 3 bytes of padding, 0 recorded\n";
    shows(&behind_jump(3, 5), row);
    let row = "  align 8 skipped: 3 needed, at most 2, 0 recorded\n";
    shows(&behind_jump(3, 2), row);
    let row = "  align 8 skipped: 4 needed, at most 1, 1 recorded\n";
    shows(&behind_jump(2, 1), row);
    let row = "  align 8, at most 5: 1 byte of padding, skipped when recorded\n";
    shows(&behind_jump(5, 5), row);
    let row = "  align 8, at most 4: no padding, skipped when recorded\n";
    shows(&behind_jump(6, 4), row);
    shows(
        &behind_jump(1, 1),
        "  align 8 skipped: 5 needed, at most 1\n",
    );
    let on_aarch64 = "arch aarch64; b 90; a 8 6; a 8 7";
    shows(on_aarch64, "  align 8 skipped: 7 needed, at most 6\n");
    shows(on_aarch64, "  align 8, at most 7: 7 bytes of padding\n");
}

#[test]
fn a_jump_by_name_stands_where_padding_leaves_it() {
    let output = run(&["-"], b"b 90; align 8 6; jmp e; align 8 3; e:");
    assert_eq!(output.status.code(), Some(0), "{}", err(&output));
    let rows = "       1                              align 8 skipped: 7 needed, at most 6
       1  EB 00                       jmp short to label e at 3, distance 0
       3                              align 8 skipped: 5 needed, at most 3, 2 recorded
       3                              label e\n";
    assert!(out(&output).contains(rows), "{}", out(&output));
}

#[test]
fn malformed_ceilings_are_marked() {
    let message = |text: &str, column: usize, sentence: &str| {
        let output = run(&["-"], text.as_bytes());
        fails(
            &output,
            2,
            &format!("standard input:2:{column}: error: {sentence}"),
        );
    };
    message(
        "bytes 90\nalign 16 0",
        10,
        "an align that may spend 0 bytes fits no sheet, whose 0 is the default, 4095: \
         leave MOST out for the default, or leave the align out
    align 16 0
             ^",
    );
    message(
        "bytes 90\nalign 16 -3",
        10,
        "'-3' is no number; one is decimal, or hexadecimal after 0x
    align 16 -3
             ^^",
    );
    message(
        "bytes 90\nalign 16 4294967296",
        10,
        "'4294967296' is above 4294967295
    align 16 4294967296
             ^^^^^^^^^^",
    );
    message(
        "bytes 90\nalign 16 3 4 # two",
        12,
        "align takes MULTIPLE and perhaps MOST, and 3 words stand here
    align 16 3 4 # two
               ^",
    );
    let output = run(&["-"], b"bytes 90\nalign 24 7");
    let sentence =
        "standard input:2:7: error[5]: align: InvalidArgument: the alignment 24 is no power of two
    align 24 7
          ^^";
    fails(&output, 1, sentence);
}

#[test]
fn a_binary_sheet_carries_ceilings() {
    let file = path("ceiling.bin");
    let name = file.to_str().unwrap();
    let text = b"label; bytes 90; align 8 6; align 8; align 8 4294967295; bind 0";
    let from_text = run(&["--write-sheet", name, "-"], text);
    let sheet = fs::read(&file).unwrap();
    let word = |call: usize| sheet[4 + 6 + 16 * call + 4..][..4].to_vec();
    assert_eq!(
        [word(2), word(3), word(4)],
        [[6, 0, 0, 0], [0; 4], [255; 4]]
    );
    let from_sheet = run(&["--binary", name], b"");
    assert_eq!(out(&from_sheet), out(&from_text));
    assert!(out(&from_sheet).contains("align 8 skipped: 7 needed, at most 6"));
}

#[test]
fn many_skipped_alignments_are_cut_unless_all_are_asked_for() {
    let text = b"jmp e; 40 ( z 1; a 64 1 ) e:";
    let brief = run(&["--rounds", "-"], text);
    let cut = "          ... 24 more alignments\n";
    assert!(out(&brief).contains(cut), "{}", out(&brief));
    let full = run(&["--rounds", "--full", "-"], text);
    let (_, rounds) = out(&full).split_once("\nrounds\n").unwrap();
    assert_eq!(rounds.matches(": skipped, ").count(), 40, "{rounds}");
}

#[test]
fn of_many_changes_in_front_the_nearest_are_named() {
    let jumps: String = (0..12).map(|_| "jmp end; ").collect();
    let text = format!("{jumps}zeros 5; align 16 1; end: bytes C3");
    let said = run(&["--rounds", "-"], text.as_bytes());
    let lines = "            starts 36 earlier than recorded, since in front of it
              ... 4 more changes
              jmp recorded at 20 (line 1) shrank by 3
";
    assert!(out(&said).contains(lines), "{}", out(&said));
    assert_eq!(out(&said).matches(" shrank by 3\n").count(), 8);
}
