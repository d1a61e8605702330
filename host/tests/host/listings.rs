//! Listings: every byte once, and what it is.

use wargnifla::{
    Arch, Call, CodeBuffer, Extent, Label, Radix, Refusal, Style, Sym, read_text, write_sheet,
};

fn listed(arch: Arch, text: &str, style: impl Into<Style>) -> Vec<String> {
    let mut buffer = crate::recorded(arch, text).unwrap();
    let script = read_text(text).unwrap();
    for (label, name) in &script.names {
        buffer.name_label(Label::from_id(*label), name);
    }
    for (symbol, name) in (0..).zip(&script.symbol_names) {
        buffer.name_symbol(Sym::from_id(symbol), name);
    }
    let finished = buffer.finish_with_recording().unwrap();
    let lines = finished.listing(style);
    lines.lines().skip(1).map(String::from).collect()
}

#[test]
fn jumps_padding_fields_and_constants_are_named() {
    let text = "n; c 0102; k 0; z 6; j 0 6 0 ne; b 488D05; z 4; r 9 1 0 2; a 16; l 0; b C3";
    let expected = [
        "       0  75 0E                       jne short to label 0 at 16, distance 14",
        "       2  48 8D 05                    3 bytes",
        "       5  11 00 00 00                 X86JmpRel32: label 1 at 24, addend 2, distance 17",
        "       9  0F 1F 80 00 00 00 00        align 16: 7 bytes of padding, 3 recorded",
        "      16                              label 0",
        "      16  C3                          1 byte",
        "      17  0F 1F 80 00 00 00 00        align 8 for constant 0: 7 bytes of padding",
        "      24                              label 1",
        "      24  01 02                       constant 0, label 1",
    ];
    assert_eq!(listed(Arch::X64, text, Extent::Brief), expected);
}

#[test]
fn long_runs_are_cut_unless_all_is_asked_for() {
    let brief = listed(Arch::X64, "z 100", Extent::Brief);
    let line = "00 00 00 00 00 00 00 00";
    assert_eq!(brief.len(), 3);
    assert_eq!(brief[0], format!("       0  {line}     100 bytes"));
    assert_eq!(brief[1], format!("       8  {line}"));
    assert_eq!(brief[2], "          ... 84 more bytes");
    let full = listed(Arch::X64, "z 100", Extent::Full);
    assert_eq!(full.len(), 13);
    assert_eq!(full[12], "      96  00 00 00 00");
}

#[test]
fn labels_cut_runs_and_empty_alignments_are_shown() {
    let text = "n; n; b 11; l 0; b 22; a 2; l 1; b 33";
    let expected = [
        "       0  11                          1 byte",
        "       1                              label 0",
        "       1  22                          1 byte",
        "       2                              align 2: no padding",
        "       2                              label 1",
        "       2  33                          1 byte",
    ];
    assert_eq!(listed(Arch::X64, text, Extent::Brief), expected);
}

#[test]
fn fields_that_overlap_say_so() {
    let text = "n; l 0; z 5; u 0 0 0; u 2 0 1";
    let lines = listed(Arch::X86, text, Extent::Brief);
    assert!(
        lines[1].ends_with("label 0 at 0, distance -4; what is written later covers it"),
        "{}",
        lines[1]
    );
    assert!(
        lines[2].ends_with("X86BranchRel8: label 0 at 0, distance -3 (overlaps the row above)")
    );
    assert_eq!(lines[3], "       4  00                          1 byte");
}

/// Constants are written after the fields.
#[test]
fn a_field_under_a_constant_says_so() {
    let field = |offset| {
        let text = format!("n; l 0; b 90; c 0102; k 0; u {offset} 0 0");
        let lines = listed(Arch::X86, &text, Extent::Brief);
        let line = lines.iter().find(|line| line.contains("X86JmpRel32"));
        line.unwrap().contains("; what is written later covers it")
    };
    // The constant stands at 8, with padding from 1 to 8.
    assert!(!field(4));
    assert!(field(5));
}

#[test]
fn skipped_alignments_are_shown_where_they_stand() {
    let text = "jmp end; b 11; a 8 2; a 4 1; here: end: b 22; c 33; k 0";
    let expected = [
        "       0  EB 02                       jmp short to label end at 4, distance 2",
        "       2  11                          1 byte",
        "       3                              align 8 skipped: 5 needed, at most 2, 2 recorded",
        "       3  90                          align 4, at most 1: 1 byte of padding, 0 recorded",
        "       4                              label end",
        "       4                              label here",
        "       4  22                          1 byte",
        "       5  0F 1F 00                    align 8 for constant 0: 3 bytes of padding, 7 recorded",
        "       8                              label 2",
        "       8  33                          constant 0, label 2",
    ];
    assert_eq!(listed(Arch::X64, text, Extent::Brief), expected);
    let lines = listed(Arch::X86, "b 11; a 8 6; a 4 3; b 22", Extent::Brief);
    let expected = [
        "       0  11                          1 byte",
        "       1                              align 8 skipped: 7 needed, at most 6",
        "       1  0F 1F 00                    align 4, at most 3: 3 bytes of padding",
        "       4  22                          1 byte",
    ];
    assert_eq!(lines, expected);
}

#[test]
fn alignments_off_x64_come_from_the_calls() {
    let lines = listed(Arch::AArch64, "b 01; a 8; b 02", Extent::Brief);
    assert_eq!(
        lines[1],
        "       1  00 00 00 00 00 00 00        align 8: 7 bytes of padding"
    );
    assert_eq!(lines[2], "       8  02                          1 byte");
}

/// However an alignment is recorded, off X64 a finished recording has it.
#[test]
fn alignments_off_x64_are_noted_however_they_are_made() {
    for arch in [Arch::X86, Arch::AArch64] {
        let mut buffer = CodeBuffer::new(arch);
        buffer.put1(1).unwrap();
        buffer.try_align_to(4).unwrap();
        let sheet = "b 02; a 4 2; a 8 3; b 03; a 16";
        let sheet = write_sheet(&read_text(sheet).unwrap().calls).unwrap();
        buffer.run_sheet(&sheet).unwrap();
        buffer.put1(4).unwrap();
        buffer.try_align_to_within(2, 0).unwrap();
        buffer.call(&Call::align(2)).unwrap();
        buffer.try_align_to(3).unwrap_err();
        assert_eq!(buffer.recording().events, []);
        let finished = buffer.clone().finish_with_recording().unwrap();
        let events = finished.recording().events.iter();
        let spent: Vec<_> = events.map(|event| (event.start(), event.end())).collect();
        let expected = [(1, 4), (5, 5), (5, 8), (9, 16), (17, 17), (17, 18)];
        assert_eq!(spent, expected, "{arch}");
        assert_eq!(finished.recorded(), buffer.data());
        assert_eq!(*finished.code(), buffer.finish().unwrap());
        let rows = finished.listing(Extent::Full);
        let skipped = "align 4 skipped: 3 needed, at most 2";
        assert!(rows.contains(skipped), "{rows}");
        assert!(rows.contains("align 2 skipped: 1 needed, at most 0"));
    }
}

#[test]
fn a_refused_finish_keeps_its_recording() {
    let mut buffer = crate::recorded(Arch::X64, "n; z 5; j 0 5 0").unwrap();
    let before = buffer.recording();
    let error = buffer.finish_with_recording().unwrap_err();
    assert_eq!(error.refusal(), Refusal::UnboundLabel);
    assert_eq!(buffer.recording(), before);
    buffer.try_bind_label(Label::from_id(0)).unwrap();
    let finished = buffer.finish_with_recording().unwrap();
    assert_eq!(finished.recording().labels, [5]);
    assert_eq!(finished.code().label_offsets(), [2]);
    assert_eq!(buffer.finish_with_recording().unwrap_err().number(), 4);
}

#[test]
fn aarch64_fields_show_their_word() {
    let lines = listed(
        Arch::AArch64,
        "n; b 00000014; u 0 0 11; z 4; l 0",
        Extent::Brief,
    );
    assert_eq!(
        lines[0],
        "       0  02 00 00 14                 A64Branch26 in 14000002: label 0 at 8, distance 8"
    );
}

#[test]
fn nothing_is_listed_of_nothing() {
    assert_eq!(listed(Arch::X64, "", Extent::Brief), [""; 0]);
}

#[test]
fn relocations_stand_in_their_place() {
    let text = "n; l 0; b E8; z 4; o 1 X86CallPLTRel4 s0 -4; z 8; o 5 Abs8 l0; o 10 Abs8 l0";
    let expected = [
        "       0                              label 0",
        "       0  E8                          1 byte",
        "       1  00 00 00 00                 relocation X86CallPLTRel4: symbol 0, addend -4",
        "       5  00 00 00 00 00 00 00 00     relocation Abs8: label 0",
        "      10                              relocation Abs8: label 0 (overlaps the row above)",
    ];
    assert_eq!(listed(Arch::X64, text, Extent::Brief), expected);
}

#[test]
fn relocations_name_their_symbols() {
    let text = "symbols puts exit; b E8; z 4; o 1 X86CallPLTRel4 exit -4; data: z 8; o 5 Abs8 data";
    let lines = listed(Arch::X64, text, Extent::Brief);
    let expected = [
        "       1  00 00 00 00                 relocation X86CallPLTRel4: symbol exit, addend -4",
        "       5                              label data",
        "       5  00 00 00 00 00 00 00 00     relocation Abs8: label data",
    ];
    assert_eq!(lines[1..], expected);
}

#[test]
fn what_was_not_patched_has_a_row() {
    let lines = listed(
        Arch::X86,
        "n; l 0; b 90; z 5; j 1 5 0; r 2 0 0; j 9 9 0",
        Extent::Brief,
    );
    let expected = [
        "       0                              label 0",
        "       0  90                          1 byte",
        "       1  00 00 00 00 00              jump to label 0: not kept on X86; the bytes stay as recorded",
        "       2  00 00 00 00                 ref X86JmpRel32 to label 0: not kept on X86; the bytes stay as recorded (overlaps the row above)",
        "       6                              at 9, past the end: jump to label 0: not kept on X86; the bytes stay as recorded",
    ];
    assert_eq!(lines, expected);
    let lines = listed(
        Arch::X64,
        "n; l 0; z 9; r 0 0 0; r 5 0 0; u 5 0 0",
        Extent::Brief,
    );
    let expected = [
        "       0                              label 0",
        "       0  00 00 00 00                 ref X86JmpRel32 to label 0: not patched, since no jump stands; the bytes stay as recorded",
        "       4  00                          1 byte",
        "       5                              ref X86JmpRel32 to label 0: not patched, since no jump stands; a use fills the field",
        "       5  F7 FF FF FF                 X86JmpRel32: label 0 at 0, distance -9",
    ];
    assert_eq!(lines, expected);
    let lines = listed(
        Arch::X64,
        "n; l 0; z 5; j 0 5 0; z 8; u 6 0 0; r 9 0 0; u 9 0 0",
        Extent::Brief,
    );
    let expected = [
        "       0                              label 0",
        "       0  EB FE                       jmp short to label 0 at 0, distance -2",
        "       2  00                          1 byte",
        "       3  00 00 00 FA                 use X86JmpRel32 of label 0: dropped, since a jump stands; the bytes stay as recorded",
        "       6                              use X86JmpRel32 of label 0: dropped, since a jump stands; a ref or jump fills the field (overlaps the row above)",
    ];
    assert_eq!(lines[..3], expected[..3]);
    assert!(lines[3].ends_with(
        "use X86JmpRel32 of label 0: dropped, since a jump stands; the bytes stay as recorded"
    ));
    assert!(lines[4].contains("a ref or jump fills the field"));
}

#[test]
fn names_and_hexadecimal_offsets() {
    let style = Style {
        extent: Extent::Full,
        offsets: Radix::Hexadecimal,
    };
    let lines = listed(
        Arch::X64,
        "jmp end; align 16; end: b 90; start: jne start",
        style,
    );
    let expected = [
        "     0x0  EB 0E                       jmp short to label end at 0x10, distance 14",
        "     0x2  66 0F 1F 84 00 00 00 00 00  align 16: 14 bytes of padding, 11 recorded",
        "     0xB  0F 1F 44 00 00",
        "    0x10                              label end",
        "    0x10  90                          1 byte",
        "    0x11                              label start",
        "    0x11  75 FE                       jne short to label start at 0x11, distance -2",
    ];
    assert_eq!(lines, expected);
}

#[test]
fn page_fields_show_what_they_hold() {
    let text = "n; b 00000090; u 0 0 14; b 00000091; u 4 0 16; z 4379; l 0";
    let lines = listed(Arch::AArch64, text, Extent::Brief);
    assert!(
        lines[0].ends_with("A64Adrp21 in B0000000: label 0 at 4387, distance 1 page"),
        "{}",
        lines[0]
    );
    assert!(
        lines[1].ends_with("A64AddAbsLo12 in 91048C00: label 0 at 4387, low 12 bits 291"),
        "{}",
        lines[1]
    );
}

/// What an `add` held is replaced; that it shifts its immediate is not, and is said.
#[test]
fn an_add_with_an_immediate_shows_what_becomes_of_it() {
    let of_template = |bytes| {
        let text = format!("n; z 2; l 0; z 2; b {bytes}; u 4 0 16");
        listed(Arch::AArch64, &text, Extent::Brief).pop().unwrap()
    };
    let plain = of_template("00040091");
    let said = "A64AddAbsLo12 in 91000800: label 0 at 2, low 12 bits 2";
    assert!(plain.ends_with(said), "{plain}");
    let shifted = of_template("00FC7F91");
    let said = "A64AddAbsLo12 in 91400800: label 0 at 2, low 12 bits 2; bit 22 is set: 4,096 times that is added";
    assert!(shifted.ends_with(said), "{shifted}");
}

/// Each use clears the field before it writes: the last one decides, whatever the others left there.
#[test]
fn the_last_of_several_uses_decides_an_immediate() {
    let last = |text| listed(Arch::AArch64, text, Extent::Brief).pop().unwrap();
    let twice = last("n; n; z 1; l 0; z 1; l 1; z 2; b 00000091; u 4 0 16; u 4 1 16");
    assert!(twice.contains("00 08 00 91"), "{twice}");
    let over_branch = last("n; l 0; z 4; b 00000014; u 4 0 11; u 4 0 16");
    assert!(over_branch.contains("FF 03 C0 17"), "{over_branch}");
}
