//! Listings of joined code: the pieces at their offsets, with the numbers that labels and symbols have in the whole.

use wargnifla::{
    Arch, CodeBuffer, FinishedRecording, JoinedRecordings, Label, ListedPiece, Sym, read_text,
    symbols_named,
};

/// A text as it was recorded, and what it finishes to.
fn finished(arch: Arch, text: &str) -> FinishedRecording {
    let script = read_text(text).unwrap();
    let symbols = script.symbols.unwrap_or(symbols_named(&script.calls));
    let mut buffer = CodeBuffer::with_symbols(arch, symbols);
    for (label, name) in &script.names {
        buffer.name_label(Label::from_id(*label), name);
    }
    for (symbol, name) in (0..).zip(&script.symbol_names) {
        buffer.name_symbol(Sym::from_id(symbol), name);
    }
    for definition in script.definitions {
        buffer.bind_symbol(definition.symbol, Label::from_id(definition.label));
    }
    for call in &script.calls {
        buffer.call(call).unwrap();
    }
    buffer.finish_with_recording().unwrap()
}

/// The lines of a joined listing without its head, and its record.
fn listed(arch: Arch, texts: &[&str]) -> (Vec<String>, String) {
    let rules: Vec<_> = texts.iter().map(|text| finished(arch, text)).collect();
    let pieces = rules.iter().map(|finished| ListedPiece {
        title: "a rule",
        finished,
    });
    let joined = JoinedRecordings::new(pieces).unwrap();
    let lines = joined.listing(wargnifla::Extent::Brief);
    let lines = lines.lines().skip(1).map(String::from).collect();
    (lines, joined.whole().record())
}

#[test]
fn pieces_gaps_and_filled_fields_have_their_rows() {
    let caller = "n; l 0; b E8; z 4; o 1 X86CallPLTRel4 s7 -4; z 8; o 5 Abs8 s3; o 5 X86PCRel4 l0";
    let callee =
        "n; n; jmp .over; z 20; .over: l 0; b C3; l 1; define s7 0; o 40 Abs4 l1; o 0 Abs4 .over";
    let (lines, record) = listed(Arch::X64, &[caller, callee, ""]);
    let expected = [
        "       0                              piece 0: a rule",
        "       0                              label 0",
        "       0  E8                          1 byte",
        "       1  31 00 00 00                 relocation X86CallPLTRel4: symbol 7 at 54, addend -4, filled with 49",
        "       5  00 00 00 00                 relocation X86PCRel4: label 0",
        "       5  00 00 00 00 00 00 00 00     relocation Abs8: symbol 3 (overlaps the row above)",
        "      13  00 00 00 00 00 00 00 00     19 bytes up to the next piece",
        "      21  00 00 00 00 00 00 00 00",
        "      29  00 00 00",
        "      32                              piece 1: a rule",
        "      32  EB 14                       jmp short to label .over at 54, distance 20",
        "      32  EB 14 00 00                 relocation Abs4: label .over (overlaps the row above)",
        "      36  00 00 00 00 00 00 00 00     18 bytes",
        "      44  00 00 00 00 00 00 00 00",
        "      52  00 00",
        "      54                              label 1",
        "      54                              label .over",
        "      54  C3                          1 byte",
        "      55                              at 69, past the end: relocation Abs4: label 2",
        "      55                              label 2",
        "      55  00 00 00 00 00 00 00 00     9 bytes up to the next piece",
        "      63  00",
        "      64                              piece 2: a rule",
    ];
    assert_eq!(lines, expected);
    assert_eq!(
        record,
        "joined for X64: 64 bytes, alignment 32, pieces 3, relocations filled 1, remaining 4"
    );
}

#[test]
fn what_a_filled_field_covers_says_so() {
    let caller = "n; l 0; z 8; u 0 0 0; o 2 X86PCRel4 s0; o 4 X86PCRel4 s0";
    let (lines, _) = listed(Arch::X64, &[caller, "n; l 0; define s0 0"]);
    let expected = [
        "       0  FC FF 1E 00                 X86JmpRel32: label 0 at 0, distance -4; what is written later covers it",
        "       2  1E 00 1C 00                 relocation X86PCRel4: symbol 0 at 32, filled with 30; what is written later covers it (overlaps the row above)",
        "       4  1C 00 00 00                 relocation X86PCRel4: symbol 0 at 32, filled with 28 (overlaps the row above)",
    ];
    assert_eq!(lines[2..5], expected);
}

#[test]
fn pages_of_aarch64_stay_pages() {
    let text = "n; b 00000090; u 0 0 14; b 00000091; u 4 0 16; z 4379; l 0";
    let (lines, record) = listed(Arch::AArch64, &["z 4", text]);
    let expected = [
        "    4096                              piece 1: a rule",
        "    4096  00 00 00 B0                 A64Adrp21 in B0000000: label 0 at 8483, distance 1 page",
        "    4100  00 8C 04 91                 A64AddAbsLo12 in 91048C00: label 0 at 8483, low 12 bits 291",
    ];
    let start = lines.iter().position(|line| *line == expected[0]).unwrap();
    assert_eq!(lines[start..start + 3], expected);
    assert!(lines[start - 1].ends_with("more bytes"));
    assert!(
        record.starts_with("joined for AArch64: 8483 bytes"),
        "{record}"
    );
}

/// Recordings that have nothing in common: a listing of one by the entries of another would not fit.
const UNLIKE: [&str; 7] = [
    "",
    "z 300",
    "n; n; n; z 40; l 2; a 64",
    "n; z 5; j 0 5 0; z 200; l 0",
    "n; l 0; z 6; j 0 6 0 ne; z 4; r 6 0 0; a 32; c 01; k 0",
    "n; z 4; u 0 0 0; z 100; l 0; c 010203; c 04; k 1; k 0",
    "z 9; o 1 Abs8 s0; o 100 Abs4 s1",
];

#[test]
fn every_pair_of_recordings_is_listed_and_joined() {
    let mut rows = 0;
    for first in UNLIKE {
        for second in UNLIKE {
            let (lines, _) = listed(Arch::X64, &[first, second]);
            let alone = finished(Arch::X64, second).listing(wargnifla::Extent::Brief);
            let start = lines.iter().position(|line| line.contains("piece 1"));
            let piece = lines.len() - start.unwrap() - 1;
            assert_eq!(piece, alone.lines().count() - 1, "{first} and {second}");
            rows += piece;
            let (first, second) = (finished(Arch::X64, first), finished(Arch::X64, second));
            let fits = first.rounds().check(second.code()).is_ok();
            assert!(fits || first.rounds() != second.rounds());
        }
    }
    assert!(rows > 200, "{rows}");
}
