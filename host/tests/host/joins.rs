//! Request Six: finished buffers joined.

use wargnifla::{
    Arch, AsmReloc, CodeBuffer, ExternalName, Filled, Joined, Label, Origin, Reloc, RelocTarget,
    Sym, UNBOUND, join,
};

use crate::random::Random;
use crate::rules::{rule, rule_for};

/// Texts joined for X64.
fn joined(texts: &[&str]) -> Joined {
    joined_for(Arch::X64, texts)
}

fn joined_for(arch: Arch, texts: &[&str]) -> Joined {
    let rules: Vec<_> = texts.iter().map(|text| rule_for(arch, text)).collect();
    join(&rules).expect("an accepted join")
}

fn symbol(number: u32) -> Sym {
    Sym::from_id(number)
}

fn label(number: u32) -> Label {
    Label::from_id(number)
}

fn origin(piece: usize, relocation: usize) -> Origin {
    Origin { piece, relocation }
}

#[test]
fn a_call_reaches_the_label_that_defines_its_symbol() {
    let whole = joined(&[
        "b E8 00000000; o 1 X86CallPCRel4 s7 -4",
        "n; l 0; b C3; define s7 0",
    ]);
    let code = whole.code();
    assert_eq!(whole.bases(), [0, 32]);
    assert_eq!(code.data()[..5], [0xE8, 0x1B, 0, 0, 0]);
    assert_eq!(code.data()[5..32], [0; 27]);
    assert_eq!(code.data()[32..], [0xC3]);
    assert_eq!(code.label_offsets(), [32]);
    assert_eq!(code.relocs(), []);
    assert_eq!((code.arch(), code.alignment()), (Arch::X64, 32));
    assert_eq!((code.layouts(), code.segments()), (0, &[][..]));
    let filled = Filled {
        origin: origin(0, 0),
        offset: 1,
        symbol: symbol(7),
        label: label(0),
        value: 27,
    };
    assert_eq!(whole.filled(), [filled]);
    assert_eq!(whole.remaining(), []);
    assert_eq!(code.defined_symbol_offset(symbol(7)), Some(32));
    assert_eq!(code.defined_symbol_offset(symbol(8)), None);
}

#[test]
fn pieces_stand_on_multiples_of_their_alignment() {
    let wide = "c 00000000000000000000000000000000000000000000000000000000000000000000; k 0";
    let whole = joined(&["b 90", wide, "b 90", ""]);
    assert_eq!(whole.bases(), [0, 64, 128, 160]);
    assert_eq!(whole.code().total_size(), 160);
    assert_eq!(whole.code().alignment(), 64);
    assert_eq!(joined(&["z 32", "", "b 90"]).bases(), [0, 32, 32]);
    assert_eq!(joined(&["b 90", ""]).code().total_size(), 32);
    let pages = joined_for(Arch::AArch64, &["z 4", "z 4"]);
    assert_eq!(pages.bases(), [0, 4096]);
    assert_eq!(pages.code().total_size(), 4100);
    assert_eq!(pages.code().alignment(), 32);
    let x86 = joined_for(Arch::X86, &["b 90", "b 90"]);
    assert_eq!(x86.bases(), [0, 32]);
}

#[test]
fn labels_are_numbered_on_and_move() {
    let whole = joined(&["n; n; b 90; l 1", "n; b 90; l 0", "n; n; l 1"]);
    let code = whole.code();
    assert_eq!(code.label_offsets(), [UNBOUND, 1, 33, UNBOUND, 64]);
    assert_eq!(whole.label(0, label(1)), Some(label(1)));
    assert_eq!(whole.label(2, label(1)), Some(label(4)));
    let unknown = [
        (0, 2),
        (0, u32::MAX),
        (1, 1),
        (2, 2),
        (3, 0),
        (4, 0),
        (usize::MAX, 0),
    ];
    for (piece, number) in unknown {
        assert_eq!(whole.label(piece, label(number)), None, "{piece} {number}");
    }
    let named = joined(&["a: b 90; .x: b 90", "a:", "n"]);
    let names: Vec<_> = named.code().names().labels().collect();
    assert_eq!(names, [(label(0), "a"), (label(1), ".x"), (label(2), "a")]);
}

#[test]
fn other_relocations_remain() {
    let whole = joined(&[
        "z 8; o 0 Abs8 s3 5",
        "n; l 0; z 40; o 0 Abs8 l0 -1; o 8 X86PCRel4 l0 -4; o 12 X86GOTPCRel4 s3; o 16777215 Abs4 s0",
        "define s3 0; n; l 0",
    ]);
    let reloc = |offset, kind, target: RelocTarget, addend| AsmReloc {
        offset,
        kind,
        addend,
        target,
    };
    let expected = [
        reloc(0, Reloc::Abs8, symbol(3).into(), 5),
        reloc(32, Reloc::Abs8, label(0).into(), -1),
        reloc(40, Reloc::X86PCRel4, label(0).into(), -4),
        reloc(44, Reloc::X86GOTPCRel4, symbol(3).into(), 0),
        reloc(32 + 16_777_215, Reloc::Abs4, symbol(0).into(), 0),
    ];
    assert_eq!(whole.code().relocs(), expected);
    let origins = [(0, 0), (1, 0), (1, 1), (1, 2), (1, 3)];
    assert_eq!(whole.remaining(), origins.map(|(i, j)| origin(i, j)));
    assert_eq!(whole.filled(), []);
    let caller = "n; l 0; z 4; o 0 X86CallPLTRel4 s0 -4; o 0 X86PCRel4 l0";
    let x86 = joined_for(Arch::X86, &[caller, caller]);
    assert_eq!(x86.code().relocs().len(), 4);
    assert_eq!(x86.code().relocs()[3].target, label(1).into());
    assert_eq!(x86.code().data()[..4], [0; 4]);
    let arm = joined_for(
        Arch::AArch64,
        &["z 4; o 0 Arm64Call s0", "z 4; o 0 Arm64Call s0"],
    );
    assert_eq!(arm.code().relocs()[1].offset, 4096);
}

#[test]
fn every_kind_that_is_relative_is_filled() {
    for kind in ["X86PCRel4", "X86CallPCRel4", "X86CallPLTRel4"] {
        let text = format!("z 8; o 2 {kind} s0 100");
        let whole = joined(&[&text, "b 90; n; l 0; define s0 0"]);
        assert_eq!(whole.code().data()[2..6], (33 + 100 - 2u32).to_le_bytes());
    }
}

#[test]
fn a_later_field_is_filled_over_an_earlier() {
    let callee = "n; l 0; define s0 0";
    let whole = joined(&["z 8; o 0 X86PCRel4 s0; o 2 X86PCRel4 s0 0x01010101", callee]);
    assert_eq!(whole.code().data()[..8], [32, 0, 0x1F, 1, 1, 1, 0, 0]);
    let whole = joined(&["z 8; o 2 X86PCRel4 s0 0x01010101; o 0 X86PCRel4 s0", callee]);
    assert_eq!(whole.code().data()[..8], [32, 0, 0, 0, 1, 1, 0, 0]);
    assert_eq!(whole.filled()[0].value, 0x0101_0101 + 32 - 2);
}

#[test]
fn one_piece_keeps_its_code_and_gets_its_own_calls() {
    let plain = rule("jmp end; c 0102; k 0 pi; z 300; end: b C3; o 8 Abs8 end");
    let whole = join([&plain]).unwrap();
    assert_eq!(whole.code().data(), plain.data());
    assert_eq!(whole.code().label_offsets(), plain.label_offsets());
    assert_eq!(whole.code().relocs(), plain.relocs());
    let own = joined(&["symbols me; define me start; start: b E8; z 4; o 1 X86CallPLTRel4 me -4"]);
    assert_eq!(own.code().data(), [0xE8, 0xFB, 0xFF, 0xFF, 0xFF]);
}

#[test]
fn fields_move_with_the_jumps_before_them() {
    let whole = joined(&[
        "jmp end; z 4; end: b E8; z 4; o 10 X86CallPLTRel4 s0 -4",
        "n; jmp over; z 2; over: l 0; define s0 0",
    ]);
    assert_eq!(whole.filled()[0].offset, 7);
    assert_eq!(whole.filled()[0].value, 32 + 4 - 4 - 7);
}

#[test]
fn names_are_shared_whatever_their_numbers_are() {
    let whole = joined(&[
        "symbols unused sort; z 4; o 0 X86PCRel4 sort",
        "symbols heap sort; z 8; o 0 X86PCRel4 sort; o 4 X86PCRel4 heap",
        "define sort a; b 90; a: b 90; b: define heap b",
    ]);
    let values: Vec<i32> = whole.filled().iter().map(|field| field.value).collect();
    assert_eq!(values, [65, 33, 66 - 36]);
    assert_eq!(whole.code().defined_symbol_offset("heap"), Some(66));
}

#[test]
fn a_name_and_a_number_are_two_symbols() {
    let caller = "symbols sort; z 4; o 0 X86PCRel4 sort";
    let by_number = "z 4; o 0 X86PCRel4 s0";
    let whole = joined(&[
        caller,
        by_number,
        "n; l 0; b 90; n; l 1; define s0 0; define sort 1",
    ]);
    let values: Vec<i32> = whole.filled().iter().map(|field| field.value).collect();
    assert_eq!(values, [65, 32]);
    let symbols: Vec<Sym> = whole.filled().iter().map(|field| field.symbol).collect();
    assert_eq!(symbols, [symbol(1), symbol(0)]);
}

#[test]
fn names_have_the_lowest_numbers_that_are_left() {
    let whole = joined(&[
        "symbols a b; z 16; o 0 Abs8 b; o 8 Abs8 a",
        "z 24; o 0 Abs8 s1; o 8 Abs8 s2",
        "symbols c b; z 24; o 0 Abs8 c; o 8 Abs8 b",
    ]);
    let code = whole.code();
    let targets = code
        .relocs()
        .iter()
        .map(|reloc| code.names().text(reloc.target));
    let expected = ["b", "a", "1", "2", "c", "b"].map(|name| format!("symbol {name}"));
    assert!(targets.eq(expected));
    let numbers = code.relocs().iter().map(|reloc| reloc.target.to_word());
    assert!(numbers.eq([3, 0, 1, 2, 4, 3]));
}

#[test]
fn a_label_defines_the_symbol_of_its_name() {
    let caller = "symbols sort; b E8; z 4; o 1 X86CallPLTRel4 sort -4";
    let whole = joined(&[caller, "b 90; sort: b C3", "end: b C3"]);
    assert_eq!(whole.filled()[0].value, 33 - 4 - 1);
    let sort = (ExternalName::from("sort"), label(0));
    assert_eq!(whole.code().definitions(), [sort]);
    // A definition goes before.
    let whole = joined(&[caller, "b 90; sort: b C3", "define sort end; end: b C3"]);
    assert_eq!(whole.filled()[0].value, 64 - 4 - 1);
    // What is called by number has no name.
    let refused = join([&rule("z 4; o 0 X86PCRel4 s0"), &rule("s0:")]);
    assert_eq!(refused.unwrap_err().number(), 29);
}

#[test]
fn a_local_or_unbound_label_defines_nothing_by_its_name() {
    let refused = |name: &str, callee: &str| {
        let caller = format!("symbols {name}; z 4; o 0 X86PCRel4 {name}");
        join([&rule(&caller), &rule(callee)]).unwrap_err().number()
    };
    assert_eq!(refused(".sort", ".sort: b C3"), 29);
    assert_eq!(refused("sort", "label sort; b C3"), 29);
    let whole = joined(&[
        "symbols .sort; z 4; o 0 X86PCRel4 .sort",
        "define .sort .sort; .sort:",
    ]);
    assert_eq!(whole.filled()[0].value, 32);
}

#[test]
fn a_whole_is_joined_again() {
    let caller = rule("symbols sort; b E8; z 4; o 1 X86CallPLTRel4 sort -4");
    let callee = rule("b 90; sort: b C3; o 0 Abs8 s9; define s4 sort");
    let inner = join([&caller, &callee]).unwrap().into_code();
    let again = joined_again(&inner);
    assert_eq!(again.bases(), [0, 32]);
    assert_eq!(again.filled().len(), 2);
    assert_eq!(again.code().data()[..4], (32 + 33u32).to_le_bytes());
    assert_eq!(again.code().data()[4..8], (32 + 33 - 4u32).to_le_bytes());
    assert_eq!(again.code().defined_symbol_offset("sort"), Some(65));
    assert_eq!(again.code().defined_symbol_offset(symbol(4)), Some(65));
    assert_eq!(again.code().relocs()[0].offset, 64);
    let twice = join([&inner, &inner]).unwrap_err();
    assert_eq!(twice.number(), 28);
}

fn joined_again(inner: &wargnifla::CodeBufferFinalized) -> Joined {
    let caller = "symbols sort; z 8; o 0 X86PCRel4 sort; o 4 X86PCRel4 s4";
    // The fifth symbol has no name, and so goes by its number.
    let mut buffer = CodeBuffer::with_symbols(Arch::X64, 5);
    buffer.name_symbol(symbol(0), "sort");
    for call in &wargnifla::read_text(caller).unwrap().calls {
        buffer.call(call).unwrap();
    }
    join([&buffer.finish().unwrap(), inner]).unwrap()
}

#[test]
fn what_names_an_unknown_label_is_left_out_of_the_whole() {
    let mut buffer = CodeBuffer::new(Arch::X64);
    for unknown in [0, 1, u32::MAX] {
        buffer.bind_symbol(symbol(unknown), label(unknown));
        buffer.name_label(label(unknown), "unknown");
    }
    let pieces = [rule("n; n"), buffer.finish().unwrap(), rule("n; l 0; end:")];
    let whole = join(&pieces).unwrap();
    assert_eq!(whole.code().definitions(), []);
    let names: Vec<_> = whole.code().names().labels().collect();
    assert_eq!(names, [(label(3), "end")]);
}

#[test]
fn most_pieces_are_joined() {
    let rule = rule("b 90");
    let whole = join(vec![&rule; wargnifla::MOST_PIECES]).unwrap();
    assert_eq!(whole.code().total_size(), 255 * 32 + 1);
    assert_eq!(whole.bases()[255], 255 * 32);
}

/// Pieces drawn at random: some bytes, labels bound among them, definitions of some symbols, and relocations to all.
fn drawn(random: &mut Random, piece: u32, pieces: u32) -> CodeBuffer {
    const SYMBOLS: u32 = 12;
    let mut buffer = CodeBuffer::with_symbols(Arch::X64, SYMBOLS);
    for named in (0..SYMBOLS).filter(|number| number % 2 == 0) {
        buffer.name_symbol(symbol(named), &format!("name{named}"));
    }
    for _ in 0..random.below(40) {
        buffer.put1(random.below(256) as u8).unwrap();
    }
    for number in (0..SYMBOLS).filter(|number| number % pieces == piece) {
        let defining = buffer.get_label().unwrap();
        buffer.try_bind_label(defining).unwrap();
        match number % 2 {
            0 => buffer.bind_symbol(format!("name{number}"), defining),
            _ => buffer.bind_symbol(symbol(number), defining),
        }
        buffer.put_bytes(&[random.below(256) as u8; 9]).unwrap();
    }
    for _ in 0..random.below(10) {
        let kind = [Reloc::X86PCRel4, Reloc::X86CallPLTRel4, Reloc::Abs8][random.below(3) as usize];
        let target = symbol(random.below(SYMBOLS)).into();
        let addend = i64::from(random.below(100_000)) - 50_000;
        buffer.add_reloc(kind, target, addend).unwrap();
        buffer.put_bytes(&[0; 9]).unwrap();
    }
    buffer
}

#[test]
fn bytes_outside_of_fields_stay_and_fields_mean_their_symbols() {
    let mut random = Random(6);
    for _ in 0..300 {
        let count = 1 + random.below(5);
        let rules: Vec<_> = (0..count)
            .map(|piece| drawn(&mut random, piece, count).finish().unwrap())
            .collect();
        let whole = join(&rules).unwrap();
        let data = whole.code().data();
        let mut expected = vec![0; data.len()];
        for (rule, base) in rules.iter().zip(whole.bases()) {
            assert!(base.is_multiple_of(32));
            let start = *base as usize;
            expected[start..start + rule.total_size()].copy_from_slice(rule.data());
        }
        for field in whole.filled() {
            let rule = &rules[field.origin.piece];
            let reloc = &rule.relocs()[field.origin.relocation];
            let Some(defined) = defined_at(&rules, &whole, reloc.target) else {
                panic!("{reloc:?} is defined");
            };
            let place = i64::from(whole.bases()[field.origin.piece] + reloc.offset);
            let value = i64::from(defined) + reloc.addend - place;
            assert_eq!(i64::from(field.value), value);
            let at = place as usize;
            expected[at..at + 4].copy_from_slice(&field.value.to_le_bytes());
        }
        assert_eq!(data, expected);
        let relocs: usize = rules.iter().map(|rule| rule.relocs().len()).sum();
        assert_eq!(whole.filled().len() + whole.code().relocs().len(), relocs);
    }
}

/// Where a relocation's symbol is defined in a whole, looked up in the pieces.
fn defined_at(
    rules: &[wargnifla::CodeBufferFinalized],
    whole: &Joined,
    target: RelocTarget,
) -> Option<u32> {
    let RelocTarget::Sym(symbol) = target else {
        return None;
    };
    let name = rules[0].names().external_name(symbol);
    rules.iter().zip(whole.bases()).find_map(|(rule, base)| {
        let mut definitions = rule.definitions().iter();
        let (_, label) = definitions.find(|(defined, _)| *defined == name)?;
        Some(base + rule.label_offset(*label)?)
    })
}
