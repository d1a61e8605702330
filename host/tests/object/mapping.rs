//! Where an AArch64 object says that instructions and data stand.

use wargnifla::{Arch, CodeBuffer, CodeBufferFinalized, Reloc, Sym, join, read_text, write_sheet};

use crate::Rule;
use crate::reader::Object;

const NOP: [u8; 4] = [0x1F, 0x20, 0x03, 0xD5];

/// The mapping symbols of an object of finished code, as `$x 0, $d 4`. They are local, without type, in the section of code.
fn mapped(code: &CodeBufferFinalized) -> String {
    let object = Object::read(&code.object().unwrap());
    let symbols = object.symbols().into_iter().zip(object.sizes());
    let mapping = symbols.filter(|(symbol, _)| symbol.0.starts_with('$'));
    let mapping = mapping.map(|((name, binding, st_type, section, value), size)| {
        assert_eq!((binding, st_type, section, size), (0, 0, 1, 0));
        format!("{name} {value}")
    });
    mapping.collect::<Vec<_>>().join(", ")
}

/// Those of a text, whose calls are made one by one and as a binary sheet.
fn mapped_text(text: &str) -> String {
    let calls = read_text(text).unwrap().calls;
    let start = || CodeBuffer::with_symbols(Arch::AArch64, 1);
    let (mut one_by_one, mut sheet) = (start(), start());
    for call in &calls {
        one_by_one.call(call).unwrap();
    }
    sheet.run_sheet(&write_sheet(&calls).unwrap()).unwrap();
    let [by_calls, by_sheet] =
        [one_by_one, sheet].map(|mut buffer| mapped(&buffer.finish().unwrap()));
    assert_eq!(by_calls, by_sheet, "{text}");
    by_calls
}

#[test]
fn instructions_are_told_from_what_is_known_to_be_data() {
    for (text, expected) in [
        ("", ""),
        ("z 4", "$x 0"),
        ("a 16; z 4", "$x 0"),
        ("z 4; a 16", "$x 0, $d 4"),
        ("z 4; a 16; z 4", "$x 0, $d 4, $x 16"),
        ("z 4; a 16 11; z 4", "$x 0"),
        ("z 4; a 16; a 32; z 4", "$x 0, $d 4, $x 32"),
        ("c 01", ""),
        ("c 01; k 0", "$d 0"),
        ("c 01; k 0; z 4", "$x 0, $d 4"),
        ("z 8; c 01; k 0; c 02; k 1", "$x 0, $d 8"),
        ("z 4; a 16; c 01; k 0", "$x 0, $d 4"),
        ("z 16; o 4 Abs8 s0", "$x 0, $d 4, $x 12"),
        ("z 16; o 4 Abs4 s0", "$x 0, $d 4, $x 8"),
        ("z 16; o 8 Abs8 s0; o 0 Abs8 s0", "$d 0"),
        ("z 16; o 0 Abs8 s0; o 0 Abs4 s0", "$d 0, $x 8"),
        ("z 4; o 0 Arm64Call s0", "$x 0"),
        // An instruction stands on a multiple of 4.
        ("z 1; a 2; z 7", "$x 0, $d 1, $x 4"),
        ("z 1; a 2; z 1", "$x 0, $d 1"),
    ] {
        let text = format!("arch aarch64; symbols 1; {text}");
        assert_eq!(mapped_text(&text), expected, "{text}");
    }
}

#[test]
fn calls_of_a_sheet_count_up_to_the_refused_one() {
    let calls = read_text("z 4; a 16; z 4; l 0; a 64").unwrap().calls;
    let mut buffer = CodeBuffer::new(Arch::AArch64);
    let refused = buffer.run_sheet(&write_sheet(&calls).unwrap());
    assert_eq!(refused.unwrap_err().number(), 8);
    buffer.put4(0).unwrap();
    let code = buffer.finish().unwrap();
    assert_eq!(
        (code.total_size(), &*mapped(&code)),
        (24, "$x 0, $d 4, $x 16")
    );
}

#[test]
fn other_architectures_have_none() {
    let mut rule = Rule::new(Arch::X64, &["cell"]);
    rule.bytes(&[0x90]);
    rule.buffer.try_align_to(16).unwrap();
    rule.field(Reloc::Abs8, Sym::from_id(0), 0);
    assert_eq!(mapped(&rule.finish()), "");
}

/// Two instructions with 12 zeros between, and a constant.
fn piece() -> CodeBufferFinalized {
    let mut rule = Rule::new(Arch::AArch64, &[]);
    let constant = rule.buffer.add_constant(&[7; 8]).unwrap();
    rule.buffer.get_label_for_constant(constant).unwrap();
    rule.bytes(&NOP);
    rule.buffer.try_align_to(16).unwrap();
    rule.bytes(&NOP);
    rule.finish()
}

#[test]
fn zeros_between_joined_pieces_are_data() {
    let mut plain = Rule::new(Arch::AArch64, &[]);
    plain.bytes(&NOP);
    let plain = plain.finish();
    let whole = join([&plain, &piece(), &plain]).unwrap().into_code();
    assert_eq!(
        mapped(&whole),
        "$x 0, $d 4, $x 4096, $d 4100, $x 4112, $d 4116, $x 8192"
    );
    let again = join([&plain, &whole]).unwrap().into_code();
    assert_eq!(
        mapped(&again),
        "$x 0, $d 4, $x 4096, $d 4100, $x 8192, $d 8196, $x 8208, $d 8212, $x 12288"
    );
}
