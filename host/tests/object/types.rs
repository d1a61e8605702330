//! The types and sizes of an object's symbols.

use wargnifla::{Arch, CodeBufferFinalized, Label, RelaxableJump, join};

use crate::Rule;
use crate::reader::Object;

const NOTYPE: u8 = 0;
const OBJECT: u8 = 1;
const FUNC: u8 = 2;

/// The symbols of an object that stand in its code: name, type, value and size.
fn typed(code: &CodeBufferFinalized) -> Vec<(String, u8, u64, u64)> {
    let object = Object::read(&code.object().unwrap());
    let symbols = object.symbols().into_iter().zip(object.sizes());
    let symbols = symbols.filter(|(symbol, _)| !symbol.0.starts_with('$'));
    symbols
        .map(|((name, _, st_type, _, value), size)| (name, st_type, value, size))
        .collect()
}

fn expect(code: &CodeBufferFinalized, expected: &[(&str, u8, u64, u64)]) {
    let expected: Vec<_> = expected
        .iter()
        .map(|(name, st_type, value, size)| ((*name).to_owned(), *st_type, *value, *size))
        .collect();
    assert_eq!(typed(code), expected);
}

/// A label of a constant, under a name.
fn constant(rule: &mut Rule, name: &str, bytes: &[u8]) -> Label {
    let constant = rule.buffer.add_constant(bytes).unwrap();
    let label = rule.buffer.get_label_for_constant(constant).unwrap();
    rule.buffer.name_label(label, name);
    label
}

/// Two functions with a label in each, labels in front and behind, and two constants, one of which has a symbol.
fn functions(arch: Arch) -> Rule {
    let mut rule = Rule::new(arch, &[]);
    let [front, first, inner, second, end] =
        ["front", "first", "inner", ".second", "end"].map(|name| rule.label(name));
    let words = constant(&mut rule, ".words", &[7; 14]);
    constant(&mut rule, "nothing", &[]);
    rule.bind(front);
    rule.bytes(&[0; 4]);
    rule.bind(first);
    rule.bytes(&[0; 8]);
    rule.bind(inner);
    rule.bytes(&[0; 8]);
    rule.bind(second);
    rule.bytes(&[0; 4]);
    rule.bind(end);
    rule.buffer.bind_symbol("last", second);
    rule.buffer.bind_symbol("first", first);
    rule.buffer.bind_symbol("again", first);
    rule.buffer.bind_symbol("behind", end);
    rule.buffer.bind_symbol("table", words);
    rule
}

#[test]
fn a_label_that_defines_a_symbol_is_a_function_and_a_constant_an_object() {
    for arch in [Arch::X64, Arch::AArch64] {
        let expected = [
            (".second", FUNC, 20, 4),
            (".words", OBJECT, 32, 14),
            ("front", NOTYPE, 0, 0),
            ("inner", NOTYPE, 12, 0),
            ("end", NOTYPE, 24, 0),
            ("nothing", OBJECT, 48, 0),
            ("last", FUNC, 20, 4),
            ("first", FUNC, 4, 16),
            ("again", FUNC, 4, 16),
            ("behind", NOTYPE, 24, 0),
            ("table", OBJECT, 32, 14),
        ];
        expect(&functions(arch).finish(), &expected);
    }
}

#[test]
fn sizes_are_those_of_relaxed_code() {
    for pooled in [false, true] {
        let mut rule = Rule::new(Arch::X64, &[]);
        let (first, second) = (rule.label("first"), rule.label("second"));
        if pooled {
            constant(&mut rule, "word", &[7; 4]);
        }
        rule.bind(first);
        rule.bytes(&[0; 5]);
        let jump = RelaxableJump {
            start: 0,
            len: 5,
            label: second,
            cc: None,
        };
        rule.buffer.record_relaxable_jump(jump).unwrap();
        rule.bytes(&[0x90]);
        rule.bind(second);
        rule.bytes(&[0xC3]);
        rule.buffer.bind_symbol("first", first);
        rule.buffer.bind_symbol("second", second);
        let mut expected = vec![("first", FUNC, 0, 3), ("second", FUNC, 3, 1)];
        if pooled {
            expected.insert(0, ("word", OBJECT, 8, 4));
        }
        expect(&rule.finish(), &expected);
    }
}

#[test]
fn joined_pieces_keep_the_types_and_sizes_of_their_own() {
    let mut second = Rule::new(Arch::AArch64, &[]);
    let label = second.label("other");
    second.bytes(&[0; 4]);
    second.bind(label);
    second.bytes(&[0; 4]);
    second.buffer.bind_symbol("other", label);
    let pieces = [functions(Arch::AArch64).finish(), second.finish()];
    let whole = join(&pieces).unwrap().into_code();
    let expected = [
        (".second", FUNC, 20, 4),
        (".words", OBJECT, 32, 14),
        ("front", NOTYPE, 0, 0),
        ("inner", NOTYPE, 12, 0),
        ("end", NOTYPE, 24, 0),
        ("nothing", OBJECT, 48, 0),
        ("last", FUNC, 20, 4),
        ("first", FUNC, 4, 16),
        ("again", FUNC, 4, 16),
        ("behind", NOTYPE, 24, 0),
        ("table", OBJECT, 32, 14),
        ("other", FUNC, 4100, 4),
    ];
    expect(&whole, &expected);
}

#[test]
fn labels_that_no_recording_knows_have_no_type() {
    let mut rule = Rule::new(Arch::X64, &[]);
    let never = rule.label("never");
    rule.bytes(&[0xC3]);
    rule.buffer.bind_symbol("never", never);
    rule.buffer.bind_symbol("unknown", Label::from_id(7));
    expect(&rule.finish(), &[]);
}
