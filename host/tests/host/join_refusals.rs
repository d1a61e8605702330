//! Refused joins, with what their sentences say.

use wargnifla::{
    Arch, CodeBuffer, CodeBufferFinalized, Entry, Error, Label, MOST_ENTRIES, Place, Sym, join,
};

use crate::rules::{rule, rule_for};

fn refused(rules: &[CodeBufferFinalized]) -> Error {
    join(rules).expect_err("a refused join")
}

/// Checks the refusal of texts for X64, word by word, and the piece and entry that it is for.
fn refuses(texts: &[&str], place: Option<(usize, Option<Entry>)>, sentence: &str) {
    let rules: Vec<_> = texts.iter().map(|text| rule(text)).collect();
    let error = refused(&rules);
    assert_eq!(error.to_string(), format!("join: number {sentence}"));
    assert_eq!(error.place(), Place::Join);
    assert_eq!(error.piece(), place.map(|place| place.0));
    assert_eq!(error.entry(), place.and_then(|place| place.1));
}

fn reloc(piece: usize, relocation: usize) -> Option<(usize, Option<Entry>)> {
    Some((piece, Some(Entry::Reloc(relocation))))
}

#[test]
fn number_1_too_few_or_too_many_pieces() {
    let sentence = "1, InvalidArgument: there is no piece to join";
    refuses(&[], None, sentence);
    let sentence = "1, InvalidArgument: there are 257 pieces, and at most 256 are joined";
    refuses(&[""; 257], None, sentence);
}

#[test]
fn number_3_a_piece_that_exceeds_a_limit() {
    let many = rule("40000 ( n )");
    let whole = join([&many, &many]).unwrap().into_code();
    assert_eq!(
        refused(&[rule(""), whole.clone()]).to_string(),
        "join: number 3, TooLarge: piece 1 has 80000 labels, more than 65536"
    );
    let error = whole.relas(1).unwrap_err();
    assert_eq!(
        error.to_string(),
        "write_relas: number 3, TooLarge: the code has 80000 labels, and at most 65,536 are written as ELF"
    );
    let long = rule("z 16777216");
    let whole = join([&long, &rule("b 90")]).unwrap().into_code();
    assert_eq!(
        refused(&[whole]).sentence(),
        "piece 0 has 16777217 bytes, more than 16777216"
    );
    let mut buffer = CodeBuffer::new(Arch::X64);
    for symbol in 0..=MOST_ENTRIES as u32 {
        buffer.bind_symbol(Sym::from_id(symbol), Label::from_id(0));
    }
    assert_eq!(
        refused(&[buffer.finish().unwrap()]).sentence(),
        "piece 0 has 65537 definitions, more than 65536"
    );
}

#[test]
fn number_27_architectures_that_differ() {
    let rules = [
        rule("b 90"),
        rule("b 90"),
        rule_for(Arch::X86, "n; define s0 0; define a 0"),
    ];
    let error = refused(&rules);
    assert_eq!(
        error.to_string(),
        "join: number 27, IncompatibleArch: piece 2 is for X86, and piece 0 for X64"
    );
    assert_eq!((error.piece(), error.entry()), (Some(2), None));
}

#[test]
fn number_28_a_symbol_that_is_defined_twice() {
    let sentence = "28, DuplicateSymbol: \
                    symbol sort is defined twice, by label a of piece 0 and by label 0 of piece 2";
    let definition = Some((2, Some(Entry::Definition(1))));
    refuses(
        &["define sort a; a:", "", "n; define s5 0; define sort 0"],
        definition,
        sentence,
    );
    let mut buffer = CodeBuffer::new(Arch::X64);
    let label = buffer.get_label().unwrap();
    buffer.bind_symbol(Sym::from_id(7), label);
    buffer.bind_symbol(Sym::from_id(7), label);
    let error = refused(&[buffer.finish().unwrap()]);
    assert_eq!(
        error.sentence(),
        "symbol 7 is defined twice, by label 0 of piece 0 and by label 0 of piece 0"
    );
    // By their names alone, labels define what is needed.
    let sentence = "28, DuplicateSymbol: \
                    symbol end is defined twice, by label end of piece 1 and by label end of piece 2";
    let caller = "symbols end; z 8; o 0 Abs8 end";
    refuses(&[caller, "end:", "end:"], Some((2, None)), sentence);
    let rules = ["end:", "end:"].map(rule);
    assert!(join(&rules).is_ok());
}

#[test]
fn number_29_a_symbol_that_nothing_defines() {
    let caller = "z 9; o 1 Abs8 s7; o 1 X86PCRel4 s7";
    let sentence = "29, UnboundSymbol: \
                    relocation 1 of piece 0, at 1 there, names symbol 7, which no piece defines";
    refuses(&[caller, ""], reloc(0, 1), sentence);
    let sentence = "29, UnboundSymbol: relocation 1 of piece 0, at 1 there, names symbol 7, \
                    which piece 1 defines by label end, which is not bound";
    refuses(&[caller, "label end; define s7 end"], reloc(0, 1), sentence);
    let mut buffer = CodeBuffer::new(Arch::X64);
    buffer.get_label().unwrap();
    buffer.bind_symbol(Sym::from_id(7), Label::from_id(1));
    let callee = buffer.finish().unwrap();
    assert!(join([&callee]).is_ok(), "nobody needs it");
    assert_eq!(
        refused(&[rule(caller), callee]).sentence(),
        "relocation 1 of piece 0, at 1 there, names symbol 7, which piece 1 defines by label 1, but has 1 label"
    );
    let sentence = "29, UnboundSymbol: \
                    relocation 0 of piece 1, at 0 there, names symbol sort, which no piece defines";
    let named = "symbols sort; z 4; o 0 X86CallPLTRel4 sort";
    refuses(&["", named], reloc(1, 0), sentence);
}

#[test]
fn number_17_a_field_that_passes_its_pieces_end() {
    let callee = "n; l 0; define s0 0";
    let sentence = "17, InvalidArgument: relocation 1 of piece 0, at 2 there, \
                    has a field of 4 bytes, which passes the end of the piece, 5";
    let caller = "z 5; o 1 X86PCRel4 s0; o 2 X86PCRel4 s0";
    refuses(&[caller, callee], reloc(0, 1), sentence);
    let far = rule("z 4; o 16777215 X86PCRel4 s0");
    assert_eq!(refused(&[far, rule(callee)]).number(), 17);
}

#[test]
fn number_18_a_field_that_cannot_reach_its_symbol() {
    let callee = "n; b 90; l 0; define s0 0";
    let sentence = "18, TooLarge: relocation 0 of piece 0, at 1 there, \
                    can't reach symbol 0 at 33 plus 2147483616: \
                    the distance is 2147483648, and X86PCRel4 holds -2147483648..2147483647";
    let caller = |addend: i64| format!("z 5; o 1 X86PCRel4 s0 {addend}");
    refuses(&[&caller(2_147_483_616), callee], reloc(0, 0), sentence);
    assert!(join([&rule(&caller(2_147_483_615)), &rule(callee)]).is_ok());
    assert!(join([&rule(&caller(-2_147_483_680)), &rule(callee)]).is_ok());
    for addend in [-2_147_483_681, i64::MIN, i64::MAX] {
        let rules = [rule(&caller(addend)), rule(callee)];
        assert_eq!(refused(&rules).number(), 18, "{addend}");
    }
}

#[test]
fn refusals_come_in_order_over_all_pieces() {
    let number = |texts: &[&str]| {
        let rules: Vec<_> = texts.iter().map(|text| rule(text)).collect();
        refused(&rules).number()
    };
    let (far, past_end) = ("z 4; o 0 X86PCRel4 s0 4294967296", "z 4; o 1 X86PCRel4 s0");
    let (callee, undefined) = ("n; l 0; define s0 0", "z 4; o 0 X86PCRel4 s1");
    assert_eq!(number(&[far, past_end, callee]), 17);
    assert_eq!(number(&[far, callee]), 18);
    assert_eq!(number(&[far, past_end, undefined, callee]), 29);
    assert_eq!(number(&[undefined, callee, callee]), 28);
    let rules = [rule(callee), rule(callee), rule_for(Arch::X86, "")];
    assert_eq!(refused(&rules).number(), 27);
}
