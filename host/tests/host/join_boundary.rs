//! The C function that joins, lent tables that the wrapper never lends.

use wargnifla::{MOST_ENTRIES, ffi};

/// What the function is lent of pieces, and the room for the whole.
#[derive(Clone)]
struct Lent {
    pieces: Vec<u8>,
    code: Vec<u8>,
    labels: Vec<u8>,
    relocs: Vec<u8>,
    definitions: Vec<u8>,
    output: usize,
    joined_labels: usize,
    joined_relocs: usize,
    record: usize,
}

const PAINT: u8 = 0xA5;

/// Words in bytes.
fn words(words: &[u32]) -> Vec<u8> {
    words.iter().flat_map(|word| word.to_le_bytes()).collect()
}

/// A call of symbol 7, a label that is not bound and an address of it, and a `ret` that defines 7 and has an address of its own.
fn lent() -> Lent {
    Lent {
        pieces: words(&[2, 5, 32, 3, 1, 2, 0, 2, 1, 64, 0, 1, 1, 1]),
        code: vec![0xE8, 0, 0, 0, 0, 0xC3],
        labels: words(&[u32::MAX, 0]),
        relocs: words(
            &[
                [1, 3, 7, 9, u32::MAX - 3, u32::MAX],
                [2, 4_000, 1 << 31, 9, 5, 6],
                [0, 1, 1 << 31, 9, 0, 0],
            ]
            .concat(),
        ),
        definitions: words(&[7, 0]),
        output: 65,
        joined_labels: 8,
        joined_relocs: 48,
        record: 24,
    }
}

/// The answer, and what was written: output, labels, relocations and record.
fn answer(lent: &Lent) -> (u32, [Vec<u8>; 4]) {
    let rooms = [
        lent.output,
        lent.joined_labels,
        lent.joined_relocs,
        lent.record,
    ];
    let [mut output, mut labels, mut relocs, mut record] = rooms.map(|room| vec![PAINT; room]);
    // SAFETY: every pointer and length are those of one vector, and none overlaps another.
    let number = unsafe {
        ffi::wargnifla_join(
            lent.pieces.as_ptr(),
            lent.pieces.len(),
            lent.code.as_ptr(),
            lent.code.len(),
            lent.labels.as_ptr(),
            lent.labels.len(),
            lent.relocs.as_ptr(),
            lent.relocs.len(),
            lent.definitions.as_ptr(),
            lent.definitions.len(),
            output.as_mut_ptr(),
            output.len(),
            labels.as_mut_ptr(),
            labels.len(),
            relocs.as_mut_ptr(),
            relocs.len(),
            record.as_mut_ptr(),
            record.len(),
        )
    };
    (number, [output, labels, relocs, record])
}

/// The answer to what an edit leaves; a refused call is to write a record of zeros and nothing else.
fn answer_to(edit: impl Fn(&mut Lent)) -> u32 {
    let mut lent = lent();
    edit(&mut lent);
    let (number, [output, labels, relocs, record]) = answer(&lent);
    if number != 0 {
        let painted = [output, labels, relocs].concat();
        assert!(painted.iter().all(|byte| *byte == PAINT), "{number}");
        let expected = if record.len() < 24 { PAINT } else { 0 };
        assert!(record.iter().take(24).all(|byte| *byte == expected));
    }
    number
}

/// Sets a word of a table.
fn set(table: &mut [u8], index: usize, word: u32) {
    table[4 * index..4 * index + 4].copy_from_slice(&word.to_le_bytes());
}

#[test]
fn what_is_joined_is_written_and_nothing_past_it() {
    let mut lent = lent();
    lent.output += 3;
    lent.joined_labels += 3;
    lent.joined_relocs += 3;
    lent.record += 3;
    let (number, [output, labels, relocs, record]) = answer(&lent);
    assert_eq!(number, 0);
    let mut whole = vec![0; 65];
    whole[..5].copy_from_slice(&[0xE8, 64 - 4 - 1, 0, 0, 0]);
    whole[64] = 0xC3;
    let painted = |bytes: Vec<u8>| [bytes, vec![PAINT; 3]].concat();
    assert_eq!(output, painted(whole));
    assert_eq!(labels, painted(words(&[u32::MAX, 64])));
    let remaining = [[2, 4_000, 1 << 31, 0, 5, 6], [64, 1, 1 << 31 | 1, 0, 0, 0]];
    assert_eq!(relocs, painted(words(&remaining.concat())));
    assert_eq!(record, painted(words(&[2, 65, 64, 0, 2, 2])));
}

#[test]
fn what_is_lent_past_the_counts_is_not_read() {
    let longer = answer_to(|lent| {
        lent.pieces.extend([0xFF; 27]);
        lent.code.extend([0xFF; 40]);
        lent.labels.resize(4 * (MOST_ENTRIES + 9), 0xFF);
        lent.relocs.extend([0xFF; 24]);
        lent.definitions.extend(words(&[7, 0]));
    });
    assert_eq!(longer, 0);
}

#[test]
fn number_1_breaks_of_form() {
    assert_eq!(answer_to(|lent| lent.record = 23), 1);
    assert_eq!(answer_to(|lent| lent.pieces.clear()), 1);
    assert_eq!(answer_to(|lent| lent.pieces.truncate(27)), 1);
    for arch in [0, 3, 4, 5, 7] {
        assert_eq!(answer_to(|lent| set(&mut lent.pieces, 7, arch)), 1);
    }
    for alignment in [0, 1, 16, 33, 128, 4096] {
        assert_eq!(answer_to(|lent| set(&mut lent.pieces, 9, alignment)), 1);
    }
    assert_eq!(answer_to(|lent| lent.code.truncate(5)), 1);
    assert_eq!(answer_to(|lent| lent.labels.truncate(7)), 1);
    assert_eq!(answer_to(|lent| lent.relocs.truncate(71)), 1);
    assert_eq!(answer_to(|lent| lent.definitions.truncate(7)), 1);
    assert_eq!(answer_to(|lent| set(&mut lent.pieces, 8, u32::MAX)), 1);
    let unknown_label = answer_to(|lent| set(&mut lent.relocs, 12 + 2, 1 << 31 | 1));
    assert_eq!(unknown_label, 1, "a label of the first piece alone");
}

#[test]
fn answers_come_in_order() {
    type Edit = fn(&mut Lent);
    // Each is refused by the number beside it; they stand in the order of the answers.
    let edits: [(u32, Edit); 9] = [
        (1, |lent| set(&mut lent.pieces, 2, 31)),
        (3, |lent| {
            set(&mut lent.pieces, 11, 65_537);
            lent.labels.resize(4 * 65_538, 0);
        }),
        (27, |lent| set(&mut lent.pieces, 0, 1)),
        (28, |lent| {
            set(&mut lent.pieces, 13, 2);
            lent.definitions.extend(words(&[7, 0]));
        }),
        (29, |lent| set(&mut lent.labels, 1, u32::MAX)),
        (11, |lent| lent.joined_relocs = 47),
        (17, |lent| set(&mut lent.relocs, 0, 2)),
        (18, |lent| set(&mut lent.relocs, 5, 7)),
        (23, |lent| lent.output = 64),
    ];
    for (i, (number, edit)) in edits.iter().enumerate() {
        assert_eq!(answer_to(edit), *number);
        for (other, later) in &edits[i + 1..] {
            let both = answer_to(|lent| {
                edit(lent);
                later(lent);
            });
            assert_eq!(both, *number, "before {other}");
        }
    }
    assert_eq!(answer_to(|lent| lent.joined_labels = 7), 11);
    assert_eq!(answer_to(|lent| set(&mut lent.definitions, 0, 8)), 29);
    assert_eq!(answer_to(|lent| set(&mut lent.definitions, 1, 1)), 29);
}
