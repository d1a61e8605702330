//! Binary sheets, run whole, against the same calls one by one.

use wargnifla::{Arch, Call, CodeBuffer, DEFAULT_MOST, Padding, Sheet, write_sheet};

use crate::random::Random;

/// A drawn X64 recording: labels first, then jumps, fields, bytes, alignments and bindings in any order.
fn draw(random: &mut Random) -> Vec<Call> {
    let labels = 1 + random.below(6);
    let mut calls = vec![Call::NewLabel; labels as usize];
    let mut offset = 0;
    let mut unbound: Vec<u32> = (0..labels).collect();
    let zeros = |count: u32| Call::Bytes(vec![0; count as usize].into());
    for _ in 0..4 + random.below(24) {
        let label = random.below(labels);
        match random.below(8) {
            0..=2 => {
                let length = 2 + random.below(5);
                calls.push(zeros(length));
                calls.push(Call::Jump {
                    start: offset,
                    length,
                    label,
                    condition: random.below(17),
                });
                offset += length;
            }
            3 => {
                calls.push(zeros(4));
                calls.push(Call::Ref {
                    offset,
                    label,
                    code: 0,
                    addend: random.below(100).cast_signed() - 50,
                });
                offset += 4;
            }
            4 => {
                let (multiple, most) = (1 << random.below(6), random.below(20));
                calls.push(Call::Align { multiple, most });
                let most = if most == 0 { DEFAULT_MOST } else { most };
                offset += Padding::at(offset.into(), multiple, most).spent();
            }
            5 if !unbound.is_empty() => {
                let next = random.below(unbound.len() as u32);
                calls.push(Call::Bind(unbound.swap_remove(next as usize)));
            }
            _ => {
                let count = random.below(90);
                calls.push(zeros(count));
                offset += count;
            }
        }
    }
    calls.extend(unbound.into_iter().map(Call::Bind));
    if random.below(2) == 0 {
        calls.push(Call::Constant([7; 9].into()));
        calls.push(Call::ConstantLabel(0));
    }
    calls
}

#[test]
fn a_sheet_does_what_its_calls_do() {
    let mut random = Random(0x9E37_79B9_7F4A_7C15);
    let (mut relaxed, mut turned) = (0, 0);
    for _ in 0..500 {
        let calls = draw(&mut random);
        let sheet = write_sheet(&calls).unwrap();
        let mut whole = CodeBuffer::new(Arch::X64);
        whole.run_sheet(&sheet).unwrap();
        let mut single = CodeBuffer::new(Arch::X64);
        for call in &calls {
            single.call(call).unwrap();
        }
        assert_eq!(whole.recording(), single.recording());
        assert_eq!(whole.data(), single.data());
        let whole = whole.finish_with_recording().unwrap();
        let (rounds, finished) = (whole.rounds(), whole.code());
        assert_eq!(*finished, single.finish().unwrap());
        rounds.check(finished).unwrap();
        for step in rounds.rounds().iter().flat_map(|round| &round.lengthened) {
            assert_eq!(step.unexplained(), 0, "{step:?}");
        }
        assert!(rounds.rounds().is_sorted_by_key(|round| round.len));
        relaxed += u32::from(finished.layouts() > 1);
        let later = rounds.rounds().iter().skip(1);
        turned += later.map(|round| round.turns.len()).sum::<usize>();
    }
    assert!(relaxed > 50, "{relaxed} recordings had a jump to lengthen");
    assert!(turned > 20, "{turned} alignments changed between rounds");
}

#[test]
fn rounds_that_do_not_fit_are_not_taken_silently() {
    let mismatch = |reckoned: &str, finished: &str| {
        let mut reckoned = crate::recorded(Arch::X64, reckoned).unwrap();
        let reckoned = reckoned.finish_with_recording().unwrap();
        let mismatch = reckoned
            .rounds()
            .check(&crate::finished(finished))
            .unwrap_err();
        mismatch.to_string()
    };
    let text = |zeros| format!("n; z 5; j 0 5 0; z {zeros}; l 0");
    assert_eq!(
        mismatch(&text(127), &text(128)),
        "finish reports 2 layouts, and 1 round is reckoned"
    );
    assert_eq!(
        mismatch(&text(128), &text(129)),
        "finish makes 134 bytes, and 133 are reckoned"
    );
    let moved = mismatch("n; l 0; z 5; j 0 5 0", "n; l 0; z 6; j 1 5 0");
    assert!(moved.contains("event 0 as Segment"), "{moved}");
    assert_eq!(
        mismatch("n; l 0; z 5; j 0 5 0", "n; l 0; z 5; j 0 5 0; a 1"),
        "finish places 2 events, and 1 is reckoned"
    );
}

#[test]
fn calls_before_a_refused_one_stand() {
    let calls = [
        Call::Bytes([1, 2].into()),
        Call::NewLabel,
        Call::Bind(1),
        Call::Bytes([3].into()),
    ];
    let mut buffer = CodeBuffer::new(Arch::X64);
    let error = buffer.run_sheet(&write_sheet(&calls).unwrap()).unwrap_err();
    assert_eq!(
        error.to_string(),
        "call 2 (bind): number 8, InvalidArgument: label 1 is unknown: the recording has 1 label"
    );
    assert_eq!((buffer.data(), buffer.label_count()), (&[1, 2][..], 1));
}

#[test]
fn an_empty_sheet_changes_nothing() {
    let mut buffer = CodeBuffer::new(Arch::AArch64);
    let before = buffer.recording();
    let sheet = write_sheet(&[]).unwrap();
    assert!(Sheet::read(&sheet).unwrap().is_empty());
    buffer.run_sheet(&sheet).unwrap();
    assert_eq!(buffer.recording(), before);
}

/// How many bytes of its argument each kind uses, by documents 01 and 02; those that bytes and constants count apart.
const USED: [(u8, usize); 10] = [
    (1, 4),
    (2, 0),
    (3, 4),
    (4, 8),
    (5, 12),
    (6, 16),
    (7, 16),
    (8, 4),
    (9, 4),
    (10, 16),
];

#[test]
fn an_unused_byte_of_any_kind_breaks_the_form() {
    for (kind, used) in USED {
        for unused in used..16 {
            let mut sheet = vec![1, 0, 0, 0, kind];
            sheet.extend([0; 16]);
            sheet[5 + unused] = 1;
            let mut buffer = CodeBuffer::new(Arch::X64);
            let refused = buffer.run_sheet(&sheet).unwrap_err();
            assert_eq!(refused.number(), 1, "kind {kind}, byte {unused}");
            assert_eq!(buffer.label_count(), 0);
        }
    }
}
