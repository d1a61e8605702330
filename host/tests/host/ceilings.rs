//! Alignments that may spend so many bytes and no more.

use wargnifla::{
    Alignment, Arch, Call, CodeBuffer, DEFAULT_MOST, Label, MOST_CODE, MOST_ENTRIES, Padding,
    write_sheet,
};

use crate::lent::{self, CODE, EVENTS, Lent};
use crate::{finished, recorded};

/// The alignments that an X64 buffer has recorded.
fn alignments(buffer: &CodeBuffer) -> Vec<Alignment> {
    let events = buffer.recording().events.into_iter();
    let alignments = events.map(|event| *event.alignment().expect("an alignment"));
    alignments.collect()
}

/// A buffer with so many bytes.
fn at(arch: Arch, offset: usize) -> CodeBuffer {
    let mut buffer = CodeBuffer::new(arch);
    buffer.put_bytes(&vec![0x90; offset]).unwrap();
    buffer
}

#[test]
fn what_is_needed_is_spent_up_to_the_ceiling() {
    for arch in Arch::ALL {
        let len = |text: &str| recorded(arch, text).unwrap().cur_offset();
        assert_eq!(len("b 90; a 8 6"), 1, "{arch}");
        assert_eq!(len("b 90; a 8 7"), 8, "{arch}");
        assert_eq!(len("b 90; a 4096 4094; a 4096"), 4096, "{arch}");
    }
}

#[test]
fn any_number_is_a_ceiling_on_every_architecture() {
    for arch in Arch::ALL {
        for offset in [0, 1, 31, 32, 33] {
            for most in [0, 1, 30, 31, 32, 4094, 4095, 4096, 1 << 31, u32::MAX] {
                let mut buffer = at(arch, offset);
                buffer.try_align_to_within(32, most).unwrap();
                let needed = offset.next_multiple_of(32) - offset;
                let spent = if needed <= most as usize { needed } else { 0 };
                assert_eq!(
                    buffer.cur_offset() as usize,
                    offset + spent,
                    "{arch}: {offset}, at most {most}"
                );
                let kept = usize::from(arch == Arch::X64);
                assert_eq!(buffer.recording().events.len(), kept);
                let finished = buffer.finish().unwrap();
                assert_eq!(finished.data(), buffer.data());
            }
        }
    }
}

#[test]
fn the_table_keeps_the_ceiling() {
    let mut buffer = at(Arch::X64, 1);
    buffer.try_align_to_within(8, 0).unwrap();
    buffer.try_align_to_within(8, 6).unwrap();
    buffer.call(&Call::align(2)).unwrap();
    let word = |most| Call::Align { multiple: 16, most };
    buffer.call(&word(13)).unwrap();
    let sheet = write_sheet(&[word(0), word(4095), word(u32::MAX)]).unwrap();
    buffer.run_sheet(&sheet).unwrap();
    buffer.try_align_to(16).unwrap();
    let kept: Vec<[u32; 3]> = alignments(&buffer)
        .iter()
        .map(|alignment| [alignment.start, alignment.len, alignment.most])
        .collect();
    let expected = [
        [1, 0, 0],
        [1, 0, 6],
        [1, 1, DEFAULT_MOST],
        [2, 0, 13],
        [2, 14, DEFAULT_MOST],
        [16, 0, DEFAULT_MOST],
        [16, 0, u32::MAX],
        [16, 0, DEFAULT_MOST],
    ];
    assert_eq!(kept, expected);
}

#[test]
fn the_direct_call_and_a_sheet_agree_but_for_0() {
    for arch in Arch::ALL {
        for most in [1, 2, 3, 4095, u32::MAX] {
            for multiple in [1, 4, 4096, 0, 3, 8192] {
                let (mut direct, mut sheet) = (at(arch, 2), at(arch, 2));
                let answer = direct.try_align_to_within(multiple, most);
                let call = Call::Align { multiple, most };
                assert_eq!(answer, sheet.call(&call), "{arch}, {multiple} {most}");
                assert_eq!(direct.data(), sheet.data());
                assert_eq!(direct.recording(), sheet.recording());
            }
        }
    }
}

/// How long the last event of an X64 text was recorded.
fn last_recorded(text: &str) -> u32 {
    let events = recorded(Arch::X64, text).unwrap().recording().events;
    let last = events.last().unwrap();
    last.end() - last.start()
}

#[test]
fn a_layout_decides_again() {
    // The jump shrinks by 3, and the alignment stands as much earlier.
    let settled = |bytes: u32, most: u32| {
        let text = format!("n; z 5; j 0 5 0; z {bytes}; a 8 {most}; l 0");
        let recorded = last_recorded(&text);
        let code = finished(&text);
        let label = code.label_offset(Label::from_id(0)).unwrap();
        (recorded, code.total_size(), label)
    };
    assert_eq!(settled(3, 5), (0, 8, 8), "gains 3");
    assert_eq!(settled(3, 2), (0, 5, 5), "3 are needed now");
    assert_eq!(settled(2, 1), (1, 4, 4), "loses 1, since 4 are needed");
    assert_eq!(settled(5, 5), (0, 8, 8), "skipped, and then gains 1");
    assert_eq!(
        settled(6, 4),
        (0, 8, 8),
        "skipped, and then on its multiple"
    );
    assert_eq!(settled(1, 1), (0, 3, 3), "skipped twice");
}

#[test]
fn a_constant_stands_on_its_multiple_whatever_ceilings_there_are() {
    let code = finished("n; z 5; j 0 5 0; a 64 1; l 0; c 01; k 0");
    assert_eq!(code.label_offsets(), [2, 8]);
    let mut buffer = at(Arch::AArch64, 3);
    let constant = buffer.add_constant(&[7; 40]).unwrap();
    let label = buffer.get_label_for_constant(constant).unwrap();
    buffer.try_align_to_within(8, 4).unwrap();
    let code = buffer.finish().unwrap();
    assert_eq!((code.label_offset(label), code.alignment()), (Some(64), 64));
}

#[test]
fn refusals_are_those_of_every_alignment() {
    let mut buffer = at(Arch::X64, 1);
    let error = buffer.try_align_to_within(24, 5).unwrap_err();
    assert_eq!(
        error.to_string(),
        "align: number 5, InvalidArgument: the alignment 24 is no power of two"
    );
    let error = buffer.try_align_to_within(8192, 0).unwrap_err();
    assert_eq!(error.sentence(), "the alignment 8192 exceeds 4,096");
    assert_eq!(buffer.error(), None, "it is not recorded");
    for _ in 0..MOST_ENTRIES {
        buffer.try_align_to_within(8, 0).unwrap();
    }
    let error = buffer.try_align_to_within(8, 0).unwrap_err();
    assert_eq!(error.number(), 11, "{error}");
    assert_eq!(buffer.error(), Some(&error));
    assert_eq!(buffer.try_align_to(1).unwrap_err().number(), 11);

    let mut buffer = at(Arch::X86, 1);
    buffer.finish().unwrap();
    let error = buffer.try_align_to_within(8, 7).unwrap_err();
    assert_eq!(error.number(), 4, "{error}");
}

#[test]
fn the_end_of_the_code_is_passed_by_what_is_spent_alone() {
    let mut buffer = at(Arch::X64, MOST_CODE - 3);
    buffer.try_align_to_within(4096, 2).unwrap();
    buffer.try_align_to_within(4096, 3).unwrap();
    assert_eq!(buffer.cur_offset() as usize, MOST_CODE);
    assert_eq!(buffer.put1(0).unwrap_err().number(), 12);

    let mut lent = Lent::new(Arch::X64);
    assert_eq!(lent.run("z 31; a 64 32").0, 0, "33 needed, none spent");
    assert_eq!(lent.align(64, 32), 0);
    assert_eq!(lent.count(CODE), 31);
    assert_eq!(lent.align(64, 33), 12);
    assert_eq!(lent.align(8, 0), 12, "recorded");
    assert_eq!((lent.count(CODE), lent.count(EVENTS)), (31, 2));
    let mut lent = Lent::new(Arch::X64);
    assert_eq!(lent.run("z 31; a 64").0, 12);
}

#[test]
fn what_the_direct_call_is_lent_is_looked_at_first() {
    let mut lent = Lent::new(Arch::X64);
    let mut answer = |code: usize, events: usize, multiple| {
        let (mut code, mut events) = (vec![0; code], vec![0; events]);
        lent::align(&mut lent.counts, &mut code, &mut events, multiple, 0)
    };
    assert_eq!(answer(MOST_CODE + 1, 20, 3), 3);
    assert_eq!(answer(0, 20 * (MOST_ENTRIES + 1), 3), 3);
    assert_eq!(answer(MOST_CODE, 20 * MOST_ENTRIES, 3), 5);
    assert_eq!(answer(0, 19, 8), 11);
    assert_eq!(answer(0, 20, 3), 11, "recorded");
    let mut lent = Lent::new(Arch::AArch64);
    assert_eq!(
        lent::align(&mut lent.counts, &mut [], &mut [], 8, 0),
        0,
        "no event is kept"
    );
    assert_eq!(lent::align(&mut [0; 51], &mut [], &mut [], 8, 0), 1);
}

/// Finish's answer to one alignment, made by hand behind so many bytes.
fn by_hand(start: u32, len: u32, multiple: u32, most: u32) -> u32 {
    let mut lent = Lent::new(Arch::X64);
    assert_eq!(lent.run(&format!("z {}", start + len)).0, 0);
    let event = [2, start, len, multiple, most].map(u32::to_le_bytes);
    lent.events[..20].copy_from_slice(event.as_flattened());
    lent.set_count(EVENTS, 1);
    lent.finish().0
}

#[test]
fn finish_takes_the_length_that_is_spent_and_no_other() {
    assert_eq!(by_hand(1, 7, 8, 0), 1, "as tables were before ceilings");
    for start in 0..9 {
        for most in [0, 1, 6, 7, 8, 4095, u32::MAX] {
            let spent = Padding::at(start.into(), 8, most).spent();
            for len in 0..10 {
                let expected = u32::from(len != spent);
                assert_eq!(
                    by_hand(start, len, 8, most),
                    expected,
                    "{len} at {start}, at most {most}"
                );
            }
        }
    }
}
