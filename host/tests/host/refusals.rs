//! Every refusal of document 01, with what its sentence says.

use std::collections::BTreeSet;

use wargnifla::{Arch, Call, CodeBuffer, Entry, Error, Label, ffi, read_text, write_sheet};

use crate::random::Random;
use crate::recorded;

/// The refusal of a recording or its finish.
fn refusal(arch: Arch, text: &str) -> Error {
    match recorded(arch, text) {
        Ok(mut buffer) => buffer.finish().expect_err("a refused finish"),
        Err(error) => error,
    }
}

/// Checks number and sentence of an X64 text's refusal.
fn refuses(text: &str, number: u32, sentence: &str) {
    refuses_on(Arch::X64, text, number, sentence);
}

fn refuses_on(arch: Arch, text: &str, number: u32, sentence: &str) {
    let error = refusal(arch, text);
    assert_eq!(error.number(), number, "{error}");
    assert!(error.to_string().contains(sentence), "{error}");
}

#[test]
fn number_1_a_sheets_length() {
    let mut buffer = CodeBuffer::new(Arch::X64);
    let error = buffer.run_sheet(&[1, 0, 0, 0, 2]).unwrap_err();
    assert_eq!(
        error.to_string(),
        "sheet: number 1, InvalidArgument: a sheet of 1 call has 21 bytes, not 5"
    );
}

#[test]
fn number_1_a_calls_form() {
    let mut sheet = write_sheet(&read_text("b 11; n; n; n").unwrap().calls).unwrap();
    sheet[4 + 2] = 77;
    let mut buffer = CodeBuffer::new(Arch::X64);
    let error = buffer.run_sheet(&sheet).unwrap_err();
    assert_eq!(
        error.to_string(),
        "call 2 (unknown): number 1, InvalidArgument: kind 77 is none of 1 to 10"
    );
    assert_eq!(buffer.data(), [], "no call of a broken sheet is made");
    refuses("n; u 0 0 17", 1, "code 17 is none of 0 to 16");
    refuses("n; r 0 0 17", 1, "code 17 is none of 0 to 16");
    refuses("o 0 28 s0", 1, "kind 28 is none of 0 to 27");
}

#[test]
fn number_1_is_not_hidden_by_a_recorded_refusal() {
    let mut buffer = CodeBuffer::new(Arch::X64);
    let calls = read_text("u 0 9 0; u 0 0 17; n").unwrap().calls;
    let numbers = calls
        .iter()
        .map(|call| buffer.call(call).unwrap_err().number());
    assert_eq!(numbers.collect::<Vec<_>>(), [8, 1, 8]);
}

#[test]
fn number_1_counts_lent_too_short() {
    let mut counts = [0; 51];
    // SAFETY: `counts` is a live array of the length that is passed.
    let number = unsafe { ffi::wargnifla_start(2, 0, counts.as_mut_ptr(), counts.len()) };
    assert_eq!(number, 1);
}

#[test]
fn number_2_an_unknown_architecture() {
    let error = CodeBuffer::start(5, 0).unwrap_err();
    assert_eq!(error.number(), 2);
    assert_eq!(
        error.to_string(),
        "start: number 2, InvalidArch: architecture 5 is none of 1 (X86), 2 (X64) and 6 (AArch64)"
    );
}

#[test]
fn number_3_code_beyond_the_limit() {
    let mut counts = [0; 52];
    let mut code = vec![0; wargnifla::MOST_CODE + 1];
    // SAFETY: every pointer and length are those of one slice, and none overlaps another.
    let put = |counts: &mut [u8; 52], code: &mut [u8]| unsafe {
        ffi::wargnifla_put_bytes(
            counts.as_mut_ptr(),
            counts.len(),
            code.as_mut_ptr(),
            code.len(),
            [0x90].as_ptr(),
            1,
        )
    };
    // SAFETY: `counts` is a live array of the length that is passed.
    let started = unsafe { ffi::wargnifla_start(2, 0, counts.as_mut_ptr(), counts.len()) };
    assert_eq!(started, 0);
    assert_eq!(put(&mut counts, &mut code), 3);
    assert_eq!(put(&mut counts, &mut code[1..]), 0);
}

#[test]
fn number_4_a_finished_recording() {
    let mut buffer = recorded(Arch::X64, "b 90").unwrap();
    buffer.finish().unwrap();
    assert!(buffer.is_finished());
    let error = buffer.put1(0).unwrap_err();
    assert_eq!(error.number(), 4);
    assert!(
        error
            .to_string()
            .contains("bytes: number 4, InvalidState: the recording has finished")
    );
    let error = buffer.finish().unwrap_err();
    assert_eq!(
        error.to_string(),
        "finish: number 4, InvalidState: the recording has finished"
    );
    let error = buffer.run_sheet(&[0; 4]).unwrap_err();
    assert_eq!(
        error.to_string(),
        "sheet: number 4, InvalidState: the recording has finished"
    );
    assert_eq!(buffer.data(), [0x90]);
}

#[test]
fn number_5_an_unfit_alignment() {
    refuses("a 0", 5, "the alignment 0 is no power of two");
    refuses("a 24", 5, "the alignment 24 is no power of two");
    refuses("a 8192", 5, "the alignment 8192 exceeds 4,096");
    let mut buffer = CodeBuffer::new(Arch::X64);
    assert_eq!(buffer.try_align_to(3).unwrap_err().number(), 5);
    assert_eq!(buffer.error(), None, "it is not recorded");
    buffer.put1(1).unwrap();
}

#[test]
fn number_6_a_use_that_cannot_be_patched() {
    refuses("n; u 0 0 A64Ldr12", 6, "code 15 (A64Ldr12)");
    refuses_on(Arch::AArch64, "n; u 0 0 15", 6, "UnsupportedInstruction");
}

#[test]
fn number_7_a_foreign_kind() {
    refuses("n; u 0 0 9", 7, "code 9 (A64Branch14) is foreign to X64");
    refuses("n; r 0 0 15", 7, "code 15 (A64Ldr12) is foreign to X64");
    refuses(
        "n; o 0 8 l0",
        7,
        "relocation kind 8 (Arm64Call) is foreign to X64",
    );
    refuses_on(
        Arch::AArch64,
        "n; u 0 0 1",
        7,
        "code 1 (X86BranchRel8) is foreign to AArch64",
    );
    refuses_on(
        Arch::X86,
        "n; u 0 0 2",
        7,
        "code 2 (RVJal20) is foreign to X86",
    );
}

#[test]
fn number_8_an_unknown_number() {
    refuses(
        "l 0",
        8,
        "bind: number 8, InvalidArgument: label 0 is unknown: the recording has 0 labels",
    );
    refuses(
        "n; u 0 1 0",
        8,
        "label 1 is unknown: the recording has 1 label",
    );
    refuses(
        "n; n; r 0 7 0",
        8,
        "label 7 is unknown: the recording has 2 labels",
    );
    refuses("b 0000; j 0 2 3", 8, "label 3 is unknown");
    refuses(
        "c 01; k 1",
        8,
        "constant 1 is unknown: the recording has 1 constant",
    );
    refuses("o 0 0 l4", 8, "label 4 is unknown");
    refuses(
        "symbols 2; o 0 0 s2",
        8,
        "symbol 2 is unknown: the recording has 2 symbols",
    );
}

#[test]
fn number_8_at_a_bind_is_not_recorded() {
    let mut buffer = CodeBuffer::new(Arch::X64);
    let unknown = Label::from_id(0);
    assert_eq!(buffer.try_bind_label(unknown).unwrap_err().number(), 8);
    let label = buffer.get_label().unwrap();
    buffer.try_bind_label(label).unwrap();
}

#[test]
fn number_9_a_label_bound_already() {
    refuses(
        "n; b 9090; l 0; b 90; l 0",
        9,
        "label 0 is bound already, to 2",
    );
}

#[test]
fn number_10_an_unfit_jump() {
    let unfit = |text: &str, sentence: &str| refuses(text, 10, sentence);
    unfit(
        "n; z 12; j 4 5 0",
        "the jump at 4 is 5 bytes long and ends at 9, but the current offset is 12",
    );
    unfit(
        "n; z 3; j 0xFFFFFFFE 5 0",
        "ends at 4294967299, but the current offset is 3",
    );
    unfit(
        "n; z 1; j 0 1 0",
        "is 1 byte long, and a jump has 2 to 15 bytes",
    );
    unfit("n; z 16; j 0 16 0", "is 16 bytes long");
    unfit(
        "n; z 2; j 0 2 0 17",
        "condition 17 is none of 0 to 15, nor 16 for none",
    );
    unfit(
        "n; z 2; j 0 2 0; z 1; j 1 2 0",
        "starts before the end of the jump from 0 to 2",
    );
    unfit(
        "n; z 1; a 2; j 0 2 0",
        "starts before the end of the alignment to 2 from 1 to 2",
    );
    unfit(
        "n; z 3; l 0; z 2; j 0 5 0",
        "label 0, bound to 3, lies inside the jump from 0 to 5",
    );
}

#[test]
fn number_10_a_relocation_or_constant_too_large() {
    refuses(
        "o 16777216 0 s0",
        10,
        "the relocation's offset, 16777216, is above 16,777,215",
    );
    let constant = format!("c {}", "00".repeat(65));
    refuses(&constant, 10, "a constant of 65 bytes is longer than 64");
}

#[test]
fn number_13_a_pooled_constants_label_bound_by_a_call() {
    let text = "n; c 01; k 0; z 3; l 1";
    refuses(
        text,
        13,
        "label 1 belongs to constant 0, whose place finish decides, but a call bound it to 3",
    );
    assert_eq!(refusal(Arch::X64, text).entry(), Some(Entry::Asked(0)));
}

#[test]
fn number_14_code_with_pool_beyond_the_limit() {
    refuses(
        "z 16777216; c 00; k 0",
        14,
        "has 16777217 bytes, more than 16,777,216",
    );
    refuses(
        &format!("z 16777153; c {}; k 0", "00".repeat(33)),
        14,
        "the code with its pooled constants and their padding has 16777249 bytes",
    );
}

#[test]
fn number_15_an_unbound_label() {
    let unbound = |text: &str, sentence: &str, entry| {
        refuses(text, 15, sentence);
        assert_eq!(refusal(Arch::X64, text).entry(), Some(entry));
    };
    unbound(
        "n; z 9; u 4 0 0",
        "label 0 is not bound, and the use at 4 names it",
        Entry::Use(0),
    );
    unbound(
        "n; o 7 1 s0; o 3 1 l0",
        "the relocation at 3 names it",
        Entry::Reloc(1),
    );
    unbound("n; r 8 0 0", "the ref at 8 names it", Entry::Ref(0));
    unbound(
        "n; n; u 4 0 0",
        "the use at 4 names it, the only entry that is open",
        Entry::Use(0),
    );
    unbound(
        "n; n; l 1; c 07; k 0; u 0 2 0; u 1 1 0; u 4 0 0; r 4 0 0; o 0 0 l0",
        "the use at 4 names it, one of 3 entries that are open",
        Entry::Use(2),
    );
    unbound(
        "n; a 4; z 5; j 0 5 0",
        "the jump at 0 names it",
        Entry::Event(1),
    );
}

#[test]
fn number_16_too_many_segments() {
    refuses(
        "n; l 0; b 0000; j 0 2 0; 65535 ( a 1 ); c; k 0",
        16,
        "65536 events and 1 pooled constant need 65537 segments",
    );
}

#[test]
fn number_17_a_refs_field() {
    let unfit = |text: &str, sentence: &str| refuses(text, 17, sentence);
    unfit(
        "n; l 0; b 0000; j 0 2 0; z 3; r 2 0 0",
        "the field of the ref at 2, 4 bytes, passes the end of the code, 5",
    );
    unfit(
        "n; l 0; b 0000; j 0 2 0; r 0xFFFFFFFF 0 1",
        "passes the end of the code, 2",
    );
    unfit(
        "n; l 0; b 0000; j 0 2 0; r 1 0 1",
        "the field of the ref at 1, 1 byte, touches the jump from 0 to 2",
    );
    unfit(
        "n; l 0; b 0000; j 0 2 0; b 11; a 1; z 3; r 2 0 0",
        "touches the alignment to 1 from 3 to 3",
    );
    unfit(
        "n; l 0; b 0000; j 0 2 0; c 11; k 0; r 5 0 1",
        "touches the alignment to 8 for constant 0 from 2 to 8",
    );
    unfit(
        &format!(
            "n; l 0; b 0000; j 0 2 0; c {}; k 0; r 16 0 1",
            "00".repeat(33)
        ),
        "touches the alignment to 64 for constant 0 from 2 to 64",
    );
}

#[test]
fn number_17_names_the_ref_that_it_is_about() {
    let text = "n; l 0; b 0000; j 0 2 0; b 1122; r 2 0 1; r 1 0 1";
    assert_eq!(refusal(Arch::X64, text).entry(), Some(Entry::Ref(1)));
}

#[test]
fn number_18_a_ref_out_of_reach() {
    let text = "n; l 0; z 5; j 0 5 0; b AA; r 5 0 1 1000";
    refuses(
        text,
        18,
        "the ref recorded at 5, moved to 2, can't reach label 0 at 0 plus 1000: \
         the distance is 997, and X86BranchRel8 holds -128..127",
    );
    assert_eq!(refusal(Arch::X64, text).entry(), Some(Entry::Ref(0)));
    refuses(
        "n; n; l 0; z 5; j 0 5 0; b AA; l 1; r 5 1 1 500",
        18,
        "can't reach label 1 at 3 plus 500: the distance is 500",
    );
}

#[test]
fn number_19_a_uses_field() {
    refuses(
        "n; l 0; z 3; u 0 0 0",
        19,
        "the field of the use at 0, 4 bytes, passes the end of the code, 3",
    );
}

#[test]
fn number_20_a_branch_out_of_reach() {
    refuses_on(
        Arch::AArch64,
        "n; z 4; u 0 0 9; z 32764; l 0",
        20,
        "can't reach label 0 at 32768: the distance is 32768, and A64Branch14 holds multiples of 4 in -32768..32764",
    );
    refuses_on(
        Arch::AArch64,
        "n; z 6; l 0; u 0 0 10",
        20,
        "the distance is 6",
    );
}

#[test]
fn numbers_21_and_22_another_use_out_of_reach() {
    refuses(
        "n; z 1; u 0 0 1; z 128; l 0",
        21,
        "the use at 0 can't reach label 0 at 129: the distance is 128, and X86BranchRel8 holds -128..127",
    );
    let text = "n; l 0; b 00; u 0 0 1; z 128; u 128 0 1";
    refuses(
        text,
        22,
        "the use at 128 can't reach label 0 at 0: the distance is -129",
    );
    assert_eq!(refusal(Arch::X64, text).entry(), Some(Entry::Use(1)));
}

#[test]
fn number_23_finished_code_beyond_the_limit() {
    refuses(
        "n; z 2; j 0 2 0; z 16777214; l 0",
        23,
        "the finished code has 16777219 bytes, more than 16,777,216",
    );
}

#[test]
fn a_recorded_refusal_answers_everything_and_keeps_its_sentence() {
    let mut buffer = recorded(Arch::X64, "n; b 90").unwrap();
    let first = buffer
        .call(&read_text("u 0 5 0").unwrap().calls[0])
        .unwrap_err();
    let again = "answers everything with its first refusal, use: number 8, InvalidArgument: label 5 is unknown";
    let answers = [
        buffer.put1(0).unwrap_err(),
        buffer.get_label().unwrap_err(),
        buffer.finish().unwrap_err(),
        buffer.run_sheet(&[0; 4]).unwrap_err(),
    ];
    for answer in answers {
        assert_eq!(answer.number(), 8);
        assert!(answer.to_string().contains(again), "{answer}");
    }
    assert_eq!(buffer.error(), Some(&first));
    assert_eq!((buffer.data(), buffer.label_count()), (&[0x90][..], 1));
}

#[test]
fn a_refused_finish_leaves_the_buffer_usable() {
    let mut buffer = recorded(Arch::X64, "n; c 11; k 0; z 5; j 0 5 0").unwrap();
    let before = buffer.recording();
    assert_eq!(buffer.finish().unwrap_err().number(), 15);
    assert_eq!(buffer.recording(), before);
    buffer.try_bind_label(Label::from_id(0)).unwrap();
    let code = buffer.finish().unwrap();
    assert_eq!(code.data()[..2], [0xEB, 0]);
    assert_eq!(code.label_offsets(), [2, 8]);
}

/// A call whose numbers are often unfit.
fn draw(random: &mut Random, current: u32) -> Call {
    const STRANGE: [u32; 6] = [u32::MAX, u32::MAX - 3, 1 << 31, 1 << 24, 8192, 3];
    let mut number = |bound| match random.below(40) {
        0 => STRANGE[random.below(6) as usize],
        _ => random.below(bound),
    };
    let (offset, label, code) = (number(current + 1), number(4), number(18));
    let (length, condition) = (number(8), number(18));
    match number(10) {
        0 => Call::NewLabel,
        1 => Call::Bind(label),
        2 => Call::Align {
            multiple: 1 << number(6).min(13),
            most: number(20),
        },
        3 => Call::align(number(6)),
        4 => Call::Use {
            offset,
            label,
            code,
        },
        5 => Call::Ref {
            offset,
            label,
            code: code % 2,
            addend: number(900).cast_signed(),
        },
        6 => Call::Jump {
            start: current.wrapping_sub(length),
            length,
            label,
            condition,
        },
        7 => Call::ConstantLabel(number(3)),
        8 => Call::Relocation {
            offset,
            kind: number(3),
            target: label ^ (1 << 31),
            addend: 0,
        },
        _ => Call::Bytes(vec![0; number(200).min(200) as usize].into()),
    }
}

#[test]
fn every_refusal_is_explained() {
    let mut random = Random(0x2545_F491_4F6C_DD1D);
    let mut met = BTreeSet::new();
    let mut explained = |error: Error| {
        assert!(!error.sentence().contains("do not show why"), "{error}");
        met.insert(error.number());
    };
    for draws in 0..30_000 {
        let text = "3 ( n; c 01 ); k 0";
        let mut buffer = recorded(Arch::ALL[draws % 3], text).unwrap();
        while buffer.error().is_none() && random.below(16) != 0 {
            let call = draw(&mut random, buffer.cur_offset());
            let _ = buffer.call(&call).map_err(&mut explained);
        }
        if draws % 2 == 0 {
            for label in 0..3 {
                let _ = buffer.try_bind_label(Label::from_id(label));
            }
        }
        let _ = buffer.finish().map_err(&mut explained);
    }
    let expected = [1, 5, 6, 7, 8, 9, 10, 13, 15, 17, 18, 19, 20, 21, 22];
    assert_eq!(met.into_iter().collect::<Vec<_>>(), expected);
}
