//! Request Five: how many entries name a label that is not bound.

use wargnifla::{
    Arch, CodeBuffer, Entry, Label, LayoutEvent, MOST_ENTRIES, OpenLabel, Recording, RelaxableJump,
    RelocTarget, UNBOUND, read_text, write_sheet,
};

use crate::lent::{EVENTS, LABELS, Lent, OPEN, RELOCS, USES};
use crate::random::Random;
use crate::recorded;

/// The number counted afresh.
fn counted(recording: &Recording) -> u32 {
    let uses = recording.uses.iter().map(|field| field.label);
    let refs = recording.refs.iter().map(|field| field.label);
    let jumps = recording.events.iter().filter_map(LayoutEvent::label);
    let relocs = recording
        .relocs
        .iter()
        .filter_map(|reloc| match reloc.target {
            RelocTarget::Label(label) => Some(label),
            RelocTarget::Sym(_) => None,
        });
    let is_open = |label: &Label| recording.labels[label.id() as usize] == UNBOUND;
    let open = uses.chain(refs).chain(jumps).chain(relocs).filter(is_open);
    open.count() as u32
}

/// Checks that the open labels are not bound, and have as many entries as are open.
fn check_open_labels(recording: &Recording) {
    let open = recording.open_labels();
    let numbers: Vec<u32> = open.iter().map(|open| open.label.id()).collect();
    assert!(numbers.is_sorted_by(|a, b| a < b));
    let is_open = |label: &u32| recording.labels[*label as usize] == UNBOUND;
    assert!(numbers.iter().all(is_open));
    let entries: usize = open.iter().map(|open| open.entries.len()).sum();
    assert_eq!(entries as u32, recording.open);
    assert!(open.iter().all(|open| !open.entries.is_empty()));
}

#[test]
fn open_labels_have_their_entries() {
    let calls = "n; n; n; n; u 0 3 0; r 4 0 0; z 8; a 4; z 5; j 8 5 0; o 0 0 s0; o 0 0 l0; u 0 1 0; u 9 0 0; l 1";
    let mut buffer = CodeBuffer::with_symbols(Arch::X64, 1);
    for call in &read_text(calls).unwrap().calls {
        buffer.call(call).unwrap();
        check_open_labels(&buffer.recording());
    }
    let label = |id, entries: &[Entry]| OpenLabel {
        label: Label::from_id(id),
        entries: entries.into(),
    };
    let of_0 = [
        Entry::Use(2),
        Entry::Ref(0),
        Entry::Event(1),
        Entry::Reloc(1),
    ];
    let expected = [label(0, &of_0), label(3, &[Entry::Use(0)])];
    assert_eq!(buffer.recording().open_labels(), expected);
}

#[test]
fn the_number_is_kept_call_by_call() {
    let calls = "n; n; u 0 0 0; r 4 0 0; z 20; j 15 5 0; o 0 0 l0; o 0 0 s0; u 0 1 0; l 0; a 4; l 1; u 0 0 0";
    let mut buffer = CodeBuffer::with_symbols(Arch::X64, 1);
    let mut numbers = Vec::new();
    for call in &read_text(calls).unwrap().calls {
        buffer.call(call).unwrap();
        assert_eq!(buffer.open(), counted(&buffer.recording()));
        numbers.push(buffer.open());
    }
    assert_eq!(numbers, [0, 0, 1, 2, 2, 3, 4, 4, 5, 1, 1, 0, 0]);
}

#[test]
fn the_number_is_kept_at_random_and_by_refused_calls() {
    let texts = [
        "n",
        "l 0",
        "l 1",
        "l 2",
        "l 9",
        "u 0 0 0",
        "u 0 1 1",
        "u 0 7 0",
        "r 0 1 0",
        "r 0 2 1",
        "b 9090; j 0 2 0",
        "a 4",
        "a 3",
        "c 07",
        "k 0",
        "k 1",
        "o 0 0 l0",
        "o 0 0 l1",
        "o 0 0 s0",
        "o 0 0 l8",
    ];
    let mut random = Random(5);
    for _ in 0..2_000 {
        let arch = Arch::ALL[random.below(3) as usize];
        let mut buffer = CodeBuffer::with_symbols(arch, 1);
        for _ in 0..random.below(30) {
            let text = texts[random.below(texts.len() as u32) as usize];
            for call in &read_text(text).unwrap().calls {
                let before = buffer.open();
                let is_refused = buffer.call(call).is_err();
                assert_eq!(buffer.open(), counted(&buffer.recording()), "{text}");
                assert!(!is_refused || buffer.open() == before, "{text}");
                check_open_labels(&buffer.recording());
            }
        }
        let before = buffer.open();
        let is_finished = buffer.finish().is_ok();
        assert_eq!(buffer.open(), if is_finished { 0 } else { before });
    }
}

#[test]
fn sheets_keep_the_number_that_calls_keep() {
    let text =
        "n; n; u 0 0 0; z 5; j 0 5 1; r 0 0 1; o 0 0 l0; l 0; u 0 1 0; c 07; k 0; u 0 2 0; l 1";
    let calls = read_text(text).unwrap().calls;
    for made in 0..=calls.len() {
        let mut by_call = CodeBuffer::new(Arch::X64);
        for call in &calls[..made] {
            by_call.call(call).unwrap();
        }
        let mut by_sheet = CodeBuffer::new(Arch::X64);
        let sheet = write_sheet(&calls[..made]).unwrap();
        by_sheet.run_sheet(&sheet).unwrap();
        assert_eq!(by_sheet.open(), by_call.open(), "{made} calls");
    }
}

#[test]
fn what_is_accepted_unread_is_not_counted() {
    for arch in [Arch::X86, Arch::AArch64] {
        let buffer = recorded(arch, "n; j 0 5 0 16; r 0 0 0").unwrap();
        assert_eq!(buffer.open(), 0, "{arch}");
    }
    assert_eq!(recorded(Arch::X64, "n; r 0 0 0").unwrap().open(), 1);
}

#[test]
fn finish_settles_what_names_a_constant() {
    let mut buffer = recorded(Arch::X64, "b 00000000; c 01; k 0; u 0 0 1").unwrap();
    assert_eq!(buffer.open(), 1);
    buffer.finish().unwrap();
    assert_eq!(buffer.open(), 0);
    let mut buffer = recorded(Arch::X64, "n; b 00000000; c 01; k 0; u 0 1 1; u 0 0 1").unwrap();
    assert_eq!(buffer.finish().unwrap_err().number(), 15);
    assert_eq!(buffer.open(), 2, "a refused finish leaves it");
}

#[test]
fn four_full_tables_come_to_the_most() {
    let text = "n; 65536 ( u 0 0 0 ); 65536 ( r 0 0 0 ); 65536 ( o 0 0 l0 )";
    let mut buffer = recorded(Arch::X64, text).unwrap();
    let label = Label::from_id(0);
    for _ in 0..MOST_ENTRIES {
        let start = buffer.cur_offset();
        buffer.put2(0).unwrap();
        let jump = RelaxableJump {
            start,
            len: 2,
            label,
            cc: None,
        };
        buffer.record_relaxable_jump(jump).unwrap();
    }
    assert_eq!(buffer.open() as usize, 4 * MOST_ENTRIES);
    assert_eq!(buffer.finish().unwrap_err().number(), 15);
    buffer.try_bind_label(label).unwrap();
    assert_eq!(buffer.open(), 0);
}

#[test]
fn a_wrong_number_changes_by_as_much_and_stops_at_0() {
    let mut lent = Lent::new(Arch::X64);
    assert_eq!(lent.run("n; u 0 0 0; u 4 0 0"), (0, 3, 2));
    lent.set_count(OPEN, 1);
    assert_eq!(lent.run("l 0"), (0, 1, 0));
    lent.set_count(OPEN, 40);
    assert_eq!(lent.run("n; u 8 1 0; l 0"), (9, 2, 41));
    assert_eq!(lent.run("l 1"), (0, 1, 40));
}

#[test]
fn a_number_above_the_most_is_answered_1() {
    let mut lent = Lent::new(Arch::X64);
    assert_eq!(lent.run("n"), (0, 1, 0));
    lent.set_count(OPEN, 262_144);
    assert_eq!(lent.run(""), (0, 0, 262_144));
    assert_eq!(lent.run("u 0 0 0; n"), (1, 1, 262_145));
    assert_eq!((lent.count(USES), lent.count(LABELS)), (1, 1));
    for text in ["", "b 90", "l 0", "a 3"] {
        assert_eq!(lent.run(text), (1, 0, 262_145), "{text}");
    }
    let labels = lent.labels;
    assert_eq!(lent.relocate(0, &labels), (1, 262_145));
    assert_eq!(lent.finish(), (1, 262_145));
    lent.set_count(OPEN, 1);
    assert_eq!(lent.run("u 0 9 0"), (8, 0, 1), "recorded");
    lent.set_count(OPEN, 262_145);
    assert_eq!(lent.run("b 90"), (1, 0, 262_145), "before the recorded one");
}

#[test]
fn finish_answers_1_to_a_wrong_number() {
    let mut lent = Lent::new(Arch::X64);
    assert_eq!(lent.run("n; u 0 0 0"), (0, 2, 1));
    assert_eq!(lent.finish(), (15, 1));
    for wrong in [0, 2, 262_144, 262_145, u32::MAX] {
        lent.set_count(OPEN, wrong);
        assert_eq!(lent.finish(), (1, wrong));
    }
    lent.set_count(OPEN, 1);
    assert_eq!(lent.run("l 0; b 00000000"), (0, 2, 0));
    lent.set_count(OPEN, 1);
    assert_eq!(lent.finish(), (1, 1));
    lent.set_count(OPEN, 0);
    assert_eq!(lent.finish(), (0, 0));
    lent.set_count(OPEN, 5);
    assert_eq!(lent.finish(), (4, 5));
}

#[test]
fn tables_made_by_hand_count_as_they_stand() {
    let mut lent = Lent::new(Arch::X86);
    assert_eq!(lent.run("n"), (0, 1, 0));
    // A jump to label 0, and an event of another kind beside the same number.
    let events = [1, 0, 2, 0, 16, 2, 2, 0, 0, 0].map(u32::to_le_bytes);
    lent.events[..40].copy_from_slice(events.as_flattened());
    lent.set_count(EVENTS, 2);
    lent.set_count(OPEN, 1);
    assert_eq!(lent.run("l 0"), (0, 1, 0));

    // A use of label 1 that is not made yet: open before it is made, and until it is bound.
    let mut lent = Lent::new(Arch::X64);
    lent.uses[4] = 1;
    lent.set_count(USES, 1);
    lent.set_count(OPEN, 1);
    assert_eq!(lent.run("n; n; l 0"), (0, 3, 1));
    assert_eq!(lent.run("l 1"), (0, 1, 0));
    assert_eq!(lent.finish(), (19, 0));
}

#[test]
fn a_direct_relocation_reads_the_labels() {
    let mut lent = Lent::new(Arch::X64);
    assert_eq!(lent.run("n; n; l 1"), (0, 3, 0));
    let labels = lent.labels;
    assert_eq!(lent.relocate(0, &labels[..7]), (1, 0), "two are counted");
    let past_limit = vec![0; 4 * (MOST_ENTRIES + 1)];
    assert_eq!(lent.relocate(0, &past_limit), (3, 0));
    assert_eq!(lent.relocate(0, &labels[..8]), (0, 1));
    assert_eq!(lent.relocate(1, &labels), (0, 1));
    assert_eq!(lent.count(RELOCS), 2);
}
