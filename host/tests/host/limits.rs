//! Tables grow to document 01's limits and no further.

use std::fmt::Write;

use wargnifla::{Arch, CodeBuffer, MOST_CODE, MOST_ENTRIES, read_text, write_sheet};

/// Makes a call 65,536 times, after some others, and once more.
fn fills(first: &str, call: &str, table: &str) {
    let mut buffer = CodeBuffer::with_symbols(Arch::X64, 1);
    for call in &read_text(first).unwrap().calls {
        buffer.call(call).unwrap();
    }
    let [call] = &read_text(call).unwrap().calls[..] else {
        panic!("one call");
    };
    for _ in 0..MOST_ENTRIES {
        buffer.call(call).unwrap();
    }
    let error = buffer.call(call).unwrap_err();
    assert_eq!(error.number(), 11, "{error}");
    let sentence = format!("the table of {table} is full, at 65,536");
    assert!(error.to_string().contains(&sentence), "{error}");
}

#[test]
fn labels() {
    fills("", "n", "labels");
}

#[test]
fn events() {
    fills("", "a 1", "events (jumps and alignments)");
    fills("b 90", "a 8 6", "events (jumps and alignments)");
}

#[test]
fn uses() {
    fills("n; l 0", "u 0 0 1", "uses");
}

#[test]
fn refs() {
    fills("n; l 0", "r 0 0 1", "refs");
}

#[test]
fn constants() {
    fills("", "c 01", "constants");
}

#[test]
fn relocations() {
    fills("", "o 0 0 s0", "relocations");
}

#[test]
fn asked_constants_need_labels() {
    let mut text = String::from("n; 65536 ( c )");
    for constant in 0..MOST_ENTRIES {
        let _ = write!(text, "; k {constant}");
    }
    let error = crate::recorded(Arch::X64, &text).unwrap_err();
    assert_eq!(error.number(), 11);
    assert!(
        error.to_string().contains("table of labels is full"),
        "{error}"
    );
}

#[test]
fn code_of_16_mib_is_taken_and_finished() {
    let mut buffer = CodeBuffer::new(Arch::X64);
    for byte in 0..16 {
        buffer.put_bytes(&vec![byte; MOST_CODE / 16]).unwrap();
    }
    assert_eq!(buffer.cur_offset() as usize, MOST_CODE);
    let code = buffer.finish().unwrap();
    assert_eq!(code.total_size(), MOST_CODE);
    assert_eq!(code.data()[MOST_CODE - 1], 15);
}

#[test]
fn code_beyond_16_mib_is_number_12() {
    let mut buffer = CodeBuffer::new(Arch::X64);
    buffer.put_bytes(&vec![0; MOST_CODE - 1]).unwrap();
    let error = buffer.put2(0).unwrap_err();
    assert_eq!(error.number(), 12);
    assert!(
        error
            .to_string()
            .contains("2 more bytes at 16777215 pass the end of the code"),
        "{error}"
    );
    assert_eq!(buffer.cur_offset() as usize, MOST_CODE - 1);
}

#[test]
fn padding_beyond_16_mib_is_number_12() {
    let mut buffer = CodeBuffer::new(Arch::AArch64);
    buffer.put_bytes(&vec![0; MOST_CODE - 5]).unwrap();
    buffer.try_align_to(4).unwrap();
    buffer.put_bytes(&[0; 4]).unwrap();
    buffer.try_align_to(4096).unwrap();
    let error = buffer.put1(0).unwrap_err();
    assert_eq!(error.number(), 12);
}

#[test]
fn a_sheet_grows_tables_for_all_its_calls() {
    let text = "20000 ( n; b 112233445566778899AABBCC; a 16; c 01; o 0 0 s0 ); l 19999; k 19999";
    let sheet = write_sheet(&read_text(text).unwrap().calls).unwrap();
    let mut buffer = CodeBuffer::with_symbols(Arch::X64, 1);
    buffer.run_sheet(&sheet).unwrap();
    let recording = buffer.recording();
    assert_eq!(recording.code_len, 20_000 * 16);
    assert_eq!(recording.labels.len(), 20_001);
    assert_eq!(recording.events.len(), 20_000);
    assert_eq!(recording.constants.len(), 20_000);
    assert_eq!(recording.relocs.len(), 20_000);
    assert_eq!(buffer.finish().unwrap().total_size(), 20_000 * 16 + 1);
}

#[test]
fn a_sheet_beyond_a_limit_stops_at_the_call_that_passes_it() {
    let sheet = write_sheet(&read_text("65537 ( n ); b 90").unwrap().calls).unwrap();
    let mut buffer = CodeBuffer::new(Arch::X64);
    let error = buffer.run_sheet(&sheet).unwrap_err();
    assert!(
        error
            .to_string()
            .starts_with("call 65536 (label): number 11, TooManyHandles"),
        "{error}"
    );
    assert_eq!(buffer.label_count() as usize, MOST_ENTRIES);
    assert_eq!(buffer.data(), []);
}
