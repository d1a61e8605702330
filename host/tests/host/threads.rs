//! The functions hold no state, and a thread with the stack that is said to be enough can finish and join.

use std::panic::{RefUnwindSafe, UnwindSafe};
use std::thread;

use wargnifla::{
    Arch, CodeBuffer, CodeBufferFinalized, FINISH_STACK, JOIN_STACK, Label, LabelUse, Sym, join,
};

use crate::finished;

/// Jumps of both lengths, alignments and a pooled constant.
const TEXT: &str = "n; n; c 0102030405060708; k 0; 40 ( z 5; a 8 ); z 5; j 320 5 0; z 6; j 325 6 1 ne; z 100; l 0; \
                    a 64; z 40; l 1; u 0 2 0; r 0 2 0 0; b C3";

#[test]
fn threads_finish_at_the_same_time() {
    let expected = finished(TEXT);
    thread::scope(|scope| {
        for _ in 0..8 {
            scope.spawn(|| {
                for _ in 0..50 {
                    assert_eq!(finished(TEXT), expected);
                }
            });
        }
    });
}

#[test]
fn a_small_stack_is_enough() {
    const OWN: usize = 96 * 1024;
    let small = thread::Builder::new().stack_size(FINISH_STACK + OWN);
    let finishing = small.spawn(|| finished(TEXT)).unwrap();
    assert_eq!(finishing.join().unwrap(), finished(TEXT));
}

/// Code that defines many symbols, of small and great numbers.
fn definer() -> CodeBufferFinalized {
    let mut buffer = CodeBuffer::new(Arch::X64);
    for number in (0..2_000).chain([65_535, 65_536, (1 << 31) - 1]) {
        buffer.bind_symbol(Sym::from_id(number), Label::from_id(0));
    }
    buffer.finish().unwrap()
}

#[test]
fn a_small_stack_is_enough_to_join() {
    const OWN: usize = 96 * 1024;
    let small = thread::Builder::new().stack_size(JOIN_STACK + OWN);
    let joining = small.spawn(|| {
        let pieces = [definer(), finished(TEXT)];
        join(&pieces).unwrap()
    });
    let whole = joining.unwrap().join().unwrap();
    assert_eq!(whole.bases(), [0, 0]);
}

#[test]
fn buffers_may_go_from_thread_to_thread() {
    fn is_free<T: Send + Sync + Unpin + UnwindSafe + RefUnwindSafe>() {}
    is_free::<CodeBuffer>();
}

/// What is queued is handed over by whichever thread asks first, and once.
#[test]
fn threads_see_the_same_recording() {
    for count in 0..200 {
        let mut buffer = CodeBuffer::new(Arch::X64);
        let label = buffer.get_label().unwrap();
        for _ in 0..count {
            buffer
                .use_label_at_offset(0, label, LabelUse::X86JmpRel32)
                .unwrap();
            buffer.put1(0x90).unwrap();
        }
        thread::scope(|scope| {
            for _ in 0..4 {
                scope.spawn(|| {
                    assert_eq!(buffer.clone().open(), count);
                    assert_eq!(buffer.open(), count);
                    assert_eq!(buffer.data(), vec![0x90; count as usize]);
                    assert_eq!(buffer.recording().uses.len(), count as usize);
                });
            }
        });
        buffer.try_bind_label(label).unwrap();
        assert_eq!(buffer.open(), 0);
    }
}
