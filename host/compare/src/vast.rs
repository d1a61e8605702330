//! More memory than 32 bits count, for joins whose pieces come to as much.

use std::ptr;
use std::sync::OnceLock;

/// What of a join is vast: the code that it takes, its output too, or neither. Vast memory is mapped and no more, so that it costs nothing where it
/// is not written; it is longer than 2^32, and all zeros.
#[derive(Clone, Copy, Debug, Default, PartialEq, Eq)]
pub enum Vast {
    #[default]
    Neither,
    Code,
    /// Code, and an output that can't be written: a join that writes to it ends the program.
    Both,
    /// Code, and an output that can be written.
    Written,
}

/// The bytes of vast code, and of a vast output.
pub const VAST: usize = (1 << 32) + (1 << 20);

/// Vast code.
pub fn code() -> &'static [u8] {
    // SAFETY: so many bytes are mapped, for good, and nobody can write them.
    unsafe { std::slice::from_raw_parts(pointer(0), VAST) }
}

impl Vast {
    pub fn is_code(self) -> bool {
        self != Self::Neither
    }

    /// Where a vast output stands, if it is one.
    pub fn output(self) -> Option<*mut u8> {
        match self {
            Self::Neither | Self::Code => None,
            Self::Both => Some(pointer(1)),
            Self::Written => Some(pointer(2)),
        }
    }
}

/// The start of the code, of the output that can't be written, of that which can.
fn pointer(which: usize) -> *mut u8 {
    static MAPPED: [OnceLock<usize>; 3] = [const { OnceLock::new() }; 3];
    let is_written = which == 2;
    let address = MAPPED[which].get_or_init(|| map(is_written).expose_provenance());
    ptr::with_exposed_provenance_mut(*address)
}

fn map(is_written: bool) -> *mut u8 {
    /// Linux's numbers, on 64 bits.
    const PROT_READ: i32 = 1;
    const PROT_WRITE: i32 = 2;
    const MAP_PRIVATE: i32 = 2;
    const MAP_ANONYMOUS: i32 = 0x20;
    const MAP_NORESERVE: i32 = 0x4000;
    const MAP_FAILED: usize = usize::MAX;
    unsafe extern "C" {
        fn mmap(
            address: *mut u8,
            length: usize,
            protection: i32,
            flags: i32,
            file: i32,
            offset: i64,
        ) -> *mut u8;
    }
    let protection = PROT_READ | if is_written { PROT_WRITE } else { 0 };
    let flags = MAP_PRIVATE | MAP_ANONYMOUS | MAP_NORESERVE;
    // SAFETY: a new mapping touches no memory that is in use.
    let start = unsafe { mmap(ptr::null_mut(), VAST, protection, flags, -1, 0) };
    assert_ne!(start.addr(), MAP_FAILED, "4 GiB of addresses are free");
    start
}
