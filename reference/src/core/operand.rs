//! Stand-ins for `Label` and `Sym`. Both are four words in asmkit, of which
//! the buffer reads the id alone; the size is kept so that tables and timings
//! are those of asmkit.

use std::cmp::Ordering;

const INVALID_ID: u32 = u32::MAX;

macro_rules! operand {
    ($name:ident, $signature:literal) => {
        #[derive(Clone, Copy, Debug, PartialEq, Eq, Hash)]
        pub struct $name {
            signature: u32,
            base_id: u32,
            data: [u32; 2],
        }

        impl $name {
            pub const fn new() -> Self {
                Self::from_id(INVALID_ID)
            }

            pub const fn from_id(id: u32) -> Self {
                Self {
                    signature: $signature,
                    base_id: id,
                    data: [0; 2],
                }
            }

            pub const fn id(&self) -> u32 {
                self.base_id
            }
        }

        impl PartialOrd for $name {
            fn partial_cmp(&self, other: &Self) -> Option<Ordering> {
                Some(self.cmp(other))
            }
        }

        impl Ord for $name {
            fn cmp(&self, other: &Self) -> Ordering {
                self.id().cmp(&other.id())
            }
        }
    };
}

operand!(Label, 5);
operand!(Sym, 6);
